#!/usr/bin/env python3
"""Writes docs/REFERENCE.md from crates/*/src: of each library, in the order of crates.txt, what other crates can use, with its
signature and the comment above it.

usage: python3 tools/reference.py            at the top of the repository: writes the page
       python3 tools/reference.py --check    writes nothing; ends with status 1 where the page is not what it would write
"""

import pathlib
import re
import sys

PAGE = pathlib.Path("docs/REFERENCE.md")

HEAD = """# Reference

Every public item of the libraries, by crate from the lowest up: signature, arguments in their order, and the comment that stands above it in the code. What each function promises is its contract, in the file that is linked; [PROMISES](PROMISES.md) leads from a promise to its contract. The calls are told in full in [CALLS](CALLS.md), words in the [glossary](GLOSSARY.md).

A function writes only where it gets a `&mut`. This page is made by `tools/reference.py` and is not edited by hand.
"""

ITEM = re.compile(r'^(\s*)(pub )?(?:const (?=fn))?(?:unsafe )?(?:extern "C" )?(fn|struct|enum|trait|const|type|ghost)\s+(\w+)')


def libraries():
    """The libraries of crates.txt in its order, without tests and programs."""
    for line in open("crates.txt", encoding="utf-8"):
        words = line.split("#")[0].split(":")[0].split()
        if words and pathlib.Path("crates", words[0], "src/lib.rt").exists() and not words[0].endswith("_tests"):
            yield words[0]


def lines_of(path):
    return path.read_text("utf-8").split("\n")


def joined(comment):
    """The lines of a comment as one text; a list keeps its lines, each point with what is indented below it."""
    text = ""
    listed = False
    for line in comment:
        bare = line.strip()
        if bare.startswith("- "):
            text += ("\n" if listed else "\n\n") + bare
            listed = True
        elif listed and not line.startswith("  "):
            text += "\n\n" + bare
            listed = False
        else:
            text += (" " if text and bare else "") + bare
    return text


def comment_above(lines, at):
    """The comment directly above a line, past attributes, as one text."""
    while at > 0 and lines[at - 1].strip().startswith("#"):
        at -= 1
    found = []
    while at > 0 and re.match(r"\s*//", lines[at - 1]):
        at -= 1
        found.insert(0, re.sub(r"^//[/!]? ?", "", lines[at].strip()))
    return joined(found)


def head_comment(lines):
    """The comment at the top of a file."""
    end = next((i for i, line in enumerate(lines) if not line.startswith("//")), 0)
    return comment_above(lines, end)


def signature(lines, at):
    """From an item's first line to its body, its promises or its end, with what it asks for first."""
    text = []
    for line in lines[at:]:
        if re.match(r"\s*ensures\b", line) or line.strip() == "{":
            break
        text.append(line.rstrip())
        if line.rstrip().endswith(("{", ";", "{}")):
            break
    indent = len(text[0]) - len(text[0].lstrip())
    whole = "\n".join(part[indent:] for part in text)
    return re.sub(r"\s*(\{\}|\{|;)$", "", whole)


def fields(lines, at, kind):
    """A struct's public fields, or an enum's cases, with their comments."""
    if not lines[at].rstrip().endswith("{"):
        return []
    kept = []
    for line in lines[at + 1 :]:
        if line.startswith("}"):
            break
        bare = line.strip()
        if bare and (kind == "enum" or bare.startswith(("pub ", "//"))):
            kept.append(line)
    while kept and kept[-1].strip().startswith("//"):
        kept.pop()
    return kept


def module_files(path, public=True):
    """A crate's files from its root on, by its `mod` lines, each with whether its items can be named from outside."""
    yield path, public
    folder = path.parent if path.name == "lib.rt" else path.parent / path.stem
    for line in lines_of(path):
        found = re.match(r"(pub )?mod (\w+);", line)
        if found:
            yield from module_files(folder / f"{found.group(2)}.rt", public and bool(found.group(1)))


def entry(name, note, code):
    return [f"**`{name}`** {note}".rstrip(), "", f"```rust\n{code}\n```", ""]


def impl_of(line):
    """The trait, if any, and the type of an impl's first line."""
    found = re.match(r"(?:pub )?impl\b(.*)\{", line)
    if not found:
        return None
    rest = found.group(1).strip()
    if rest.startswith("<"):
        depth = 0
        for at, sign in enumerate(rest):
            depth += {"<": 1, ">": -1}.get(sign, 0)
            if depth == 0:
                rest = rest[at + 1 :].strip()
                break
    trait, _, kind = rest.rpartition(" for ")
    return trait, re.match(r"\w+", kind or rest).group()


def file_entries(path, public, types):
    """What one file offers. Methods of a public type count, whatever file they stand in."""
    lines = lines_of(path)
    found = []
    owner = None
    in_trait = False
    for at, line in enumerate(lines):
        impl = impl_of(line)
        if impl:
            trait, kind = impl
            owner, in_trait = (kind, False) if kind in types and not trait else (None, False)
            if trait and kind in types:
                found += [f"**`{line.strip().rstrip('{ ')}`** {comment_above(lines, at)}".rstrip(), ""]
            continue
        if public and line.startswith("pub use "):
            found += [f"Also named here: `{line.strip()[8:].rstrip(';')}`", ""]
            continue
        item = ITEM.match(line)
        if not item:
            continue
        indent, shown, kind, name = item.groups()
        if indent == "":
            owner, in_trait = (name, True) if kind == "trait" and public else (None, False)
            if shown and public:
                inner = fields(lines, at, kind) if kind in ("struct", "enum") else []
                code = signature(lines, at) + ("".join(["\n{\n", "\n".join(inner), "\n}"]).replace("\n{", " {", 1) if inner else "")
                found += entry(name, comment_above(lines, at), code)
        elif indent == "    " and owner and (shown or in_trait) and kind in ("fn", "const", "type", "ghost"):
            note = comment_above(lines, at)
            if kind == "ghost":
                note = f"(for the prover) {note}".rstrip()
            found += entry(f"{owner}::{name}", note, signature(lines, at))
    return found


def page():
    names = list(libraries())
    out = [HEAD, "Crates: " + ", ".join(f"[`{name}`](#{name})" for name in names) + ".\n"]
    for crate in names:
        root = pathlib.Path("crates", crate, "src")
        files = list(module_files(root / "lib.rt"))
        types = set()
        for path, public in files:
            if public:
                types.update(re.findall(r"^pub (?:struct|enum|trait|type) (\w+)", path.read_text("utf-8"), re.M))
        out.append(f'<a id="{crate}"></a>\n## {crate}\n')
        note = head_comment(lines_of(root / "lib.rt"))
        out.append((note + "\n") if note else "")
        offered = False
        for path, public in files:
            entries = file_entries(path, public, types)
            if entries:
                offered = True
                about = "" if path.name == "lib.rt" else " " + head_comment(lines_of(path))
                out.append(f"In [{path.relative_to(root)}](../{path}):{about}\n")
                out.extend(entries)
        if not offered:
            out.append("Nothing that runs: definitions and lemmas for the prover.\n")
    return re.sub(r"\n{3,}", "\n\n", "\n".join(out)).rstrip() + "\n"


def main():
    text = page()
    if "--check" in sys.argv[1:]:
        if not PAGE.exists() or PAGE.read_text("utf-8") != text:
            print(f"{PAGE} is not what tools/reference.py writes", file=sys.stderr)
            return 1
        return 0
    PAGE.write_text(text, "utf-8")
    return 0


if __name__ == "__main__":
    sys.exit(main())
