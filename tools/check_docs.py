#!/usr/bin/env python3
"""Checks what the pages (README.md, docs/, examples/README.md, peer/README.md) say of the repository:

- links and anchors, paths, names beside a link to a source file, and names of the code anywhere;
- that each public function stands among the promises; the parts of the guarantee, the map of the crates, the edits that are named;
- constants, the numbers of refusals and faults, counted lines and edits, and that no public function has a precondition;
- the examples that can be followed by hand, the program that the first page shows, and that docs/REFERENCE.md is fresh.

Prints each thing that is not so, and ends with status 1 if there is one.

usage: python3 tools/check_docs.py              at the top of the repository
       python3 tools/check_docs.py --write      writes the counted numbers into docs/MAINTAINING.md first, and docs/REFERENCE.md
       python3 tools/check_docs.py --program P  also runs the program P on every schedule of the pages, and compares
       python3 tools/check_docs.py --guide D    only writes the files of docs/WRITE-A-RULE.md below the folder D, to be checked there
"""

import pathlib
import re
import subprocess
import sys

PAGES = [pathlib.Path("README.md"), *sorted(pathlib.Path("docs").glob("*.md")), pathlib.Path("examples/README.md"), pathlib.Path("peer/README.md")]
# Pages on what was: their names are those of that time.
HISTORY = {"PORT.md", "DESIGN-PASS.md", "LOOK-BACK.md"}
# What a build, or whoever follows a page, makes.
MADE = ("crates/my_program", "crates/shed/out", "crates/peer_bridge/out", "target/")
# Names of the kit, of Rust and of the pages' own examples that stand in no file of ours.
ELSEWHERE = set("dyn Display split_inclusive iter_mut from_utf8 TryFrom FromStr my_program".split())

said = []


def wrong(page, line, text):
    said.append(f"{page}:{line}: {text}")


def tracked():
    return subprocess.run(["git", "ls-files"], capture_output=True, text=True, check=True).stdout.split()


# ---- links and anchors


def slug(title):
    title = re.sub(r"\[([^\]]*)\]\([^)]*\)", r"\1", re.sub(r"<[^>]*>", "", title)).strip().lower()
    return re.sub(r"[^\w\- ]", "", title).replace(" ", "-")


def outside_code(text):
    """The lines of a page with their numbers, without what stands in fences."""
    fenced = False
    for number, line in enumerate(text.split("\n"), 1):
        if line.strip().startswith("```"):
            fenced = not fenced
        elif not fenced:
            yield number, line


def anchors(page):
    text = page.read_text("utf-8")
    found = set(re.findall(r'<a id="([^"]+)"', text))
    for _, line in outside_code(text):
        if re.match(r"#+ ", line):
            found.add(slug(line.lstrip("#")))
    return found


def links(line):
    return [(text, target) for text, target in re.findall(r"\[((?:[^\[\]]|\[[^\]]*\])*)\]\(([^)\s]+)\)", line) if "://" not in target]


def check_links(page):
    for number, line in outside_code(page.read_text("utf-8")):
        for _, target in links(line):
            path, _, anchor = target.partition("#")
            there = page if not path else page.parent / path
            if not there.exists():
                wrong(page, number, f"no such file: {target}")
            elif anchor and there.suffix == ".md" and anchor not in anchors(there):
                wrong(page, number, f"no such anchor: {target}")


# ---- paths and names


def words_of(path):
    return set(re.findall(r"[^\W\d][\w]*", path.read_text("utf-8", errors="replace")))


def declared_in(path):
    """What a file of definitions declares, and every word of any other file."""
    if path.suffix != ".antt":
        return words_of(path) | {path.stem}
    declared = re.findall(r"^\s*(?:abbrev |unfoldable )?(?:pub )?(?:record )?([^\W\d]\w*)\s*[:({]", path.read_text("utf-8"), re.M)
    return set(declared) | {path.stem}


def code_words():
    """Every word of the code, the definitions and the proofs, and of the names of files."""
    found = set()
    for name in tracked():
        if not name.endswith(".md") and not name.startswith("tools/") and pathlib.Path(name).exists():
            found |= words_of(pathlib.Path(name))
        found.update(re.findall(r"[^\W\d]\w*", name))
    return found


def ticks(text):
    return re.findall(r"`([^`]+)`", text)


def names_in(tick):
    """The names of the code in something between backticks: of `Shed::open`, both. None of a command, a message or hexadecimal."""
    if re.match(r"(rt|git|bash|python3|cargo|Error:) ?", tick) and " " in tick or re.fullmatch(r"[0-9A-F ]+", tick):
        return []
    return re.findall(r"[^\W\d]\w*", tick) if re.fullmatch(r"[\w:<>, &'\[\]()]+", tick) else []


def source(page, target):
    path = page.parent / target.partition("#")[0]
    return path if path.suffix in (".rt", ".antt", ".rs", ".sh", ".py") and path.exists() else None


def check_names(page, known):
    text = page.read_text("utf-8")
    shown = {name for _, body in fenced(text) for name in re.findall(r"[^\W\d]\w*", body)}
    made = MADE + tuple("/".join(name.split("/")[:2]) for name in guide_files(text))
    known = known | shown
    for number, line in outside_code(text):
        if line.startswith("    "):
            continue
        for tick in ticks(line):
            path = re.fullmatch(r"(?:\.\./)*((?:crates|docs|examples|tools|peer|\.ci)/[\w./-]+)", tick)
            if path and not any(m in tick for m in made) and not (page.parent / tick).exists() and not pathlib.Path(tick).exists():
                wrong(page, number, f"no such path: {tick}")
            for name in names_in(tick):
                if len(name) > 1 and name not in known and name not in ELSEWHERE:
                    wrong(page, number, f"no such name in the code: {name}")
        for cell in line.split("|") if line.startswith("|") else []:
            for crate, labels in re.findall(r"`(\w+)`: ((?:`\w+`(?:, )?)+)", cell):
                for label in ticks(labels):
                    if not pathlib.Path("crates", crate, "must-fail", f"{label}.edit").exists():
                        wrong(page, number, f"no such edit: {crate}/must-fail/{label}.edit")
            files = [f for f in (source(page, target) for _, target in links(cell)) if f]
            if files:
                there = set().union(*(declared_in(f) for f in files))
                for name in (n for tick in ticks(cell) for n in names_in(tick)):
                    if name not in there:
                        wrong(page, number, f"{name} does not stand in {', '.join(str(f) for f in files)}")
        if not line.startswith("|"):
            for text, target in links(line):
                file = source(page, target)
                for name in (n for tick in ticks(text) for n in names_in(tick)):
                    if file and name not in declared_in(file):
                        wrong(page, number, f"{name} does not stand in {file}")


# ---- numbers that are counted


def crate_names():
    return [line.split(":")[0].split()[0] for line in open("crates.txt", encoding="utf-8") if line.split("#")[0].strip()]


def count_lines(crate, folder):
    files = [path for path in pathlib.Path("crates", crate, folder).rglob("*") if path.suffix in (".rt", ".antt")]
    return sum(len(path.read_text("utf-8").split("\n")) - 1 for path in files)


def counted():
    """The table of what there is, as MAINTAINING shows it."""
    names = crate_names()
    rows = [
        "| crate | code (`src/`) | definitions and statements (`specs/`) | proofs (`proofs/`) | edits (`must-fail/`) |",
        "|---|---|---|---|---|",
    ]
    sums = [0, 0, 0, 0]
    for name in names:
        row = [count_lines(name, folder) for folder in ("src", "specs", "proofs")]
        row.append(len(list(pathlib.Path("crates", name, "must-fail").glob("*.edit"))))
        sums = [a + b for a, b in zip(sums, row)]
        rows.append(f"| `{name}` | " + " | ".join(f"{n:,}" if n else "" for n in row) + " |")
    rows.append(f"| {len(names)} crates | " + " | ".join(f"{n:,}" for n in sums) + " |")
    return "\n".join(rows)


# Constants of the code, and the page that tells each.
CONSTANTS = {
    "LAST_ROUND": "docs/RULES.md",
    "MAX_POOL": "docs/CALLS.md",
    "MAX_BOOK": "docs/CALLS.md",
    "MAX_BYTES": "docs/SCHEDULE.md",
    "MAX_VALUES": "docs/SCHEDULE.md",
    "POOL_WORDS": "docs/SCHEDULE.md",
    "BOOK_WORDS": "docs/SCHEDULE.md",
}


def check_numbers():
    """Constants and the numbers of refusals and faults are told as the code has them."""
    code = "\n".join(path.read_text("utf-8") for path in sorted(pathlib.Path("crates").glob("*/src/**/*.rt")))
    values = dict(re.findall(r"const (\w+): \w+ = (\w+);", code))
    for name, page in CONSTANTS.items():
        value = values.get(name, "")
        value = values.get(value, value)
        if not value.isdigit() or not re.search(rf"(?<![\d,]){int(value):,}(?![\d,]*\d)", pathlib.Path(page).read_text("utf-8")):
            wrong(page, 0, f"{name} is not told")
    table = dict(re.findall(r"^    (\w+) = (\d+),", pathlib.Path("crates/refusal_numbers/src/lib.rt").read_text("utf-8"), re.M))
    rows = re.findall(r"^\| (\d+) \| `Refusal::(\w+)` \|", pathlib.Path("docs/CALLS.md").read_text("utf-8"), re.M)
    told = {name: number for number, name in rows}
    calls = {name for name in table if int(table[name]) < int(table["TooLong"])}
    if told != {name: table[name] for name in calls}:
        wrong("docs/CALLS.md", 0, "the refusals are not those of the table of numbers")
    page = pathlib.Path("docs/SCHEDULE.md").read_text("utf-8").partition("## Faults")[2].partition("Of 17 to 20")[0]
    faults = re.findall(r"^\| (\d+) \| [^`|]+ \| [^|]+ \|$", page, re.M)
    if set(faults) != set(table.values()) - set(told.values()):
        wrong("docs/SCHEDULE.md", 0, "the faults are not those of the table of numbers")


COUNTS = re.compile(r"(<!-- counted -->\n).*?(<!-- /counted -->)", re.S)


def check_counts(write):
    page = pathlib.Path("docs/MAINTAINING.md")
    text = page.read_text("utf-8")
    fresh = COUNTS.sub(lambda m: m.group(1) + counted() + "\n" + m.group(2), text)
    if write:
        page.write_text(fresh, "utf-8")
    elif fresh != text or not COUNTS.search(text):
        wrong(page, 0, "the counted numbers are not fresh (--write writes them)")


# ---- examples


def fenced(text):
    return re.findall(r"^```(\w*)\n(.*?)^```", text, re.M | re.S)


def check_pool(page):
    """A table with the pool after each step: the frames are made, taken out and copied again, for a rule whose stations always write to all."""
    pool, rounds, stations = [], {}, 0
    for number, line in outside_code(page.read_text("utf-8")):
        cells = [cell.strip().strip("`") for cell in line.strip().strip("|").split("|")]
        if len(cells) < 4 or not re.fullmatch(r"\d+", cells[0]):
            continue
        step = re.fullmatch(r"([sdxrtc]) (\d+)", cells[1])
        if cells[1].startswith("values "):
            pool, rounds, stations = [], {}, len(cells[1].split()) - 1
        if not step:
            continue
        if not stations:
            stations = 2
        letter, at = step.group(1), int(step.group(2))
        if cells[0] == "3" and letter == "s":
            pool, rounds = [], {}
        if not re.search(r"refused", " ".join(cells[2:])):
            if letter == "s":
                pool += [f"{at}>{q}@{rounds.get(at, 0)}" for q in range(stations)]
            elif letter == "r":
                pool.append(pool[at])
            elif letter in "dx":
                pool[at] = pool[-1]
                pool.pop()
            elif letter == "t":
                rounds[at] = rounds.get(at, 0) + 1
        shown = next((cell for cell in cells[2:] if re.match(r"\d+>\d+@\d+|empty$|the same$", cell)), None)
        if shown not in ("the same", ", ".join(pool) or "empty"):
            wrong(page, number, f"the pool is {', '.join(pool) or 'empty'}")


def indented(path):
    return "".join(f"    {line}\n" for line in path.read_text("utf-8").split("\n")[:-1])


def check_shown():
    """What the first page shows of files is what stands in them."""
    readme = pathlib.Path("README.md").read_text("utf-8")
    first = pathlib.Path("examples/first.schedule").read_text("utf-8").split("\n")[:-1]
    table = re.findall(r"^\| (\d+) \| `([^`]+)` \|", readme, re.M)
    if [text for _, text in table] != first or [int(n) for n, _ in table] != list(range(1, len(first) + 1)):
        wrong("README.md", 0, "the table's lines are not those of examples/first.schedule")
    if indented(pathlib.Path("examples/first.listing")) not in readme:
        wrong("README.md", 0, "examples/first.listing is not shown")
    example = pathlib.Path("crates/library_example")
    if f"```rust\n{(example / 'src/main.rt').read_text('utf-8')}```" not in readme:
        wrong("README.md", 0, "the program of library_example is not shown as it is")
    if indented(example / "stdout") not in readme:
        wrong("README.md", 0, "what library_example prints is not shown as it is")


def check_promises():
    """Each public function stands among the promises; a rule's do as the methods of the trait."""
    promises = set(n for tick in ticks(pathlib.Path("docs/PROMISES.md").read_text("utf-8")) for n in names_in(tick))
    reference = pathlib.Path("docs/REFERENCE.md").read_text("utf-8")
    for entry in re.split(r"^(?=\*\*`)", reference, flags=re.M):
        name = "".join(re.findall(r"\A\*\*`([\w:]+)`\*\*", entry))
        code = "".join(re.findall(r"^```rust\n(.*?)^```", entry, re.M | re.S)[:1])
        if re.search(r"\bfn ", code) and not name.startswith("Rule::") and name.split("::")[-1] not in promises:
            wrong("docs/PROMISES.md", 0, f"{name} is not told")


def check_guarantee():
    """The page on the guarantee names each of its parts, and no other."""
    page = pathlib.Path("docs/GUARANTEE.md").read_text("utf-8").partition("## What it says")[2].partition("Beside it")[0]
    spec = pathlib.Path("crates/protocol/specs/Guarantee.antt").read_text("utf-8").partition("pub record Guarantee ")[2].partition("\n\n")[0]
    parts = set(re.findall(r"^ +pub (\w+) :", spec, re.M))
    for name in parts ^ {name for tick in re.findall(r"\(((?:`\w+`(?:, )?)+)\)", page) for name in ticks(tick)}:
        wrong("docs/GUARANTEE.md", 0, f"the part {name} is not told, or is none")


def check_house():
    """The map on the first page: each crate has one sentence, and stands above those that it uses."""
    readme = pathlib.Path("README.md").read_text("utf-8")
    uses = {}
    for line in open("crates.txt", encoding="utf-8"):
        if line.split("#")[0].strip():
            head, _, below = line.partition(":")
            uses[head.split()[0]] = below.split()
    table = readme.partition("| crate | in a sentence |")[2].partition("\n\n")[0]
    told = re.findall(r"`(\w+)`", "\n".join(line.split("|")[1] for line in table.split("\n") if line.startswith("| `")))
    for name in sorted(set(uses) ^ set(told)) + [name for name in set(told) if told.count(name) > 1]:
        wrong("README.md", 0, f"the crate {name} is not told once")
    floors = readme.partition("From the top:\n\n")[2].partition("\n\n")[0].split("\n")
    floor = {name: at for at, line in enumerate(floors) for name in line.split()}
    for name in floor:
        if name not in uses:
            wrong("README.md", 0, f"there is no crate {name}")
        for below in uses.get(name, []):
            if below in uses and floor.get(below, -1) <= floor[name]:
                wrong("README.md", 0, f"{name} uses {below}, which does not stand below it")


def run(program, text):
    return subprocess.run([program], input=text.encode("utf-8"), capture_output=True, check=False).stdout.decode("utf-8")


def check_program(program):
    for path in sorted(pathlib.Path("examples").glob("*.schedule")):
        if run(program, path.read_text("utf-8")) != path.with_suffix(".listing").read_text("utf-8"):
            wrong(path, 0, "the program prints another listing")
    page = pathlib.Path("docs/SCHEDULE.md")
    text = page.read_text("utf-8")
    blocks = [body for _, body in fenced(text)]
    for one, two in zip(blocks, blocks[1:]):
        if one.startswith("rule ") and run(program, one) != two:
            wrong(page, 0, f"the program prints another listing of {one!r}")
    for shown, printed in re.findall(r"^\| `([^`]*\\n[^`]*|[a-z ]+)` \| `(fault [^`]+)` \|", text, re.M):
        made = shown.replace("\\n", "\n").replace("\\r", "\r")
        if run(program, made) != printed + "\n":
            wrong(page, 0, f"the program prints {run(program, made)!r} of {shown}")


def guide_files(text):
    """The files that a page shows whole, by their names."""
    return dict(re.findall(r"^File `([^`]+)`:\n\n```\w*\n(.*?)^```", text, re.M | re.S))


def write_guide(folder):
    for name, body in guide_files(pathlib.Path("docs/WRITE-A-RULE.md").read_text("utf-8")).items():
        path = pathlib.Path(folder, name)
        path.parent.mkdir(parents=True, exist_ok=True)
        path.write_text(body, "utf-8")


def main():
    args = sys.argv[1:]
    if "--guide" in args:
        write_guide(args[args.index("--guide") + 1])
        return 0
    write = "--write" in args
    if write:
        subprocess.run([sys.executable, "tools/reference.py"], check=True)
    elif subprocess.run([sys.executable, "tools/reference.py", "--check"], capture_output=True, check=False).returncode:
        wrong("docs/REFERENCE.md", 0, "not fresh (tools/reference.py writes it)")
    for number, line in enumerate(pathlib.Path("docs/REFERENCE.md").read_text("utf-8").split("\n"), 1):
        if line.lstrip().startswith("requires"):
            wrong("docs/REFERENCE.md", number, f"a public function has a precondition: {line.strip()}")
    check_counts(write)
    known = code_words()
    for page in PAGES:
        check_links(page)
        if page.name not in HISTORY:
            check_names(page, known)
    check_pool(pathlib.Path("README.md"))
    check_pool(pathlib.Path("docs/SCHEDULE.md"))
    check_shown()
    check_house()
    check_promises()
    check_guarantee()
    check_numbers()
    if "--program" in args:
        check_program(args[args.index("--program") + 1])
    print("\n".join(said + [f"{len(PAGES)} pages, {len(said)} things that are not so"]))
    return 1 if said else 0


if __name__ == "__main__":
    sys.exit(main())
