#!/bin/sh
# measure.sh PROGRAM: instructions of PROGRAM and of peer-shed on a schedule of 65,536 bytes for each rule; and of recount of 16
# stations over 4,095 rounds and 65,536 words, by the library and by the peer, each called from the same small binary.
# The product is crates/shed/out/shed, which `rt run < stdin` in crates/shed leaves there, and the static library of crates/peer_bridge,
# which `rt lib` makes there; BRIDGE=DIR takes the libpeer_bridge.a of that folder in its place.
set -eu
program=${1:?measure.sh PROGRAM}
here=$(cd "$(dirname "$0")" && pwd)
. "$here/bridge.sh"
(cd "$here" && nice -n 10 cargo build --release --offline --quiet)
(cd "$here/calls" && nice -n 10 cargo build --release --offline --quiet)
bin=${CARGO_TARGET_DIR:-$here/target}/release
calls=${CARGO_TARGET_DIR:-$here/calls/target}/release
dir=$(mktemp -d)
trap 'rm -rf "$dir"' EXIT
cp "$program" "$dir/program"
chmod +x "$dir/program"
"$bin/generate" --longest "$dir"

# Instructions of a command on a file: by perf where it counts, by callgrind otherwise.
count() {
    file=$1
    shift
    n=$(perf stat -x, -e instructions:u "$@" < "$file" 2>&1 >/dev/null | sed -n 's/^\([0-9][0-9]*\),.*instructions.*/\1/p') || n=
    if [ -z "$n" ]; then
        n=$(nice -n 10 valgrind --tool=callgrind --callgrind-out-file=/dev/null "$@" < "$file" 2>&1 >/dev/null |
            sed -n 's/.*Collected : \([0-9]*\).*/\1/p')
    fi
    echo "$n"
}

ratio() {
    awk "BEGIN { printf \"%.2f\", $1 / $2 }"
}

for rule in third last; do
    text=$dir/longest-$rule.schedule
    one=$(count "$text" "$dir/program")
    two=$(count "$text" "$bin/peer-shed")
    steps=$(($(wc -l < "$text") - 2))
    echo "$rule: $(wc -c < "$text") bytes, $steps steps: PROGRAM $one instructions, peer-shed $two, ratio $(ratio "$one" "$two"), $((one / steps)) and $((two / steps)) per step"
done

# A run that makes the book and calls nobody is taken off, so that the call alone is counted.
for rule in third last; do
    none=$(count /dev/null "$calls/measure-recount" none "$rule")
    one=$(($(count /dev/null "$calls/measure-recount" product "$rule") - none))
    two=$(($(count /dev/null "$calls/measure-recount" peer "$rule") - none))
    echo "$rule: recount of 16 stations over 4095 rounds and 65536 words: library $one instructions, peer $two, ratio $(ratio "$one" "$two")"
done
