#!/bin/sh
# compare.sh PROGRAM [COUNT] [SEED]: compares PROGRAM with peer-shed on COUNT made schedules.
# The product is crates/shed/out/shed, which `rt run < stdin` in crates/shed leaves there.
# KEEP=DIR keeps the schedules in DIR instead of a temporary folder.
set -eu
program=${1:?compare.sh PROGRAM [COUNT] [SEED]}
count=${2:-20000}
seed=${3:-1}
here=$(cd "$(dirname "$0")" && pwd)
(cd "$here" && nice -n 10 cargo build --release --offline --quiet)
bin=${CARGO_TARGET_DIR:-$here/target}/release
if [ -n "${KEEP:-}" ]; then
    dir=$KEEP
    mkdir -p "$dir"
else
    dir=$(mktemp -d)
    trap 'rm -rf "$dir"' EXIT
fi
# The program is copied first, so that a rebuild does not get in between.
copy=$(mktemp)
cp "$program" "$copy"
chmod +x "$copy"
nice -n 10 "$bin/generate" "$seed" "$count" "$dir"
status=0
nice -n 10 "$bin/compare" "$copy" "$bin/peer-shed" "$dir" > "$dir/report" || status=$?
cat "$dir/report"
if [ "$status" -ne 0 ]; then
    first=$(sed -n 's/^first that differs: //p' "$dir/report")
    small=$(sed -n 's/^smallest that differs: \(.*\) (.*/\1/p' "$dir/report")
    cp "$first" "${TMPDIR:-/tmp}/differs-first.schedule" 2>/dev/null || true
    cp "$small" "${TMPDIR:-/tmp}/differs-smallest.schedule" 2>/dev/null || true
    echo "copies: ${TMPDIR:-/tmp}/differs-first.schedule, ${TMPDIR:-/tmp}/differs-smallest.schedule"
fi
rm -f "$copy"
exit "$status"
