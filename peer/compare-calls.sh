#!/bin/sh
# compare-calls.sh [COUNT] [SEED]: compares the library's calls with the peer's on COUNT made inputs.
# It builds the static library of crates/peer_bridge (`rt lib` proves it first), links it, and compares every number.
# BRIDGE=DIR takes the libpeer_bridge.a of that folder in its place.
set -eu
here=$(cd "$(dirname "$0")" && pwd)
. "$here/bridge.sh"
(cd "$here/calls" && nice -n 10 cargo build --release --offline --quiet)
exec nice -n 10 "${CARGO_TARGET_DIR:-$here/calls/target}/release/compare-calls" "${1:-25000}" "${2:-1}"
