# Read by the scripts that link the library: sets BRIDGE to the folder of libpeer_bridge.a. Without one, `rt lib` proves and builds it in
# crates/peer_bridge; BRIDGE=DIR takes another folder's.
if [ -z "${BRIDGE:-}" ]; then
    (cd "$here/../crates/peer_bridge" && rt lib > /dev/null)
    BRIDGE=$here/../crates/peer_bridge/out
fi
export BRIDGE
