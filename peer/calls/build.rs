//! Links the static library: BRIDGE is the folder of libpeer_bridge.a, ../../crates/peer_bridge/out where it is not given.

use std::path::Path;

fn main() {
    let folder = std::env::var("BRIDGE").unwrap_or_else(|_| "../../crates/peer_bridge/out".to_string());
    let folder = std::fs::canonicalize(&folder).unwrap_or_else(|_| panic!("{folder}: no such folder; run rt lib in crates/peer_bridge"));
    println!("cargo:rerun-if-env-changed=BRIDGE");
    println!("cargo:rerun-if-changed={}", Path::new(&folder).join("libpeer_bridge.a").display());
    println!("cargo:rustc-link-search=native={}", folder.display());
    println!("cargo:rustc-link-lib=static=peer_bridge");
}
