//! Tells the linker where the archive is: the file that SIGBROL_ARCHIVE names, or the one that `rt lib` makes in crates/sigbrol.

use std::env;
use std::path::PathBuf;

fn main() {
    println!("cargo:rerun-if-env-changed=SIGBROL_ARCHIVE");
    let archive = env::var_os("SIGBROL_ARCHIVE").map_or_else(
        || PathBuf::from(env!("CARGO_MANIFEST_DIR")).join("../crates/sigbrol/out/libsigbrol.a"),
        PathBuf::from,
    );
    println!("cargo:rerun-if-changed={}", archive.display());
    println!("cargo:rustc-link-arg-bins={}", archive.display());
}
