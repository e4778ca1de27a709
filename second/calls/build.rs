//! Hands the archive that SIGBROL_ARCHIVE names to the linker of the binary; the tests of the library need none.

use std::env;

fn main() {
    println!("cargo:rerun-if-env-changed=SIGBROL_ARCHIVE");
    if let Ok(archive) = env::var("SIGBROL_ARCHIVE") {
        println!("cargo:rerun-if-changed={archive}");
        println!("cargo:rustc-link-arg-bins={archive}");
    }
}
