//! Links the proved archive, and the C code that it calls if it allocates.
//! `bench/run` says where the two are.

use std::env;

fn main() {
    let archive = variable("PROVED_ARCHIVE");
    link(archive.as_deref().unwrap_or(concat!(
        env!("CARGO_MANIFEST_DIR"),
        "/../crates/exports/out/libexports.a"
    )));
    // After the proved archive, since it serves that one.
    if let Some(archive) = variable("RATTLE_C_ARCHIVE") {
        link(&archive);
    }
}

fn variable(name: &str) -> Option<String> {
    println!("cargo::rerun-if-env-changed={name}");
    env::var(name).ok()
}

fn link(archive: &str) {
    println!("cargo::rerun-if-changed={archive}");
    println!("cargo::rustc-link-arg-bins={archive}");
}
