//! Finds the archive of the proved library: the file that TOKENFINCH_ARCHIVE names, or else the one
//! that `tools/archive` writes.

use std::{env, path::PathBuf, process};

fn main() {
    let here = PathBuf::from(env::var("CARGO_MANIFEST_DIR").expect("cargo names the manifest's folder"));
    let root = here
        .ancestors()
        .nth(3)
        .expect("the package stands in tests/rust/compare");
    let archive =
        env::var_os("TOKENFINCH_ARCHIVE").map_or_else(|| root.join("target/staticlib/libtokenfinch.a"), PathBuf::from);
    println!("cargo::rerun-if-env-changed=TOKENFINCH_ARCHIVE");
    println!("cargo::rerun-if-changed={}", archive.display());
    if env::var("CARGO_CFG_TARGET_ARCH").as_deref() != Ok("x86_64") {
        refuse("the archive of the proved library links only into programs for x86-64");
    }
    let Ok(archive) = archive.canonicalize() else {
        refuse(&format!(
            "no archive at {}: run tools/archive in the repository first",
            archive.display()
        ));
    };
    // By its path, so that an archive of any name can be tried.
    println!("cargo::rustc-link-arg-bins={}", archive.display());
}

fn refuse(why: &str) -> ! {
    println!("cargo::error={why}");
    process::exit(0); // cargo prints the line and stops by itself
}
