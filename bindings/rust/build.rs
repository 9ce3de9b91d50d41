//! Finds the archive of the proved library, or builds it: the file that TOKENFINCH_ARCHIVE names, or else the one that
//! `tools/archive` writes in the repository, which proves what it archives and so wants the Rattle toolchain.

use std::{
    env, fs,
    path::{Path, PathBuf},
    process::{self, Command},
};

fn main() {
    println!("cargo::rerun-if-env-changed=TOKENFINCH_ARCHIVE");
    let named = env::var_os("TOKENFINCH_ARCHIVE").is_some();
    if !named && env::var("CARGO_CFG_TARGET_ARCH").as_deref() != Ok("x86_64") {
        refuse("the archive of the proved library links only into programs for x86-64: use tools/x86 cargo");
    }
    let archive = match env::var_os("TOKENFINCH_ARCHIVE") {
        Some(named) => found(PathBuf::from(named)),
        None => of_repository(),
    };
    println!("cargo::rerun-if-changed={}", archive.display());
    // A copy under the name that is linked, so that an archive of any name can be tried.
    let out = PathBuf::from(env::var_os("OUT_DIR").expect("cargo names a folder for what is built"));
    if let Err(why) = fs::copy(&archive, out.join("libtokenfinch.a")) {
        refuse(&format!("can't copy {}: {why}", archive.display()));
    }
    println!("cargo::rustc-link-search=native={}", out.display());
    println!("cargo::rustc-link-lib=static=tokenfinch");
}

/// The archive that TOKENFINCH_ARCHIVE names.
fn found(archive: PathBuf) -> PathBuf {
    if !archive.is_file() {
        refuse(&format!(
            "TOKENFINCH_ARCHIVE names {}, which is no file",
            archive.display()
        ));
    }
    archive
}

/// The repository's own archive, which is built where it isn't there yet.
fn of_repository() -> PathBuf {
    let here = PathBuf::from(env::var_os("CARGO_MANIFEST_DIR").expect("cargo names the manifest's folder"));
    let root = here.ancestors().nth(2).expect("the package stands in bindings/rust");
    let archive = root.join("target/staticlib/libtokenfinch.a");
    if !archive.is_file() {
        build(root, &archive);
    }
    archive
}

fn build(root: &Path, archive: &Path) {
    if Command::new("rt").arg("--help").output().is_err() {
        refuse(&format!(
            "no archive at {}, and no rt on this machine to prove and build it: install the Rattle toolchain, or name \
             an archive by TOKENFINCH_ARCHIVE",
            archive.display()
        ));
    }
    let told = Command::new(root.join("tools/archive")).current_dir(root).output();
    match told {
        Ok(output) if output.status.success() && archive.is_file() => {}
        Ok(output) => refuse(&format!(
            "tools/archive did not write {}: {}",
            archive.display(),
            String::from_utf8_lossy(&output.stderr)
                .lines()
                .last()
                .unwrap_or("it said nothing")
        )),
        Err(why) => refuse(&format!("tools/archive does not start: {why}")),
    }
}

fn refuse(why: &str) -> ! {
    println!("cargo::error={why}");
    process::exit(0); // cargo prints the line and stops by itself
}
