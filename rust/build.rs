//! Finds or builds the static library, and links it.
//!
//! In this order: the folder that `STREAMVAULT_LIB_DIR` names; `tools/library`, where `rt` is on the path; the archive
//! that an earlier `tools/library` left in the repository.

use std::env;
use std::fs;
use std::path::{Path, PathBuf};
use std::process::{exit, Command};

const ARCHIVE: &str = "libcapi.a";

fn main() {
    println!("cargo:rerun-if-changed=build.rs");
    println!("cargo:rerun-if-env-changed=STREAMVAULT_LIB_DIR");
    refuse_other_targets();
    let found = archive();
    let out = PathBuf::from(variable("OUT_DIR"));
    let copy = out.join(ARCHIVE);
    if let Err(error) = fs::copy(&found, &copy) {
        fail(&format!("{} cannot be copied: {error}", found.display()));
    }
    println!("cargo:rustc-link-search=native={}", out.display());
    println!("cargo:rustc-link-lib=static=capi");
    println!("cargo:rustc-env=STREAMVAULT_ARCHIVE={}", copy.display());
}

/// The archive holds x86-64 code for Linux and links into nothing else.
fn refuse_other_targets() {
    let arch = variable("CARGO_CFG_TARGET_ARCH");
    let os = variable("CARGO_CFG_TARGET_OS");
    if arch != "x86_64" || os != "linux" {
        fail(&format!(
            "the static library is for x86-64 Linux only, and this build is for {arch} {os}. \
             Build with --target x86_64-unknown-linux-gnu; .ci/rust runs the tests that way where the cross tools are installed"
        ));
    }
}

/// Where the archive lies, built if it can be.
fn archive() -> PathBuf {
    if let Some(folder) = env::var_os("STREAMVAULT_LIB_DIR") {
        let path = Path::new(&folder).join(ARCHIVE);
        println!("cargo:rerun-if-changed={}", path.display());
        return given(path, "STREAMVAULT_LIB_DIR names a folder without it");
    }
    let root = Path::new(&variable("CARGO_MANIFEST_DIR")).join("..");
    let left = root.join("target/staticlib").join(ARCHIVE);
    if on_path("rt") && root.join("crates.txt").is_file() {
        rerun_if_changed(&root);
        prove(&root);
        return given(left, "tools/library left none");
    }
    println!("cargo:rerun-if-changed={}", left.display());
    given(
        left,
        "to build it takes rt on the path and the repository around this package. STREAMVAULT_LIB_DIR can name a folder that has it",
    )
}

/// The build is done anew where a source, a definition or a proof changed; what `rt` keeps in `out` beside them does not count.
fn rerun_if_changed(root: &Path) {
    println!("cargo:rerun-if-changed={}", root.join("crates.txt").display());
    let Ok(crates) = fs::read_dir(root.join("crates")) else {
        fail("the repository has no crates/");
    };
    for folder in crates.flatten() {
        for part in ["src", "specs", "proofs"] {
            let part = folder.path().join(part);
            if part.is_dir() {
                println!("cargo:rerun-if-changed={}", part.display());
            }
        }
    }
}

/// The archive, if it is there.
fn given(path: PathBuf, otherwise: &str) -> PathBuf {
    if !path.is_file() {
        fail(&format!("no {}: {otherwise}", path.display()));
    }
    path
}

/// Proves the exported functions and writes the archive.
fn prove(root: &Path) {
    let done = Command::new(root.join("tools/library")).output();
    match done {
        Ok(output) if output.status.success() => {}
        Ok(output) => {
            eprint!("{}", String::from_utf8_lossy(&output.stdout));
            eprint!("{}", String::from_utf8_lossy(&output.stderr));
            fail("`tools/library` did not prove the library");
        }
        Err(error) => fail(&format!("tools/library cannot be run: {error}")),
    }
}

/// Whether a program of this name is on the path.
fn on_path(program: &str) -> bool {
    let Some(path) = env::var_os("PATH") else {
        return false;
    };
    env::split_paths(&path).any(|folder| folder.join(program).is_file())
}

/// A variable that cargo sets for build scripts.
fn variable(name: &str) -> String {
    env::var(name).unwrap_or_else(|_| fail(&format!("cargo did not set {name}")))
}

fn fail(message: &str) -> ! {
    eprintln!("streamvault: {message}");
    exit(1)
}
