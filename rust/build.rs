//! Finds the proved library `libcapture.a`, or has it built, and links it.

use std::env;
use std::path::{Path, PathBuf};
use std::process::{exit, Command};

const ARCHIVE: &str = "libcapture.a";

fn main() {
    println!("cargo:rerun-if-env-changed=BLOSSOMAXLE_LIB_DIR");
    check_target();
    let dir = match env::var_os("BLOSSOMAXLE_LIB_DIR") {
        Some(dir) => given(PathBuf::from(dir)),
        None => built(),
    };
    println!("cargo:rerun-if-changed={}", dir.join(ARCHIVE).display());
    println!("cargo:rustc-link-search=native={}", dir.display());
    println!("cargo:rustc-link-lib=static=capture");
}

fn check_target() {
    let var = |name| env::var(name).unwrap_or_default();
    let (arch, os) = (var("CARGO_CFG_TARGET_ARCH"), var("CARGO_CFG_TARGET_OS"));
    if (arch.as_str(), os.as_str()) != ("x86_64", "linux") {
        stop("the library is for x86-64 Linux only");
    }
}

/// The folder that the caller named must hold the archive already.
fn given(dir: PathBuf) -> PathBuf {
    if !dir.join(ARCHIVE).is_file() {
        stop(&format!(
            "no {ARCHIVE} in BLOSSOMAXLE_LIB_DIR ({}): build it with `scripts/library capture`, or unset the variable",
            dir.display()
        ));
    }
    dir
}

/// The folder of the repository, where a missing archive is built.
fn built() -> PathBuf {
    let top = Path::new(env!("CARGO_MANIFEST_DIR")).join("..");
    let dir = top.join("target").join("staticlib");
    if !dir.join(ARCHIVE).is_file() {
        let why = match Command::new(top.join("scripts").join("library")).arg("capture").status() {
            Ok(_) if dir.join(ARCHIVE).is_file() => return dir,
            Ok(_) => "`scripts/library capture` did not make it".to_string(),
            Err(error) => format!("`scripts/library` cannot be run ({error})"),
        };
        stop(&format!(
            "no target/staticlib/{ARCHIVE}, and {why}: run `scripts/library capture` in the repository's top folder, \
             or set BLOSSOMAXLE_LIB_DIR to a folder that has the archive"
        ));
    }
    dir
}

/// Ends the build with one line; cargo fails it because of the line, and not because of the exit.
fn stop(message: &str) -> ! {
    println!("cargo::error={message}");
    exit(0);
}
