//! Compiles the library with the C compiler of this machine. CC, AR and CFLAGS name other words. The library is scard.c
//! and scard.h, in a folder c of this crate, or else in dist/c of the repository.

use std::env;
use std::path::{Path, PathBuf};
use std::process::Command;

/// Reads a word from the environment, and says to cargo that it did.
fn word(name: &str, otherwise: &str) -> String {
    println!("cargo:rerun-if-env-changed={name}");
    env::var(name).unwrap_or_else(|_| otherwise.into())
}

/// Runs a command, and ends the build if it fails.
fn run(command: &mut Command) {
    let status = command.status().unwrap_or_else(|why| panic!("{command:?}: {why}"));
    assert!(status.success(), "{command:?}: {status}");
}

/// The folder with scard.c.
fn library() -> PathBuf {
    let here = PathBuf::from(env::var("CARGO_MANIFEST_DIR").unwrap());
    [here.join("c"), here.join("../../dist/c")]
        .into_iter()
        .find(|folder| folder.join("scard.c").exists())
        .expect("neither c nor ../../dist/c has scard.c")
}

fn main() {
    let (folder, out) = (library(), PathBuf::from(env::var("OUT_DIR").unwrap()));
    let (source, object, archive) = (folder.join("scard.c"), out.join("scard.o"), out.join("libscard.a"));
    for file in [&source, &folder.join("scard.h")] {
        println!("cargo:rerun-if-changed={}", Path::new(file).display());
    }
    let mut compiles = Command::new(word("CC", "cc"));
    compiles.args(["-std=c99", "-O2", "-fPIC", "-ffunction-sections", "-c"]).arg(&source).arg("-o").arg(&object);
    run(compiles.args(word("CFLAGS", "").split_whitespace()));
    let _ = std::fs::remove_file(&archive);
    run(Command::new(word("AR", "ar")).arg("rcs").arg(&archive).arg(&object));
    println!("cargo:rustc-link-search=native={}", out.display());
    println!("cargo:rustc-link-lib=static=scard");
}
