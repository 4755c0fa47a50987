//! Links libbogtassel.a: the archive that BOGTASSEL_ARCHIVE names, or the one that `rt lib` proves and writes.
use std::env;
use std::fs;
use std::path::{Path, PathBuf};
use std::process::{exit, Command};

fn fail(what: &str) -> ! {
    eprintln!("bogtassel: {what}");
    exit(1)
}

/// Has cargo run this script again where a source of the repository changed. What is built stands beside the sources, in `out`, and is none.
fn watch(top: &Path) {
    println!("cargo:rerun-if-changed={}", top.join("crates.txt").display());
    let crates = fs::read_dir(top.join("crates"))
        .unwrap_or_else(|error| fail(&format!("{}: {error}", top.join("crates").display())));
    for each in crates.flatten() {
        for part in ["src", "specs", "proofs"] {
            let source = each.path().join(part);
            if source.is_dir() {
                println!("cargo:rerun-if-changed={}", source.display());
            }
        }
    }
}

/// The archive of the repository that this crate stands in, proved and written by Rattle's kit.
fn proved(top: &Path) -> PathBuf {
    watch(top);
    let folder = top.join("crates/bogtassel");
    match Command::new("rt").arg("lib").current_dir(&folder).status() {
        Ok(status) if status.success() => folder.join("out/libbogtassel.a"),
        Ok(status) => fail(&format!("`rt lib` in crates/bogtassel ended with {status}")),
        Err(error) => fail(&format!(
            "no Rattle kit ({error}): put `rt` on the path, or name an archive by BOGTASSEL_ARCHIVE"
        )),
    }
}

fn main() {
    println!("cargo:rerun-if-env-changed=BOGTASSEL_ARCHIVE");
    let target = env::var("TARGET").unwrap_or_default();
    if !(target.starts_with("x86_64-") && target.contains("-linux-")) {
        fail(&format!(
            "the archive is for Linux on x86-64, and this is a build for {target}"
        ));
    }
    let archive = match env::var_os("BOGTASSEL_ARCHIVE") {
        Some(named) => PathBuf::from(named),
        None => {
            let here = PathBuf::from(env::var_os("CARGO_MANIFEST_DIR").unwrap_or_default());
            proved(&here.join("../.."))
        }
    };
    let archive = archive
        .canonicalize()
        .unwrap_or_else(|error| fail(&format!("{}: {error}", archive.display())));
    println!("cargo:rerun-if-changed={}", archive.display());
    println!(
        "cargo:rustc-link-search=native={}",
        archive.parent().unwrap_or(Path::new(".")).display()
    );
    match archive.file_name().and_then(|name| name.to_str()) {
        Some("libbogtassel.a") => println!("cargo:rustc-link-lib=static=bogtassel"),
        _ => fail("the archive's name is not libbogtassel.a"),
    }
}
