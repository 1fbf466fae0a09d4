//! Links a copy of the monitor's static library: the one that the variable BAGWEZIN_LIBRARY names, or else the one that
//! `rt` proves and writes now.
//!
//! cargo runs this again when a file of the proved crates changes; `rt` itself proves only what changed. The copy stands in cargo's own folder, so
//! that nothing that is done to crates/bagwezin/out/ afterwards can change what is linked.
use std::path::{Path, PathBuf};
use std::process::{exit, Command};

/// Ends the build with a message.
fn fail(message: &str) -> ! {
    println!("cargo::error={message}");
    exit(1)
}

/// The file `rt` on the PATH.
fn find_rt() -> Option<PathBuf> {
    let path = std::env::var_os("PATH")?;
    std::env::split_paths(&path).map(|folder| folder.join("rt")).find(|file| file.is_file())
}

/// Runs `rt lib --cpu=x86-64` in the crate's folder; its words are shown where it fails.
fn staticlib(rt: &Path, root: &Path) {
    let ran = Command::new(rt).args(["lib", "--cpu=x86-64"]).current_dir(root.join("crates/bagwezin")).output();
    let ran = ran.unwrap_or_else(|e| fail(&format!("{} cannot be run: {e}", rt.display())));
    if !ran.status.success() {
        eprintln!("{}{}", String::from_utf8_lossy(&ran.stdout), String::from_utf8_lossy(&ran.stderr));
        fail(&format!(
            "`rt lib --cpu=x86-64` failed in {} ({}): the static library is not proved or not built",
            root.join("crates/bagwezin").display(),
            ran.status
        ));
    }
}

/// The static library, proved and written by the toolchain.
fn proved_library(root: &Path) -> PathBuf {
    let Some(rt) = find_rt() else {
        fail(
            "the Rattle toolchain is missing: no `rt` on the PATH. It proves the monitor and builds the static library \
             that this crate links; to link one that is built already, name it in BAGWEZIN_LIBRARY",
        );
    };
    println!("cargo::rerun-if-changed={}", rt.display());
    staticlib(&rt, root);
    root.join("crates/bagwezin/out/libbagwezin.a")
}

/// The folders of the crates that hold what is proved; what `rt` writes stands beside them.
fn sources(crates: &Path) -> Vec<PathBuf> {
    let Ok(folders) = std::fs::read_dir(crates) else {
        fail(&format!("no folder {}", crates.display()));
    };
    let folders = folders.flatten().map(|folder| folder.path());
    let parts = folders.flat_map(|folder| ["src", "specs", "proofs"].map(|part| folder.join(part)));
    parts.filter(|part| part.is_dir()).collect()
}

fn main() {
    let var = |name: &str| std::env::var(name).unwrap_or_else(|_| fail(&format!("cargo gives no {name}")));
    let here = var("CARGO_MANIFEST_DIR");
    let Some(root) = Path::new(&here).ancestors().nth(2) else {
        fail(&format!("{here} is not rust/bagwezin of a repository"));
    };
    println!("cargo::rerun-if-changed={}", root.join("crates.txt").display());
    for file in sources(&root.join("crates")) {
        println!("cargo::rerun-if-changed={}", file.display());
    }
    println!("cargo::rerun-if-env-changed=RATTLE_HOME");
    if var("CARGO_CFG_TARGET_ARCH") != "x86_64" || var("CARGO_CFG_TARGET_OS") != "linux" {
        fail(&format!("the static library is for x86-64 Linux, not for {}", var("TARGET")));
    }
    println!("cargo::rerun-if-env-changed=BAGWEZIN_LIBRARY");
    let library = match std::env::var_os("BAGWEZIN_LIBRARY") {
        Some(built) => PathBuf::from(built),
        None => proved_library(root),
    };
    println!("cargo::rerun-if-changed={}", library.display());
    let out = PathBuf::from(var("OUT_DIR"));
    if let Err(e) = std::fs::copy(&library, out.join("libbagwezin.a")) {
        fail(&format!("{}: {e}", library.display()));
    }
    println!("cargo::rustc-link-search=native={}", out.display());
    println!("cargo::rustc-link-lib=static=bagwezin");
}
