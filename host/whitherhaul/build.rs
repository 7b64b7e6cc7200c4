//! Links the proved library, `libwhitherhaul_journal.a` and `libwhitherhaul_csv.a`, and with the
//! feature `replica` `libwhitherhaul.a`: those of the repository, or of the folder that
//! `WHITHERHAUL_ARCHIVE_DIR` names.
//!
//! Without them `cargo check` and `cargo doc` still work. Whatever has to be linked fails, and the
//! warning says why.

use std::env;
use std::path::{Path, PathBuf};

const OVERRIDE: &str = "WHITHERHAUL_ARCHIVE_DIR";

fn main() {
    println!("cargo::rerun-if-env-changed={OVERRIDE}");
    let folder = match env::var_os(OVERRIDE).filter(|folder| !folder.is_empty()) {
        Some(folder) => PathBuf::from(folder),
        None => repository().join("target/staticlib/native"),
    };
    // Cargo, rustc and this program each run in a folder of their own.
    if folder.is_relative() {
        println!(
            "cargo::error={OVERRIDE} is {}, which isn't an absolute path.",
            folder.display()
        );
        return;
    }
    println!("cargo::rustc-link-search=native={}", folder.display());
    link(&folder, "whitherhaul_journal");
    link(&folder, "whitherhaul_csv");
    if env::var_os("CARGO_FEATURE_REPLICA").is_some() {
        link(&folder, "whitherhaul");
    }
}

/// Links the archive with this name.
fn link(folder: &Path, name: &str) {
    let archive = folder.join(format!("lib{name}.a"));
    println!("cargo::rerun-if-changed={}", archive.display());
    if !archive.exists() {
        missing(&archive, name);
    }
    println!("cargo::rustc-link-lib=static={name}");
}

/// Says what to do. Cargo runs this program again as long as a path that it watches isn't there, and
/// one that never is sees to it that an archive is noticed also where its time is an old one.
fn missing(archive: &Path, name: &str) {
    let out = env::var_os("OUT_DIR").expect("cargo says where");
    let never = Path::new(&out).join("never");
    println!("cargo::rerun-if-changed={}", never.display());
    println!(
        "cargo::warning={} isn't there, so nothing can be linked.",
        archive.display()
    );
    println!("cargo::warning=Run `tools/native-archive {name}` in Whitherhaul's repository, or name the archive's folder by {OVERRIDE}.");
}

/// The repository's root, where this crate lies in it.
fn repository() -> PathBuf {
    let here = env::var_os("CARGO_MANIFEST_DIR").expect("cargo says where");
    let root = Path::new(&here).ancestors().nth(2);
    root.expect("a folder two above").to_path_buf()
}
