//! Writes the Rust of the folder beside this repository with the patches of `patches/` applied. A patch that doesn't fit any more stops
//! the build.

#[path = "src/patch.rs"]
mod patch;

use patch::Patch;
use std::path::{Path, PathBuf};
use std::{env, fs};

fn main() {
    let here = PathBuf::from(env::var_os("CARGO_MANIFEST_DIR").expect("cargo says where"));
    let out = PathBuf::from(env::var_os("OUT_DIR").expect("cargo says where"));
    let rust = here.join("../../../shared/docs/src/lib.rs");
    let folder = here.join("patches");
    for path in [&rust, &folder] {
        println!("cargo::rerun-if-changed={}", path.display());
    }
    match amended(&rust, &folder) {
        Ok((text, names)) => {
            fs::write(out.join("amended.rs"), text).expect("the amended text, written");
            let module = format!(
                "#[path = \"amended.rs\"]\nmod amended;\nconst PATCHES: &[&str] = &{names:?};\n"
            );
            fs::write(out.join("module.rs"), module).expect("its module, written");
        }
        Err(why) => {
            for line in why.lines() {
                println!("cargo::error={line}");
            }
        }
    }
}

/// The Rust with all patches applied, and their names; or why that can't be.
fn amended(rust: &Path, folder: &Path) -> Result<(String, Vec<String>), String> {
    let text = read(rust)?;
    let mut patches = Vec::new();
    for file in fs::read_dir(folder).map_err(|why| format!("{}: {why}", folder.display()))? {
        let path = file.map_err(|why| why.to_string())?.path();
        let name = path.file_name().unwrap_or_default().to_string_lossy();
        if name == "README.md" {
            continue;
        }
        let name = format!("patches/{name}");
        if !name.ends_with(".patch") {
            return Err(format!("{name} is no .patch"));
        }
        let text = read(&path)?;
        patches.push(Patch { name, text });
    }
    let mut names: Vec<String> = patches.iter().map(|patch| patch.name.clone()).collect();
    names.sort();
    Ok((patch::amended(&text, patches)?, names))
}

fn read(path: &Path) -> Result<String, String> {
    fs::read_to_string(path).map_err(|why| format!("{}: {why}", path.display()))
}
