//! Finds the two archives that the crate links: the proved one, and the kit's, which has three
//! functions over `malloc`, `realloc` and `free`.

use std::env;
use std::path::{Path, PathBuf};
use std::process::{self, Command};

fn main() {
    let proved = folder_of(
        "libplist_c.a",
        "SIZHETOM_LIB",
        built(),
        "build it by `tools/build plist_c`",
    );
    let heap = folder_of(
        "liblibc_c.a",
        "SIZHETOM_HEAP",
        of_the_kit(),
        "put the kit's `rt` on the path",
    );
    for (folder, name) in [(proved, "plist_c"), (heap, "libc_c")] {
        println!("cargo:rustc-link-search=native={}", folder.display());
        println!("cargo:rustc-link-lib=static={name}");
        println!(
            "cargo:rerun-if-changed={}",
            folder.join(format!("lib{name}.a")).display()
        );
    }
    println!("cargo:rerun-if-changed=build.rs");
}

/// Returns the folder of an archive: the one that the variable names, or else the default one.
fn folder_of(archive: &str, variable: &str, default: Option<PathBuf>, advice: &str) -> PathBuf {
    println!("cargo:rerun-if-env-changed={variable}");
    let folder = env::var_os(variable).map(PathBuf::from).or(default);
    match folder {
        Some(folder) if folder.join(archive).is_file() => folder,
        _ => {
            eprintln!(
                "{archive} is missing: {advice}, or name its folder by the variable {variable}."
            );
            process::exit(1);
        }
    }
}

/// Returns the folder in which this repository builds the proved archive.
fn built() -> Option<PathBuf> {
    Path::new(&env::var_os("CARGO_MANIFEST_DIR")?)
        .join("../../crates/plist_c/out")
        .canonicalize()
        .ok()
}

/// Returns the folder of the kit's archives, which is beside the page that `rt doc` names.
fn of_the_kit() -> Option<PathBuf> {
    println!("cargo:rerun-if-env-changed=PATH");
    let output = Command::new("rt").arg("doc").output().ok()?;
    let page = String::from_utf8(output.stdout).ok()?;
    Some(Path::new(page.trim()).parent()?.join("c"))
}
