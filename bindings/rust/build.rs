//! Finds the static library: in `STORKLOCKER_LIB_DIR`, in this crate, which `bindings/pack` gives
//! the released ones, or by pkg-config.

use std::env::{var, var_os};
use std::path::{Path, PathBuf};
use std::process::Command;

fn target(part: &str) -> String {
    var(format!("CARGO_CFG_TARGET_{}", part)).unwrap_or_default()
}

/// The folder of the library for the target, if the crate has one.
fn packed() -> Option<PathBuf> {
    let here = PathBuf::from(var_os("CARGO_MANIFEST_DIR")?);
    let folder = here.join("lib").join(format!("{}-{}", target("ARCH"), target("OS")));
    if target("POINTER_WIDTH") == "64" && folder.is_dir() {
        Some(folder)
    } else {
        None
    }
}

fn link(folder: &Path) {
    println!("cargo:rustc-link-search=native={}", folder.display());
    println!("cargo:rustc-link-lib=static=storklocker");
}

/// What pkg-config says of an installed library.
fn installed() -> Result<(), String> {
    let command = var("PKG_CONFIG").unwrap_or_else(|_| "pkg-config".to_owned());
    let run = Command::new(&command).args(&["--libs", "storklocker"]).output();
    let run = run.map_err(|error| format!("{}: {}", command, error))?;
    if !run.status.success() {
        return Err(String::from_utf8_lossy(&run.stderr).into_owned());
    }
    for word in String::from_utf8_lossy(&run.stdout).split_whitespace() {
        if let Some(folder) = word.strip_prefix("-L") {
            println!("cargo:rustc-link-search=native={}", folder);
        } else if let Some(name) = word.strip_prefix("-l") {
            println!("cargo:rustc-link-lib={}", name);
        }
    }
    Ok(())
}

fn main() {
    for name in &["STORKLOCKER_LIB_DIR", "PKG_CONFIG", "PKG_CONFIG_PATH"] {
        println!("cargo:rerun-if-env-changed={}", name);
    }
    if let Some(folder) = var_os("STORKLOCKER_LIB_DIR") {
        return link(Path::new(&folder));
    }
    match packed() {
        Some(folder) => link(&folder),
        None => installed().unwrap_or_else(|why| {
            panic!(
                "there is no library for {}-{}: name its folder in STORKLOCKER_LIB_DIR ({})",
                target("ARCH"),
                target("OS"),
                why
            )
        }),
    }
}
