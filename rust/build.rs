//! Finds libgandeuch.a: in GANDEUCH_LIB_DIR, else where pkg-config says, else where `tools/build gandeuch` writes it.

use std::path::{Path, PathBuf};
use std::process::{Command, exit};
use std::{env, fs};

const FILE: &str = "libgandeuch.a";

fn main() {
    println!("cargo::rerun-if-changed=build.rs");
    for variable in ["GANDEUCH_LIB_DIR", "PKG_CONFIG", "PKG_CONFIG_PATH"] {
        println!("cargo::rerun-if-env-changed={variable}");
    }
    match folder() {
        Ok(folder) => {
            println!("cargo::rerun-if-changed={}", folder.join(FILE).display());
            println!("cargo::rustc-link-search=native={}", folder.display());
            println!("cargo::rustc-link-lib=static=gandeuch");
        }
        Err(message) => {
            println!("cargo::error={message}");
            exit(1);
        }
    }
}

/// The folder that holds the library.
fn folder() -> Result<PathBuf, String> {
    if let Some(named) = env::var_os("GANDEUCH_LIB_DIR") {
        let named = PathBuf::from(named);
        return whole(&named).ok_or(format!(
            "GANDEUCH_LIB_DIR is {}, which has no {FILE}",
            named.display()
        ));
    }
    if let Some(known) = packaged() {
        return whole(&known).ok_or(format!(
            "gandeuch.pc names {}, which has no {FILE}",
            known.display()
        ));
    }
    let built = Path::new(env!("CARGO_MANIFEST_DIR")).join("../crates/gandeuch/out");
    whole(&built).ok_or(format!(
        "no {FILE}: run `tools/build gandeuch` in Gandeuch's repository, which writes crates/gandeuch/out/{FILE}; or set \
         GANDEUCH_LIB_DIR to the folder that holds it, or PKG_CONFIG_PATH to the one of gandeuch.pc"
    ))
}

/// The folder's whole path, if it holds the library.
fn whole(folder: &Path) -> Option<PathBuf> {
    let folder = fs::canonicalize(folder).ok()?;
    folder.join(FILE).is_file().then_some(folder)
}

/// The folder that pkg-config knows, if it is there and knows one.
fn packaged() -> Option<PathBuf> {
    let program = env::var_os("PKG_CONFIG").unwrap_or("pkg-config".into());
    let found = Command::new(program)
        .args(["--variable=libdir", "gandeuch"])
        .output()
        .ok()
        .filter(|found| found.status.success())?;
    let folder = String::from_utf8(found.stdout).ok()?;
    Some(PathBuf::from(folder.trim_end())).filter(|folder| folder.is_absolute())
}
