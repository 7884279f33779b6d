//! Finds the library: in the folder that TEXTMODEL_LIB names, else where pkg-config tells. Linked programs of this
//! package look for it there by an rpath; what cargo runs beside them, as doctests, finds it in OUT_DIR.

use std::env;
use std::fs;
use std::path::{Path, PathBuf};
use std::process::{exit, Command};

const VARIABLE: &str = "TEXTMODEL_LIB";
const NAMES: [&str; 3] = ["libtextmodel.so", "libtextmodel.dylib", "libtextmodel.a"];
const AT_RUN: &str = "libtextmodel.so.1";

fn has_library(folder: &Path) -> bool {
    NAMES.iter().any(|name| folder.join(name).exists())
}

/// The folder that the variable names.
fn named(folder: PathBuf) -> Result<PathBuf, String> {
    let folder = fs::canonicalize(&folder).unwrap_or(folder);
    if has_library(&folder) {
        return Ok(folder);
    }
    Err(format!("{VARIABLE} names {}, where there is none of {}", folder.display(), NAMES.join(", ")))
}

/// The folder that pkg-config tells.
fn told() -> Result<PathBuf, String> {
    let program = env::var_os("PKG_CONFIG").unwrap_or_else(|| "pkg-config".into());
    let asked = Command::new(program).args(["--variable=libdir", "textmodel"]).output();
    let path = match asked {
        Ok(said) if said.status.success() => String::from_utf8_lossy(&said.stdout).trim().to_owned(),
        _ => String::new(),
    };
    if !path.is_empty() && has_library(Path::new(&path)) {
        return Ok(path.into());
    }
    Err(format!("set {VARIABLE} to the folder of libtextmodel.so, or PKG_CONFIG_PATH to that of textmodel.pc"))
}

/// Puts a link to the library where cargo lets programs look.
fn link_for_doctests(folder: &Path) {
    #[cfg(unix)]
    if let Some(out) = env::var_os("OUT_DIR").map(PathBuf::from) {
        let _ = fs::remove_file(out.join(AT_RUN));
        let _ = std::os::unix::fs::symlink(folder.join(AT_RUN), out.join(AT_RUN));
        println!("cargo:rustc-link-search=native={}", out.display());
    }
}

fn main() {
    println!("cargo:rerun-if-changed=build.rs");
    for variable in [VARIABLE, "PKG_CONFIG", "PKG_CONFIG_PATH", "PKG_CONFIG_LIBDIR"] {
        println!("cargo:rerun-if-env-changed={variable}");
    }
    let found = match env::var_os(VARIABLE) {
        Some(folder) => named(folder.into()),
        None => told(),
    };
    let folder = found.unwrap_or_else(|why| {
        eprintln!("textmodel: the library for C was not found: {why}");
        exit(1)
    });
    println!("cargo:rustc-link-search=native={}", folder.display());
    println!("cargo:rustc-link-lib=textmodel");
    println!("cargo:rustc-link-arg=-Wl,-rpath,{}", folder.display());
    println!("cargo:libdir={}", folder.display());
    link_for_doctests(&folder);
}
