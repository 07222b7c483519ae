//! Finds the installed library, libconguraha.a, and has it linked.

use std::env;
use std::path::{Path, PathBuf};
use std::process::{self, Command};

const FILE: &str = "libconguraha.a";
const VARIABLE: &str = "CONGURAHA_LIB_DIR";

fn main() {
    println!("cargo:rerun-if-changed=build.rs");
    for variable in [VARIABLE, "PKG_CONFIG_PATH", "PKG_CONFIG_LIBDIR"] {
        println!("cargo:rerun-if-env-changed={}", variable);
    }
    match find() {
        Ok(folder) => link(&folder),
        Err(words) => {
            eprintln!("{}", words);
            process::exit(1);
        }
    }
}

fn link(folder: &Path) {
    println!("cargo:rerun-if-changed={}", folder.join(FILE).display());
    println!("cargo:rustc-link-search=native={}", folder.display());
    println!("cargo:rustc-link-lib=static=conguraha");
}

fn find() -> Result<PathBuf, String> {
    match env::var_os(VARIABLE) {
        Some(named) if !named.is_empty() => named_folder(&PathBuf::from(named)),
        _ => installed_folder(),
    }
}

/// Who names a folder means that one and no other.
fn named_folder(named: &Path) -> Result<PathBuf, String> {
    let folder = package().join(named);
    if has_library(&folder) {
        return Ok(folder);
    }
    Err(format!(
        "{} names the folder {}, which has no file {}. Give the whole path of the folder that \
         has it, or leave the variable out.",
        VARIABLE,
        folder.display(),
        FILE
    ))
}

fn installed_folder() -> Result<PathBuf, String> {
    let beside = installed_beside();
    let mut folders = beside.into_iter().chain(pkg_config_folder());
    folders.find(|folder| has_library(folder)).ok_or_else(|| {
        format!(
            "The library conguraha was not found: the folder lib of the place where this crate is \
             installed has no {file}, and pkg-config names no folder that has it.\n\
             Install the library (./install in its repository), and if it is not below /usr/local, \
             set one of these:\n\
             \x20   PKG_CONFIG_PATH    the folder that has conguraha.pc\n\
             \x20   {variable}  the folder that has {file}",
            file = FILE,
            variable = VARIABLE
        )
    })
}

/// The folder lib of the PREFIX, where this crate is PREFIX/share/conguraha/rust.
fn installed_beside() -> Option<PathBuf> {
    let installed = package().ends_with("share/conguraha/rust");
    installed.then(|| package().join("../../../lib"))
}

/// What pkg-config says, where it is there and knows the library.
fn pkg_config_folder() -> Option<PathBuf> {
    let mut command = Command::new("pkg-config");
    let output = command.args(["--variable=libdir", "conguraha"]).output();
    let output = output.ok().filter(|output| output.status.success())?;
    let folder = String::from_utf8(output.stdout).ok()?;
    Some(PathBuf::from(folder.trim_end()))
}

fn has_library(folder: &Path) -> bool {
    folder.join(FILE).is_file()
}

/// The folder of this crate.
fn package() -> PathBuf {
    PathBuf::from(env::var_os("CARGO_MANIFEST_DIR").unwrap_or_default())
}
