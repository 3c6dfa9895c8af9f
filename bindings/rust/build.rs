//! Finds the C library `faultyard`: in the folder FAULTYARD_LIB_DIR, else by pkg-config. Links
//! libfaultyard.a where it is there, else libfaultyard.so.

use std::env;
use std::ffi::OsString;
use std::path::{Path, PathBuf};
use std::process::{exit, Command};

fn main() {
    for name in ["FAULTYARD_LIB_DIR", "PKG_CONFIG", "PKG_CONFIG_PATH"] {
        println!("cargo:rerun-if-env-changed={name}");
    }
    if let Err(why) = folder().and_then(|folder| link(&folder)) {
        eprintln!("faultyard: {why}; set FAULTYARD_LIB_DIR to the folder of libfaultyard.a");
        exit(1);
    }
}

/// The folder of the library.
fn folder() -> Result<PathBuf, String> {
    match env::var_os("FAULTYARD_LIB_DIR") {
        Some(folder) => Ok(folder.into()),
        None => by_pkg_config(),
    }
}

fn by_pkg_config() -> Result<PathBuf, String> {
    let program = env::var_os("PKG_CONFIG").unwrap_or_else(|| OsString::from("pkg-config"));
    let ran = Command::new(&program)
        .args(["--print-errors", "--variable=libdir", "faultyard"])
        .output()
        .map_err(|why| format!("{}: {why}", program.to_string_lossy()))?;
    let (told, fault) = (ran.stdout, String::from_utf8_lossy(&ran.stderr));
    match String::from_utf8(told) {
        Ok(folder) if ran.status.success() => Ok(PathBuf::from(folder.trim_end())),
        _ => Err(format!(
            "pkg-config doesn't find faultyard: {}",
            fault.trim_end()
        )),
    }
}

fn link(folder: &Path) -> Result<(), String> {
    let kinds = [("static", "libfaultyard.a"), ("dylib", "libfaultyard.so")];
    let (kind, file) = kinds
        .into_iter()
        .find(|(_, file)| folder.join(file).is_file())
        .ok_or_else(|| format!("there is no libfaultyard in {}", folder.display()))?;
    println!("cargo:rerun-if-changed={}", folder.join(file).display());
    println!("cargo:rustc-link-search=native={}", folder.display());
    println!("cargo:rustc-link-lib={kind}=faultyard");
    // A build script of a crate above reads it as DEP_FAULTYARD_LIBDIR, for an rpath.
    println!("cargo:libdir={}", folder.display());
    Ok(())
}
