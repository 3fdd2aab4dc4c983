//! Links libsacn: from the folder SACN_LIB_DIR (its archive, else its shared object), else as pkg-config's `sacn` says.

use std::env;
use std::path::Path;
use std::process::{exit, Command};

fn main() {
    for name in ["SACN_LIB_DIR", "PKG_CONFIG", "PKG_CONFIG_PATH"] {
        println!("cargo:rerun-if-env-changed={name}");
    }
    let linked = match env::var_os("SACN_LIB_DIR") {
        Some(folder) => link_folder(Path::new(&folder)),
        None => link_by_pkg_config(),
    };
    if let Err(fault) = linked {
        eprintln!("libsacn isn't linked: {fault}");
        exit(1);
    }
}

fn link_folder(folder: &Path) -> Result<(), String> {
    if !folder.is_absolute() {
        return Err(format!("SACN_LIB_DIR is {}, and an absolute path is wanted", folder.display()));
    }
    for (file, kind) in [("libsacn.a", "static"), ("libsacn.so", "dylib")] {
        let path = folder.join(file);
        if path.is_file() {
            println!("cargo:rerun-if-changed={}", path.display());
            println!("cargo:rustc-link-search=native={}", folder.display());
            println!("cargo:rustc-link-lib={kind}=sacn");
            return Ok(());
        }
    }
    Err(format!("{} has neither libsacn.a nor libsacn.so", folder.display()))
}

fn link_by_pkg_config() -> Result<(), String> {
    let tool = env::var_os("PKG_CONFIG").unwrap_or_else(|| "pkg-config".into());
    let without = "set SACN_LIB_DIR to the folder of libsacn.a";
    let told = Command::new(&tool)
        .args(["--libs", "sacn"])
        .output()
        .map_err(|fault| format!("{} doesn't run ({fault}): {without}", Path::new(&tool).display()))?;
    if !told.status.success() {
        return Err(format!("{}{without}", String::from_utf8_lossy(&told.stderr)));
    }
    for word in String::from_utf8_lossy(&told.stdout).split_whitespace() {
        if let Some(folder) = word.strip_prefix("-L") {
            println!("cargo:rustc-link-search=native={folder}");
        } else if let Some(library) = word.strip_prefix("-l") {
            println!("cargo:rustc-link-lib={library}");
        }
    }
    Ok(())
}
