//! Links the proved library: `libxls_c.a`, which `tools/build xls_c` makes in crates/xls_c/out, and `liblibc_c.a` of the Rattle kit, through which it asks for memory.
//!
//! Both are looked for in the folder GAFLWENED_LIB, where it is set, then in this repository and in the kit: the folder RATTLE_KIT, or that
//! of `rt`, or /opt/rattle.

use std::path::{Path, PathBuf};
use std::process::Command;
use std::{env, process};

/// The folder of the kit: that of the page that `rt doc` names, where there is an `rt`.
fn kit() -> PathBuf {
    if let Some(folder) = env::var_os("RATTLE_KIT") {
        return PathBuf::from(folder);
    }
    let page = Command::new("rt").arg("doc").output().ok().filter(|done| done.status.success());
    let page = page.and_then(|done| String::from_utf8(done.stdout).ok());
    let folder = page.as_deref().and_then(|page| Path::new(page.trim()).parent());
    folder.map_or_else(|| PathBuf::from("/opt/rattle"), Path::to_path_buf)
}

fn main() {
    for name in ["GAFLWENED_LIB", "RATTLE_KIT"] {
        println!("cargo:rerun-if-env-changed={name}");
    }
    let manifest = PathBuf::from(env::var_os("CARGO_MANIFEST_DIR").expect("cargo sets it"));
    let mut folders = vec![manifest.join("../../crates/xls_c/out"), kit().join("c")];
    if let Some(folder) = env::var_os("GAFLWENED_LIB") {
        folders.insert(0, PathBuf::from(folder));
    }
    for name in ["xls_c", "libc_c"] {
        let archive = format!("lib{name}.a");
        let folder = folders.iter().find(|folder| folder.join(&archive).exists()).unwrap_or_else(|| {
            eprintln!("{archive} is in none of {folders:?}: make it by `tools/build xls_c`, or set GAFLWENED_LIB to its folder");
            process::exit(1);
        });
        println!("cargo:rerun-if-changed={}", folder.join(&archive).display());
        println!("cargo:rustc-link-search=native={}", folder.display());
        println!("cargo:rustc-link-lib=static={name}");
    }
}
