//! Links the proved static libraries, which `c/library` writes, and the C code that the kit has for
//! those that allocate.

use std::path::{Path, PathBuf};
use std::process::Command;

/// The folder of the kit, which has the guide that `rt doc` names.
fn kit() -> Option<PathBuf> {
    let said = Command::new("rt").arg("doc").output().ok()?;
    let guide = String::from_utf8(said.stdout).ok()?;
    Some(Path::new(guide.trim()).parent()?.to_path_buf())
}

fn main() {
    let here = std::env::var("CARGO_MANIFEST_DIR").expect("cargo sets it");
    let folder = Path::new(&here).join("../target/staticlib");
    let kit = kit().expect("rt doc names a guide of the kit");
    println!("cargo:rustc-link-search=native={}", folder.display());
    println!("cargo:rustc-link-search=native={}", kit.join("c").display());
    for library in ["host", "load"] {
        println!("cargo:rustc-link-lib=static={library}");
        println!("cargo:rerun-if-changed={}", folder.join(format!("lib{library}.a")).display());
    }
    println!("cargo:rustc-link-lib=static=libc_c");
}
