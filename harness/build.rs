//! Links the proved library and the toolchain's C code that it allocates with.

use std::env;
use std::path::{Path, PathBuf};
use std::process::{exit, Command};

fn main() {
    let here = PathBuf::from(env::var_os("CARGO_MANIFEST_DIR").expect("cargo gives the folder"));
    let proved = here.join("../crates/exports/out/libexports.a");
    println!("cargo:rerun-if-changed={}", proved.display());
    if !proved.is_file() {
        stop(&format!(
            "{} is missing: run `rt lib` in crates/exports first",
            proved.display()
        ));
    }
    let c_code = toolchain().join("c/liblibc_c.a");
    if !c_code.is_file() {
        stop(&format!("{} is missing", c_code.display()));
    }
    // the proved library calls the C code, so it comes first
    link(&proved, "exports");
    link(&c_code, "libc_c");
}

/// The toolchain's folder: that of the guide whose path `rt doc` prints.
fn toolchain() -> PathBuf {
    let told = Command::new("rt").arg("doc").output();
    let guide = match told {
        Ok(told) if told.status.success() => String::from_utf8_lossy(&told.stdout).into_owned(),
        Ok(told) => stop(&format!("`rt doc` ended with {}", told.status)),
        Err(error) => stop(&format!("`rt doc` cannot be run: {error}")),
    };
    match Path::new(guide.trim()).parent() {
        Some(folder) => folder.to_path_buf(),
        None => stop(&format!("`rt doc` printed no path: {guide}")),
    }
}

fn link(archive: &Path, name: &str) {
    let folder = archive.parent().expect("the archive lies in a folder");
    println!("cargo:rustc-link-search=native={}", folder.display());
    println!("cargo:rustc-link-lib=static={name}");
}

fn stop(message: &str) -> ! {
    eprintln!("{message}");
    exit(1)
}
