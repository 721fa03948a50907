//! Finds the proved static library: in the folder that `TRAYMARK_LIB_DIR` names, else where `make lib` writes it.

use std::env;
use std::path::PathBuf;

fn main() {
    println!("cargo:rerun-if-env-changed=TRAYMARK_LIB_DIR");
    let folder = match env::var_os("TRAYMARK_LIB_DIR") {
        Some(folder) => PathBuf::from(folder),
        None => PathBuf::from(env::var_os("CARGO_MANIFEST_DIR").expect("cargo names the package's folder"))
            .join("../../target/staticlib"),
    };
    let archive = folder.join("libtraymark.a");
    println!("cargo:rerun-if-changed={}", archive.display());
    if !archive.exists() {
        println!("cargo:warning={} is not there: run `make lib` first", archive.display());
        std::process::exit(1);
    }
    println!("cargo:rustc-link-search=native={}", folder.display());
    println!("cargo:rustc-link-lib=static=traymark");
}
