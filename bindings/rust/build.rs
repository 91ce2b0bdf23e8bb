//! Finds the proved static library: in `LEXPAGE_LIB_DIR`, otherwise where the repository makes it.
use std::path::PathBuf;
use std::{env, process};

fn main() {
    println!("cargo::rerun-if-env-changed=LEXPAGE_LIB_DIR");
    let folder = match env::var_os("LEXPAGE_LIB_DIR") {
        Some(folder) => PathBuf::from(folder),
        None => PathBuf::from(env::var_os("CARGO_MANIFEST_DIR").unwrap()).join("../../target/staticlib"),
    };
    let library = folder.join("liblexpage.a");
    println!("cargo::rerun-if-changed={}", library.display());
    if !library.is_file() {
        println!("cargo::error=there is no {}", library.display());
        println!("cargo::error=make it with `bindings/library` at the top of the repository, or let LEXPAGE_LIB_DIR be the absolute path of the folder that holds it");
        process::exit(1);
    }
    println!("cargo::rustc-link-search=native={}", folder.display());
    println!("cargo::rustc-link-lib=static=lexpage");
}
