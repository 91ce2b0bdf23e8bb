//! Tells the compiler where the two original source files lie.

use std::env;
use std::path::PathBuf;

/// The folder with the originals, beside the repository unless `SEMANTIC_SRC` names another.
fn sources() -> PathBuf {
    let package = PathBuf::from(env::var_os("CARGO_MANIFEST_DIR").unwrap_or_default());
    match env::var_os("SEMANTIC_SRC").filter(|folder| !folder.is_empty()) {
        Some(folder) => package.join(folder),
        None => package.join("../../shared/docs/src"),
    }
}

/// Names each original to `include!` by an environment variable of the compilation.
fn main() {
    println!("cargo::rerun-if-changed=build.rs");
    println!("cargo::rerun-if-env-changed=SEMANTIC_SRC");
    let folder = sources().join("crates/sm-front/src");
    for (variable, file) in [
        ("SEMANTIC_LEXER", "lexer.rs"),
        ("SEMANTIC_TYPES", "types.rs"),
    ] {
        let path = folder.join(file);
        match path.canonicalize() {
            Ok(found) => {
                println!("cargo::rerun-if-changed={}", found.display());
                println!("cargo::rustc-env={variable}={}", found.display());
            }
            Err(_) => println!("cargo::error=no original at {}", path.display()),
        }
    }
}
