//! Tells the linker where the proved library lies.

/// `bindings/library` writes it there.
fn main() {
    let folder = concat!(env!("CARGO_MANIFEST_DIR"), "/../target/staticlib");
    println!("cargo::rustc-link-search=native={folder}");
    println!("cargo::rustc-link-lib=static=lexpage");
    println!("cargo::rerun-if-changed={folder}/liblexpage.a");
}
