//! Where the static library is: the folder that `YIRBARN_LIB` names, or the one that `bindings/library` writes it to.

use std::env;
use std::path::PathBuf;

fn main() {
    println!("cargo:rerun-if-env-changed=YIRBARN_LIB");
    let folder = match env::var("YIRBARN_LIB") {
        Ok(path) => PathBuf::from(path),
        Err(_) => PathBuf::from(env::var("CARGO_MANIFEST_DIR").unwrap()).join("../../target/staticlib"),
    };
    let archive = folder.join("libstore.a");
    assert!(
        archive.exists(),
        "{}: not found (`bindings/library` makes it; YIRBARN_LIB names another folder)",
        archive.display()
    );
    println!("cargo:rerun-if-changed={}", archive.display());
    println!("cargo:rustc-link-search=native={}", folder.display());
    println!("cargo:rustc-link-lib=static=store");
}
