//! Links the variant beside the packer. `make string-index` writes it.

use std::path::PathBuf;

fn main() {
    let directory = PathBuf::from(std::env::var("CARGO_MANIFEST_DIR").unwrap()).join("../../target/variants/walk");
    let library = directory.join("libwalk.a");
    println!("cargo:rerun-if-changed={}", library.display());
    assert!(library.is_file(), "{} is missing: run `make string-index`", library.display());
    println!("cargo:rustc-link-search=native={}", directory.display());
    println!("cargo:rustc-link-lib=static=walk");
}
