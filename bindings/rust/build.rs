//! Links the static library that `rt lib` writes in crates/cerandool, or says that it is missing.

use std::{env, path::Path};

/// From this package's folder.
const LIBRARY_FOLDER: &str = "../../crates/cerandool/out";

fn main() {
    let package = env::var("CARGO_MANIFEST_DIR").expect("Cargo names the package's folder");
    let folder = Path::new(&package).join(LIBRARY_FOLDER);
    let library = folder.join("libcerandool.a");
    println!("cargo::rerun-if-changed=build.rs");
    println!("cargo::rerun-if-changed={}", library.display());
    if !library.is_file() {
        println!(
            "cargo::error=crates/cerandool/out/libcerandool.a is missing: run `rt lib` in crates/cerandool first"
        );
        return;
    }
    println!("cargo::rustc-link-search=native={}", folder.display());
    println!("cargo::rustc-link-lib=static=cerandool");
}
