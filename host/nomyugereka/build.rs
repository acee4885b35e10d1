//! Tells the linker where the static library is.

use std::path::Path;

/// The folder of the library, seen from this crate.
const FOLDER: &str = "../../target/staticlib";

fn main() {
    let manifest = std::env::var("CARGO_MANIFEST_DIR").expect("cargo sets CARGO_MANIFEST_DIR");
    let folder = Path::new(&manifest).join(FOLDER);
    let library = folder.join("libcapture.a");
    println!("cargo:rerun-if-changed={}", library.display());
    if !library.is_file() {
        eprintln!(
            "The static library {} is missing.\n`./library` at the top of the repository makes it.",
            library.display()
        );
        std::process::exit(1);
    }
    println!("cargo:rustc-link-search=native={}", folder.display());
    println!("cargo:rustc-link-lib=static=capture");
}
