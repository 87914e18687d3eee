//! Links the static library that `rt lib` in `crates/desk_library` writes to that crate's `out/`.
//! It is looked for in the repository's `target/staticlib/`, where `./test` puts it.

use std::path::Path;

fn main() {
    let crate_folder = std::env::var("CARGO_MANIFEST_DIR").expect("cargo sets it");
    let folder = Path::new(&crate_folder).join("../../target/staticlib");
    let archive = folder.join("libdesk_library.a");
    println!("cargo::rerun-if-changed={}", archive.display());
    if !archive.is_file() {
        println!("cargo::error=the proved operations are not built: no {}", archive.display());
        println!(
            "cargo::error=first run `rt lib` in crates/desk_library, and copy its archive there"
        );
        return;
    }
    println!("cargo::rustc-link-search=native={}", folder.display());
    println!("cargo::rustc-link-lib=static=desk_library");
}
