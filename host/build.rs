//! Links the static library that `bin/build-host` writes.
use std::{env, path::Path};

fn main() {
    let folder = Path::new(&env::var("CARGO_MANIFEST_DIR").unwrap()).join("../target/staticlib");
    let file = folder.join("libexports.a");
    println!("cargo:rerun-if-changed={}", file.display());
    if !file.exists() {
        eprintln!("{} is missing: run `bin/build-host` first", file.display());
        std::process::exit(1);
    }
    println!("cargo:rustc-link-lib=static=exports");
    println!("cargo:rustc-link-search=native={}", folder.display());
}
