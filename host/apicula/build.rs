//! Names the files of a checkout of scurest/apicula, which stands outside this repository. APICULA_SRC is its path; without it,
//! ../shared/docs/src beside this repository is taken. A file may have .txt behind its name.
use std::{env, fs, path::Path};

fn main() {
    println!("cargo:rerun-if-env-changed=APICULA_SRC");
    let beside = Path::new(&env::var("CARGO_MANIFEST_DIR").unwrap()).join("../../../shared/docs/src");
    let checkout = env::var("APICULA_SRC").map(Into::into).unwrap_or(beside);
    let module = |name: &str| {
        let plain = checkout.join(format!("src/{name}.rs"));
        let text = checkout.join(format!("src/{name}.rs.txt"));
        let file = if plain.exists() { plain } else { text };
        let Ok(file) = file.canonicalize() else {
            eprintln!("{} is missing: set APICULA_SRC to a checkout of scurest/apicula", file.display());
            std::process::exit(1);
        };
        println!("cargo:rerun-if-changed={}", file.display());
        format!("#[macro_use]\n#[path = {file:?}]\npub mod {};\n", name.rsplit('/').next().unwrap())
    };
    let modules = |names: &[&str]| names.iter().map(|name| module(name)).collect::<String>();

    // the tree of the Rust's modules, with those that are left out (models and textures) stood in for
    let text = format!(
        "{}#[macro_use]\npub mod util {{\n{}}}\npub mod nitro {{\npub use crate::left_out::{{model, tex}};\npub use self::{{animation::Animation, \
         material_animation::MaterialAnimation, model::Model, name::Name, pattern::Pattern, tex::{{Palette, Texture}}}};\n{}}}\n\
         pub mod convert {{\npub mod gltf {{\n{}}}\n}}\n",
        module("errors"),
        modules(&["util/fields", "util/bits", "util/view", "util/cur", "util/fixed"]),
        modules(&[
            "nitro/name",
            "nitro/info_block",
            "nitro/rotation",
            "nitro/animation",
            "nitro/material_animation",
            "nitro/pattern",
            "nitro/container",
        ]),
        module("convert/gltf/curve"),
    );
    fs::write(Path::new(&env::var("OUT_DIR").unwrap()).join("modules.rs"), text).unwrap();
}
