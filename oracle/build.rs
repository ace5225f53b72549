//! Brings in the original's files, and links the port's static libraries.

mod original;

use std::env;
use std::path::Path;

const FILES: [original::File; 3] = [
    ("blocks", "blocks.rs", ""),
    ("chain_heads", "heads.rs", ""),
    ("branch_value", "rank.rs", "use judged::moonblokz_chain_types;"),
];

fn main() {
    original::copy(&FILES, "judged");
    let here = env::var("CARGO_MANIFEST_DIR").expect("cargo sets it");
    let archive = Path::new(&here).join("../target/staticlib");
    for name in ["probe", "station"] {
        let library = archive.join(format!("lib{name}.a"));
        if !library.exists() {
            let message = format!("no {}: `tools/archive {name}` makes it", library.display());
            original::stop(&message);
        }
        println!("cargo::rerun-if-changed={}", library.display());
        println!("cargo::rustc-link-lib=static={name}");
    }
    println!("cargo::rustc-link-search=native={}", archive.display());
}
