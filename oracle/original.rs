//! For build scripts: copies the original's files, unchanged, to the build folder, and declares after
//! each a child module of ours, which so reaches the private fields and functions.

use std::path::Path;
use std::{env, fs, process};

/// The original's file, our child module of it, and what else the file needs.
pub type File = (&'static str, &'static str, &'static str);

/// The child modules stand in `src/original` and go by the given name; `modules.rs` declares the files.
pub fn copy(files: &[File], child_name: &str) {
    let here = env::var("CARGO_MANIFEST_DIR").expect("cargo sets it");
    let out = env::var("OUT_DIR").expect("cargo sets it");
    let source = Path::new(&here).join("../../shared/docs/src/src");

    let mut modules = String::new();
    for (name, child, more) in files {
        let file = source.join(name).with_extension("rs");
        let text = fs::read_to_string(&file)
            .unwrap_or_else(|e| stop(&format!("the original's {}: {e}", file.display())));
        let copy = Path::new(&out).join(name).with_extension("rs");
        let child = Path::new(&here).join("src/original").join(child);
        let whole = format!("{text}\n#[path = {child:?}]\npub(crate) mod {child_name};\n{more}\n");
        fs::write(&copy, whole).expect("the build folder is written");
        modules += &format!("#[path = {copy:?}]\n#[allow(dead_code)]\nmod {name};\n");
        println!("cargo::rerun-if-changed={}", file.display());
    }
    fs::write(Path::new(&out).join("modules.rs"), modules).expect("the build folder is written");
    println!("cargo::rerun-if-changed=build.rs");
}

pub fn stop(message: &str) -> ! {
    println!("cargo::error={message}");
    process::exit(1)
}
