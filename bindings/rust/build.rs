//! Links `libstation.a`: that of the folder `STATION_LIB_DIR` where it is set, or else that of the
//! repository, which `tools/archive` makes anew where it is not made of the crates as they are.

use std::env;
use std::fs::File;
use std::io::{self, BufRead, BufReader, Write};
use std::path::{Path, PathBuf};
use std::process::{self, Command, Stdio};

fn main() {
    println!("cargo::rerun-if-changed=build.rs");
    println!("cargo::rerun-if-env-changed=STATION_LIB_DIR");
    let folder = match env::var_os("STATION_LIB_DIR") {
        Some(given) => PathBuf::from(given),
        None => made(&repository()),
    };
    let archive = folder.join("libstation.a");
    if !archive.is_file() {
        stop([format!("there is no {}", archive.display())]);
    }
    println!("cargo::rerun-if-changed={}", archive.display());
    println!("cargo::rustc-link-search=native={}", folder.display());
    println!("cargo::rustc-link-lib=static=station");
}

/// The nearest folder above that has the archive's sources.
fn repository() -> PathBuf {
    let here = env::var("CARGO_MANIFEST_DIR").expect("cargo sets it");
    match Path::new(&here).ancestors().find(|folder| folder.join("crates/station/src").is_dir()) {
        Some(root) => root.to_path_buf(),
        None => stop([
            "outside its repository the crate needs STATION_LIB_DIR, the folder of libstation.a",
        ]),
    }
}

/// The folder of the repository's archive.
fn made(root: &Path) -> PathBuf {
    for source in ["crates", "crates.txt", "tools/archive"] {
        println!("cargo::rerun-if-changed={}", root.join(source).display());
    }
    match make(root) {
        Ok((true, said)) => said.iter().for_each(|line| println!("cargo::warning={line}")),
        Ok((false, said)) => stop(said),
        Err(e) => stop([format!("tools/archive does not run: {e}")]),
    }
    root.join("target/staticlib")
}

/// Whether the archive is there, and what was said where it had to be made.
fn make(root: &Path) -> io::Result<(bool, Vec<String>)> {
    let mut tool = Command::new(root.join("tools/archive")).stderr(Stdio::piped()).spawn()?;
    let mut said = vec![];
    for line in BufReader::new(tool.stderr.take().expect("piped")).lines() {
        let line = line?;
        if said.is_empty() {
            tell(&line);
        }
        said.push(line);
    }
    Ok((tool.wait()?.success(), said))
}

/// Shows a line on the terminal, if there is one: cargo shows a script's words only at its end, which
/// may be minutes later.
fn tell(line: &str) {
    if let Ok(mut terminal) = File::options().append(true).open("/dev/tty") {
        let _ = writeln!(terminal, "{line}");
    }
}

fn stop(message: impl IntoIterator<Item = impl AsRef<str>>) -> ! {
    for line in message {
        println!("cargo::error={}", line.as_ref());
    }
    process::exit(1)
}
