//! The declarations for C and for Rust are those of the entry points in `crates/station`, names and
//! types; and both sides say the same of the refusals, the sizes, the store and the version.

use station::{MOST_BLOCKS, MOST_HEADS, Refusal, Tables};
use std::fs;
use std::path::{Path, PathBuf};

#[test]
fn the_entry_points() {
    let entries = entries();
    let rust = spaced(&read("bindings/rust/src/raw.rs"));
    let header = read("include/station.h");
    let c = spaced(&header);
    for entry in &entries {
        assert!(rust.contains(&entry.in_rust()), "src/raw.rs lacks {}", entry.in_rust());
        assert!(c.contains(&entry.in_c()), "station.h lacks {}", entry.in_c());
    }
    assert_eq!(rust.matches("fn station_").count(), entries.len(), "in src/raw.rs");
    let declares = |line: &&str| line.starts_with("STATION_CHECKED uint");
    assert_eq!(header.lines().filter(declares).count(), entries.len(), "in station.h");
}

#[test]
fn each_entry_point_on_tables() {
    let header = read("include/station.h");
    for entry in entries() {
        let name = entry.name.replace("station_", "station_tables_");
        let name = name.replace("tables_outranks", "rank_outranks");
        assert!(header.contains(&format!(" {name}(")), "station.h lacks {name}");
    }
}

#[test]
fn the_record() {
    let rules = spaced(&without_derives(&read("crates/rules/src/lib.rt")));
    assert!(rules.contains("#[repr(C)] pub struct BlockSlot(pub u32);"));
    assert!(rules.contains("#[repr(C)] pub struct ActiveHead { pub slot: BlockSlot, }"));
    let rust = spaced(&read("bindings/rust/src/raw.rs"));
    assert!(rust.contains("#[repr(C)] pub(crate) struct ActiveHead { pub slot: u32, }"));
    let c = spaced(&read("include/station.h"));
    assert!(c.contains("struct station_active_head { uint32_t slot; };"));
}

#[test]
fn the_record_of_a_screen() {
    let rules = spaced(&without_derives(&read("crates/rules/src/lib.rt")));
    for number in ["BlockSlot", "Sequence", "HeadKind"] {
        assert!(rules.contains(&format!("#[repr(C)] pub struct {number}(pub u32);")), "{number}");
    }
    let row = "#[repr(C)] pub struct HeadRow { pub tip: BlockSlot, pub sequence: Sequence, \
               pub kind: HeadKind, pub anchor: BlockSlot, }";
    assert!(rules.contains(row));
    let rust = spaced(&read("bindings/rust/src/records.rs"));
    let row = "#[repr(C)] pub struct HeadRow { pub(crate) tip: u32, pub(crate) sequence: u32, \
               pub(crate) kind: u32, pub(crate) anchor: u32, }";
    assert!(rust.contains(row));
    let c = spaced(&without_comments(&read("include/station.h")));
    let row = "struct station_head_row { uint32_t tip; uint32_t sequence; uint32_t kind; \
               uint32_t anchor; };";
    assert!(c.contains(row));
}

#[test]
fn the_kinds() {
    let rules = read("crates/rules/src/lib.rt");
    let header = read("include/station.h");
    for (kind, number) in [("STORED", 0), ("CONNECTED", 1)] {
        assert!(rules.contains(&format!("pub const {kind}: HeadKind = HeadKind({number});")));
        assert!(header.contains(&format!("STATION_HEAD_{kind} = {number}")), "{kind}");
    }
}

#[test]
fn the_refusals() {
    let header = read("include/station.h");
    for refusal in Refusal::ALL {
        let name = upper(&format!("{refusal:?}"));
        let number = format!("STATION_REFUSED_{name} = {}", refusal.number());
        assert!(header.contains(&number), "{number}");
        let said = format!("case STATION_REFUSED_{name}:\n        return \"{refusal}\";");
        assert!(header.contains(&said), "{said}");
    }
}

#[test]
fn the_sizes() {
    let header = read("include/station.h");
    assert!(header.contains(&format!("#define STATION_MOST_BLOCKS {MOST_BLOCKS}\n")));
    assert!(header.contains(&format!("#define STATION_MOST_HEADS {MOST_HEADS}\n")));
}

#[test]
fn the_layout() {
    let header = read("include/station.h");
    let saved = Tables::new(1, 2).expect("fitting sizes").to_bytes();
    let layout = saved[saved.len() - 9];
    assert!(header.contains(&format!("#define STATION_LAYOUT {layout}\n")));
}

#[test]
fn the_version() {
    let version = env!("CARGO_PKG_VERSION");
    let header = read("include/station.h");
    assert!(header.contains(&format!("#define STATION_VERSION \"{version}\"\n")));
    for (name, number) in ["MAJOR", "MINOR", "PATCH"].into_iter().zip(version.split('.')) {
        assert!(header.contains(&format!("#define STATION_VERSION_{name} {number}\n")), "{name}");
    }
}

/// An entry point: its name, its arguments with their types, and the type of its answer.
struct Entry {
    name: String,
    arguments: Vec<(String, String)>,
    answer: String,
}

impl Entry {
    /// Reads what follows `pub extern "C" fn`.
    fn read(text: &str) -> Entry {
        let (name, rest) = text.split_once('(').expect("arguments");
        let (arguments, rest) = rest.split_once(')').expect("their end");
        let (_, rest) = rest.split_once("->").expect("an answer");
        Entry {
            name: name.trim().to_string(),
            arguments: arguments
                .split(',')
                .filter_map(|argument| argument.split_once(':'))
                .map(|(name, kind)| (name.trim().to_string(), kind.trim().to_string()))
                .collect(),
            answer: rest.split_whitespace().next().expect("a type").to_string(),
        }
    }

    fn in_rust(&self) -> String {
        let given: Vec<String> =
            self.arguments.iter().map(|(name, kind)| format!("{name}: {kind}")).collect();
        format!("fn {}({}) -> {};", self.name, given.join(", "), self.answer)
    }

    fn in_c(&self) -> String {
        let given: Vec<String> =
            self.arguments.iter().map(|(name, kind)| argument_in_c(name, kind)).collect();
        format!("{} {}({});", in_c(&self.answer), self.name, given.join(", "))
    }
}

fn argument_in_c(name: &str, kind: &str) -> String {
    let slice = |kind: &str| kind.strip_suffix(']').map(in_c);
    if let Some(item) = kind.strip_prefix("&mut [").and_then(slice) {
        format!("{item} *{name}, size_t {name}_len")
    } else if let Some(item) = kind.strip_prefix("&[").and_then(slice) {
        format!("const {item} *{name}, size_t {name}_len")
    } else if let Some(record) = kind.strip_prefix("&mut ") {
        format!("{} *{name}", in_c(record))
    } else {
        format!("{} {name}", in_c(kind))
    }
}

fn in_c(kind: &str) -> String {
    match kind {
        "ActiveHead" => "struct station_active_head".to_string(),
        "HeadRow" => "struct station_head_row".to_string(),
        number => {
            let bits = number.strip_prefix('u').expect("an unsigned number");
            format!("uint{bits}_t")
        }
    }
}

fn entries() -> Vec<Entry> {
    let folder = root().join("crates/station/src");
    let mut entries = vec![];
    for file in fs::read_dir(folder).expect("the archive's sources") {
        let text = fs::read_to_string(file.expect("a file").path()).expect("a source");
        entries.extend(text.split("pub extern \"C\" fn ").skip(1).map(Entry::read));
    }
    assert!(!entries.is_empty());
    entries
}

fn root() -> PathBuf {
    Path::new(env!("CARGO_MANIFEST_DIR")).join("../..")
}

fn read(file: &str) -> String {
    fs::read_to_string(root().join(file)).unwrap_or_else(|e| panic!("{file}: {e}"))
}

/// The text with one space between words, and none after an opening parenthesis or before a closing one.
fn spaced(text: &str) -> String {
    let words: Vec<&str> = text.split_whitespace().collect();
    words.join(" ").replace("( ", "(").replace(" )", ")")
}

/// What a type derives says nothing of how it is laid out.
fn without_derives(text: &str) -> String {
    text.lines().filter(|line| !line.starts_with("#[derive(")).collect::<Vec<_>>().join("\n")
}

/// The text of a C file without what stands between `/*` and `*/`.
fn without_comments(text: &str) -> String {
    let parts = text.split("/*").map(|part| part.split_once("*/").map_or(part, |(_, code)| code));
    parts.collect()
}

/// `HashLength` as `HASH_LENGTH`.
fn upper(name: &str) -> String {
    let mut out = String::new();
    for (i, letter) in name.chars().enumerate() {
        if i > 0 && letter.is_uppercase() {
            out.push('_');
        }
        out.extend(letter.to_uppercase());
    }
    out
}
