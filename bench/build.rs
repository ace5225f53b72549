//! Brings in the original's files.

#[path = "../oracle/original.rs"]
mod original;

fn main() {
    original::copy(&[("blocks", "blocks.rs", ""), ("chain_heads", "heads.rs", "")], "timed");
}
