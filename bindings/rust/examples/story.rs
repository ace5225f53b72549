//! The story: a station saves its tables, comes up again with a full, forked head table, its counts at
//! zero, and restarts; a third branch evicts one of the two that share a pass's block; and the pass
//! stays.
//!
//!     cargo run --example story [FILE]

use station::{BlockSlot, Refusal, Sequence, Tables};
use std::error::Error;
use std::path::{Path, PathBuf};
use std::{env, fs, io};

const PASS: [u8; 32] = [0x0a; 32];
const BEFORE: [u8; 32] = [0x09; 32];

fn main() -> Result<(), Box<dyn Error>> {
    let beside = env::current_exe()?.with_extension("store");
    let file = env::args_os().nth(1).map_or(beside, PathBuf::from);

    println!("The pass is booked.");
    let mut tables = restarted(&file, false)?;
    third_branch(&mut tables)?;
    sell_again(&mut tables);

    println!("\nThe pass is confirmed.");
    let mut tables = restarted(&file, true)?;
    let other = third_branch(&mut tables)?;
    fourth_branch(&mut tables)?;
    sell_again(&mut tables);
    cancel(&mut tables);
    confirm_instead(&mut tables, other);
    Ok(())
}

fn restarted(file: &Path, confirmed: bool) -> Result<Tables, Box<dyn Error>> {
    let mut tables = Tables::new(4, 2)?;
    let pass = tables.admit(Sequence(5), &PASS, &BEFORE, 1)?;
    tables.admit(Sequence(6), &[0x0b; 32], &PASS, 2)?;
    tables.admit(Sequence(6), &[0x0c; 32], &PASS, 3)?;
    if confirmed {
        tables.promote(pass)?;
    }
    show("Two branches share its block:", &tables);

    save(file, &tables)?;
    drop(tables);
    println!("The store is saved to a file, and the station stops.");
    let mut loaded = Tables::from_bytes(&fs::read(file)?)?.into_parts();
    loaded.counts.fill(0);
    let mut tables = Tables::from_parts(loaded)?;
    show("It comes up again and loads the file, without the counts:", &tables);
    tables.restart(10)?;
    show("Restart sets them from the blocks:", &tables);
    Ok(tables)
}

/// A crash leaves the old file or the new one. Where power may fail the file is also flushed to the
/// disk before the rename.
fn save(file: &Path, tables: &Tables) -> io::Result<()> {
    let second = file.with_extension("new");
    fs::write(&second, tables.to_bytes())?;
    fs::rename(&second, file)
}

fn third_branch(tables: &mut Tables) -> Result<BlockSlot, Refusal> {
    let slot = tables.admit(Sequence(7), &[0x0d; 32], &[0x0e; 32], 20)?;
    show("A third branch evicts the lower one, and the pass stays:", tables);
    Ok(slot)
}

fn fourth_branch(tables: &mut Tables) -> Result<(), Refusal> {
    tables.admit(Sequence(8), &[0x0f; 32], &[0x10; 32], 30)?;
    show("A fourth evicts the other, and the pass stays:", tables);
    Ok(())
}

fn sell_again(tables: &mut Tables) {
    match tables.admit(Sequence(5), &PASS, &BEFORE, 40) {
        Ok(slot) => panic!("the pass was sold twice, in slot {slot}"),
        Err(refusal) => println!("Sold again? {refusal}."),
    }
}

fn cancel(tables: &mut Tables) {
    let pass = tables.find(Sequence(5), &PASS).expect("the pass stays");
    match tables.remove(pass) {
        Ok(freed) => panic!("a confirmed pass was freed, with {freed} blocks"),
        Err(refusal) => println!("Cancelled? {refusal}."),
    }
}

/// Only the record knows that the chain goes on from the pass alone.
fn confirm_instead(tables: &mut Tables, slot: BlockSlot) {
    match tables.promote(slot) {
        Ok(()) => panic!("slot {slot} was confirmed in the place of the pass"),
        Err(refusal) => println!("Another confirmed instead? {refusal}."),
    }
}

fn show(when: &str, tables: &Tables) {
    println!("{when}");
    for (slot, block) in tables.blocks() {
        let parent = block.parent.map_or(String::new(), |parent| format!(" on {parent}"));
        let confirmed = if block.active { ", confirmed" } else { "" };
        println!("  {slot}: sequence {}{parent}, count {}{confirmed}", block.sequence, block.count);
    }
}
