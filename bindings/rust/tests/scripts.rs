//! The trial's scripts in `examples/`, run on [`Tables`]: the answers and the tables at the end are
//! those that the trial program prints. `unread` is about that program's lines alone.

use station::{BlockSlot, Hash, HeadKind, HeadRow, Refusal, Sequence, Tables};
use std::fmt::Display;
use std::path::Path;
use std::{env, fs};

#[test]
fn the_scripts() {
    let folder = Path::new(env!("CARGO_MANIFEST_DIR")).join("../../examples");
    let mut run = 0;
    for entry in fs::read_dir(folder).expect("the examples") {
        let script = entry.expect("a file").path();
        if script.extension().is_some_and(|e| e == "trial") && !script.ends_with("unread.trial") {
            let lines = fs::read_to_string(&script).expect("a script");
            let expected = fs::read_to_string(script.with_extension("out")).expect("its output");
            assert_eq!(printed(&lines), expected, "{}", script.display());
            run += 1;
        }
    }
    assert!(run >= 8, "only {run} scripts");
}

fn printed(script: &str) -> String {
    let mut tables = None;
    let mut out = String::new();
    for line in script.lines() {
        match answer(&mut tables, line) {
            Ok(said) => out += &said,
            Err(refusal) => out += &format!("E {}\n", refusal.number()),
        }
    }
    let Some(tables) = tables else { return out };
    for (slot, block) in tables.blocks() {
        let parent = or_dash(block.parent);
        let active = u8::from(block.active);
        out += &format!("B {slot} {} {parent} {} {active}\n", block.sequence, block.count);
    }
    for head in tables.heads() {
        let kind = letter(head.connected);
        out += &format!("H {} {} {kind} {}\n", head.slot, head.tip, or_dash(head.anchor));
    }
    out
}

/// Before the first accepted N each call is refused by 1.
fn answer(tables: &mut Option<Tables>, line: &str) -> Result<String, Refusal> {
    let words: Vec<&str> = line.split(' ').collect();
    if let ["N", n, m] = words[..] {
        *tables = Some(Tables::new(number(n), number(m))?);
        return Ok(String::new());
    }
    let tables = tables.as_mut().ok_or(Refusal::Shape)?;
    Ok(match words[..] {
        ["A", sequence, hash, previous, arrival] => {
            let sequence = Sequence(number(sequence));
            let slot = tables.admit(sequence, &bytes(hash), &bytes(previous), number(arrival))?;
            format!("A {slot}\n")
        }
        ["P", slot] => {
            tables.promote(BlockSlot(number(slot)))?;
            format!("P {slot}\n")
        }
        ["D", slot] => format!("D {}\n", tables.remove(BlockSlot(number(slot)))?),
        ["U", slot] => {
            let under = tables.under(BlockSlot(number(slot)))?;
            format!("U {} {}\n", under.blocks, under.highest)
        }
        ["V"] => tables.screen().map(|row| shown(&row)).collect(),
        ["T", now, retry] => match tables.timer(number(now), Some(number(retry)))? {
            Some(due) => format!("T {} {} {:02x}\n", due.head, due.sequence, due.hash[0]),
            None => "T -\n".to_string(),
        },
        ["R", now] => {
            tables.restart(number(now))?;
            "R\n".to_string()
        }
        _ => panic!("not a line: {line}"),
    })
}

fn shown(row: &HeadRow) -> String {
    let (sequence, anchor) = (or_dash(row.sequence()), or_dash(row.anchor()));
    let kind = letter(row.kind() == HeadKind::Connected);
    format!("V {} {sequence} {kind} {anchor}\n", row.tip())
}

fn letter(connected: bool) -> char {
    if connected { 'C' } else { 'S' }
}

fn number<T: TryFrom<u64>>(word: &str) -> T {
    let value: u64 = word.parse().expect("a number");
    T::try_from(value).unwrap_or_else(|_| panic!("too large: {word}"))
}

fn bytes(word: &str) -> Hash {
    [u8::from_str_radix(word, 16).expect("two digits"); 32]
}

fn or_dash(slot: Option<impl Display>) -> String {
    slot.map_or("-".to_string(), |slot| slot.to_string())
}
