//! Writes the stored answers: lists of calls as scripts of the trial program, and what it must print
//! for each, which is what the original answers and leaves. The head screens are the model's.

use oracle::calls::{Answer, Call, Reply};
use oracle::judge;
use oracle::random::Random;
use oracle::screen::Row;
use oracle::scripts::{Script, asked_slot};
use oracle::tables::{NONE_REF, Tables};
use std::fs;
use std::path::Path;

const SEED: u64 = 1;

/// How many calls in a hundred are followed by a question about a slot.
const UNDER: usize = 15;

/// About one line of a screen comes for so many calls: the more heads there are, the fewer screens.
const SCREEN: usize = 4;

/// Questions change nothing, and each kind is drawn by itself, so that the other lines are the same
/// without it.
struct Draws {
    calls: Random,
    under: Random,
    screen: Random,
}

/// Block slots, head slots and calls of each list.
const LISTS: [(usize, usize, usize); 22] = [
    (1, 2, 40),
    (2, 2, 60),
    (3, 2, 80),
    (4, 2, 100),
    (4, 3, 100),
    (5, 2, 120),
    (5, 3, 120),
    (6, 4, 120),
    (8, 2, 150),
    (8, 4, 150),
    (8, 64, 150),
    (12, 3, 200),
    (12, 5, 200),
    (33, 4, 250),
    (33, 16, 250),
    (64, 4, 300),
    (64, 8, 300),
    (64, 64, 300),
    (256, 8, 500),
    (256, 64, 500),
    (1024, 16, 1300),
    (1024, 64, 1300),
];

fn main() -> std::io::Result<()> {
    let folder = Path::new(env!("CARGO_MANIFEST_DIR")).join("../replay");
    let [calls, under, screen] = [SEED; 3].map(Random::new);
    let mut draws = Draws { calls, under, screen };
    for (n, m, calls) in LISTS {
        let Written { script, printed } = list(&mut draws, n, m, calls);
        let file = folder.join(format!("n{n}_m{m}"));
        fs::write(file.with_extension("trial"), script)?;
        fs::write(file.with_extension("out"), printed)?;
    }
    Ok(())
}

/// The lines of a list's calls, and the lines that it prints.
struct Written {
    script: String,
    printed: String,
}

impl Written {
    fn add(&mut self, call: &Call, reply: &Reply) {
        self.script += &format!("{call}\n");
        self.printed += &said(call, reply);
    }
}

fn list(draws: &mut Draws, n: usize, m: usize, calls: usize) -> Written {
    let mut tables = Tables::empty(n, m);
    let mut script = Script::of_lines(&mut draws.calls, n);
    let mut written = Written { script: format!("N {n} {m}\n"), printed: String::new() };
    let mut made = 0;
    while made < calls {
        let call = script.next(&mut draws.calls, &tables);
        if !has_line(&call) {
            continue;
        }
        written.add(&call, &judge::run(&call, &mut tables));
        made += 1;
        for question in questions(draws, &tables) {
            written.add(&question, &judge::asked(&question, &mut tables));
        }
    }
    written.printed += &left(&tables);
    written
}

/// What is asked after a call.
fn questions(draws: &mut Draws, t: &Tables) -> Vec<Call> {
    let mut all = Vec::new();
    if draws.under.percent(UNDER) {
        all.push(Call::Under { slot: asked_slot(&mut draws.under, t) });
    }
    let heads = t.tips.iter().filter(|&&tip| tip != NONE_REF).count();
    if draws.screen.below(SCREEN * (heads + 1)) == 0 {
        all.push(Call::Screen { more: 0 });
    }
    all
}

/// Whether the trial program reads the call's line.
fn has_line(call: &Call) -> bool {
    match call {
        Call::Fresh | Call::Deadline { .. } => false,
        Call::Timer { span, .. } => span.is_some(),
        Call::Admit { hash, previous, .. } => [hash, previous]
            .iter()
            .all(|hash| hash.first().is_some_and(|&first| ***hash == [first; 32])),
        Call::Promote { .. } | Call::Remove { .. } | Call::Restart { .. } => true,
        Call::Under { .. } => true,
        Call::Screen { more } => *more == 0,
    }
}

/// The lines of a reply.
fn said(call: &Call, reply: &Reply) -> String {
    match (call, reply) {
        (_, Err(refusal)) => format!("E {refusal}\n"),
        (Call::Promote { slot }, Ok(Answer::Done)) => format!("P {slot}\n"),
        (_, Ok(Answer::Slot(slot))) => format!("A {slot}\n"),
        (_, Ok(Answer::Freed(freed))) => format!("D {freed}\n"),
        (_, Ok(Answer::Asked(None))) => "T -\n".to_string(),
        (_, Ok(Answer::Asked(Some(asked)))) => {
            format!("T {} {} {:02x}\n", asked.head, asked.claimed, asked.missing[0])
        }
        (_, Ok(Answer::Done)) => "R\n".to_string(),
        (_, Ok(Answer::Under(under))) => format!("U {} {}\n", under.blocks, under.highest),
        (_, Ok(Answer::Screen(rows))) => rows.iter().map(shown).collect(),
        (_, Ok(Answer::Due(_) | Answer::Unread(_))) => unreachable!("no line asks for it"),
    }
}

fn shown(row: &Row) -> String {
    let (sequence, anchor) = (reference(row.sequence), reference(row.anchor));
    format!("V {} {sequence} {} {anchor}\n", row.tip, kind(row.kind == 1))
}

/// The tables at the end.
fn left(t: &Tables) -> String {
    let mut lines = String::new();
    for slot in (0..t.n()).filter(|&slot| t.sequences[slot] != NONE_REF) {
        let block = t.block(slot);
        let (parent, active) = (reference(block.parent), block.flags & 1);
        lines += &format!("B {slot} {} {parent} {} {active}\n", block.sequence, block.count);
    }
    for slot in (0..t.m()).filter(|&slot| t.tips[slot] != NONE_REF) {
        let head = t.head(slot);
        let kind = kind(head.connected == 1);
        lines += &format!("H {slot} {} {kind} {}\n", head.tip, reference(head.tail));
    }
    lines
}

fn kind(connected: bool) -> char {
    if connected { 'C' } else { 'S' }
}

fn reference(number: u32) -> String {
    if number == NONE_REF { "-".to_string() } else { number.to_string() }
}
