//! The head screen: the model on tables whose answer is known and in another way, what is made of a
//! list that was filled, the cases that the comparison must meet, and faults that it finds.

use oracle::calls::{Answer, Call, Reply, room};
use oracle::functions::compare;
use oracle::generate::{self, MORE};
use oracle::judge;
use oracle::misfit::Misfit;
use oracle::original::locate_anchor;
use oracle::random::Random;
use oracle::screen::{Key, Row, keys, screen};
use oracle::shown::Shown;
use oracle::station::{filled, noise};
use oracle::tables::{Block, Hash, Head, Located, NONE_REF, Tables};
use oracle::tips;
use std::cmp::Reverse;
use std::collections::BTreeSet;

/// Sizes for which the original is compiled.
const BLOCK_SLOTS: [usize; 8] = [1, 2, 3, 4, 5, 6, 8, 12];

/// Tables with blocks of these sequences and hashes and heads of these tips; the anchor of each head
/// is ten more than its slot.
fn tables(blocks: &[(u32, u8)], tips: &[u32]) -> Tables {
    let mut t = Tables::empty(blocks.len(), tips.len());
    for (slot, &(sequence, hash)) in blocks.iter().enumerate() {
        t.set_block(slot, Block { sequence, hash: [hash; 32], ..Block::EMPTY });
    }
    for (slot, &tip) in tips.iter().enumerate() {
        t.set_head(slot, Head { tip, tail: 10 + slot as u32, ..Head::EMPTY });
    }
    t
}

/// The heads of the screen, by their anchors, with the sequences that they show.
fn order(t: &Tables) -> Vec<(u32, u32)> {
    screen(t).iter().map(|row| (row.anchor - 10, row.sequence)).collect()
}

#[test]
fn the_highest_sequence_first() {
    let t = tables(&[(5, 1), (7, 2), (0, 3), (NONE_REF - 1, 4)], &[2, 0, 1, 3]);
    assert_eq!(order(&t), [(3, NONE_REF - 1), (2, 7), (1, 5), (0, 0)]);
}

#[test]
fn then_the_lowest_hash_from_its_first_byte_on() {
    let mut t = tables(&[(5, 9), (5, 3), (5, 4), (5, 3)], &[0, 1, 2, 3]);
    t.hashes[32 + 31] = 255;
    assert_eq!(order(&t), [(3, 5), (1, 5), (2, 5), (0, 5)]);
}

#[test]
fn then_the_lowest_head_slot() {
    let t = tables(&[(5, 1), (6, 2), (5, 1)], &[2, 1, 0, 2, 1, NONE_REF]);
    assert_eq!(order(&t), [(1, 6), (4, 6), (0, 5), (2, 5), (3, 5)]);
}

#[test]
fn a_tip_that_is_empty_or_out_of_range() {
    let t = tables(&[(5, 1), (NONE_REF, 9), (5, 0), (NONE_REF, 0)], &[0, 3, 1, 2, 4, NONE_REF - 1]);
    let first = [(1, NONE_REF), (2, NONE_REF), (4, NONE_REF), (5, NONE_REF)];
    assert_eq!(order(&t), [&first[..], &[(3, 5), (0, 5)]].concat());
}

#[test]
fn a_record_is_what_the_head_keeps() {
    let mut t = tables(&[(5, 1)], &[0, 1, 9, NONE_REF]);
    t.connected = vec![0b1111_1110, 0b1000_0001, 1, 1];
    t.tails[1] = NONE_REF;
    let row = |tip, sequence, kind, anchor| Row { tip, sequence, kind, anchor };
    let expected = [row(1, NONE_REF, 1, NONE_REF), row(9, NONE_REF, 1, 12), row(0, 5, 0, 10)];
    assert_eq!(screen(&t), expected);
    assert_eq!(screen(&tables(&[(5, 1)], &[NONE_REF; 3])), []);
}

fn ask(t: &Tables, more: i8) -> Reply {
    judge::run(&Call::Screen { more }, &mut t.clone())
}

#[test]
fn the_refusals_in_their_order() {
    let mut t = tables(&[(5, 1)], &[NONE_REF, NONE_REF, 0]);
    for more in [-128, -3, -2, -1] {
        assert_eq!(ask(&t, more), Err(10), "{more}");
    }
    for more in [0, 1, 127] {
        assert_eq!(ask(&t, more), Ok(Answer::Screen(screen(&t))), "{more}");
    }
    Misfit::Heads(65).apply(&mut t);
    assert_eq!((ask(&t, -1), ask(&t, 0)), (Err(1), Err(1)));
}

/// What a call does to a list of four records and those beyond, and whether that can be read.
type Filling = (u64, fn(&mut [Row]), bool);

#[test]
fn records_are_written_to_the_first_places_alone() {
    let refused = 10 << 32;
    let fillings: [Filling; 11] = [
        (0, |_| (), true),
        (2, |list| list[..2].fill(ROW), true),
        (4, |list| list[..4].fill(ROW), true),
        (refused, |_| (), true),
        (2, |list| list[..3].fill(ROW), false),
        (2, |list| list[3] = ROW, false),
        (2, |list| list[2..].rotate_left(1), false),
        (4, |list| list[4] = ROW, false),
        (5, |list| list[..5].fill(ROW), false),
        (refused, |list| list[0] = ROW, false),
        (refused + 1, |_| (), false),
    ];
    for (at, (answer, fill, reads)) in fillings.into_iter().enumerate() {
        let before = noise(6);
        let mut after = before.clone();
        fill(&mut after);
        let reply = filled(answer, &before, &after, 4);
        assert_eq!(!matches!(reply, Ok(Answer::Unread(_))), reads, "{at}: {reply:?}");
    }
}

const ROW: Row = Row { tip: 1, sequence: 2, kind: 0, anchor: 3 };

/// Tables of the comparison as a call gets them, and how many records more than head slots.
fn asked() -> Vec<(Tables, i8)> {
    let mut random = Random::new(1);
    let mut all = Vec::new();
    for round in 0..400 {
        let t = tips::tables(&mut random, round);
        all.extend(MORE.map(|more| (generate::args(&mut random, &t).lend(&t), more)));
    }
    all
}

#[test]
fn each_case_is_met() {
    let mut met = Shown::default();
    for (t, more) in asked() {
        met.note(&t, more, &ask(&t, more));
    }
    for (_, case, times) in met.counts() {
        assert!(times > 0, "no screen with {case}");
    }
}

#[test]
fn tables_of_every_number_of_heads_come() {
    let mut random = Random::new(1);
    let heads = (0..400).map(|round| tips::tables(&mut random, round).m());
    assert!(heads.collect::<BTreeSet<usize>>().into_iter().eq(2..=64));
}

/// Whether the first head stands before the second, a sentence at a time.
fn stands_before(t: &Tables, first: usize, second: usize) -> bool {
    let tip = |head: usize| match t.tips[head] as usize {
        slot if slot < t.n() && t.sequences[slot] != NONE_REF => t.block(slot),
        _ => Block::EMPTY,
    };
    let (one, other) = (tip(first), tip(second));
    if one.sequence != other.sequence {
        return one.sequence > other.sequence;
    }
    let byte = (0..32).find(|&at| one.hash[at] != other.hash[at]);
    byte.map_or(first < second, |at| one.hash[at] < other.hash[at])
}

#[test]
fn each_head_stands_behind_those_before_it() {
    for (t, _) in asked().iter().filter(|(t, _)| judge::is_shaped(t)) {
        let heads: Vec<usize> = (0..t.m()).filter(|&head| t.tips[head] != NONE_REF).collect();
        let rows = screen(t);
        assert_eq!(rows.len(), heads.len());
        for &head in &heads {
            let place = heads.iter().filter(|&&other| stands_before(t, other, head)).count();
            assert_eq!((rows[place].tip, rows[place].anchor), (t.tips[head], t.tails[head]));
        }
    }
}

/// What a fault is called, and what it replies.
type Fault = (&'static str, fn(&Tables, i8) -> Reply);

/// The screen with its heads sorted by another key.
fn sorted<K: Ord>(t: &Tables, more: i8, key: impl Fn(u32, Hash, usize) -> K) -> Reply {
    rows(t, more, |heads| {
        heads.sort_by_key(|((sequence, hash, at), _)| key(sequence.0, *hash, *at))
    })
}

/// The screen with other records.
fn rows(t: &Tables, more: i8, change: impl Fn(&mut Vec<(Key, Row)>)) -> Reply {
    let Answer::Screen(rows) = ask(t, more)? else { unreachable!("no screen") };
    let mut heads: Vec<(Key, Row)> = keys(t).into_iter().zip(rows).collect();
    change(&mut heads);
    Ok(Answer::Screen(heads.into_iter().map(|(_, row)| row).collect()))
}

/// The hash that the slot of a head's tip holds.
fn hash_held(t: &Tables, head: usize) -> Hash {
    let slot = t.tips[head] as usize;
    if slot < t.n() { t.block(slot).hash } else { [0; 32] }
}

fn walked(t: &Tables, tip: u32) -> (u32, u32) {
    match locate_anchor(t, tip) {
        Located::Connection(at) => (1, at),
        Located::Tail(at) => (0, at),
    }
}

const FAULTS: [Fault; 19] = [
    ("by slot alone", |t, more| sorted(t, more, |_, _, at| at)),
    ("the lowest sequence first", |t, more| {
        sorted(t, more, |sequence, hash, at| (sequence, hash, at))
    }),
    ("signed sequences", |t, more| {
        sorted(t, more, |sequence, hash, at| (Reverse(sequence as i32), hash, at))
    }),
    ("tips without a block last", |t, more| {
        sorted(t, more, |sequence, hash, at| (Reverse(sequence.wrapping_add(1)), hash, at))
    }),
    ("no hash", |t, more| sorted(t, more, |sequence, _, at| (Reverse(sequence), at))),
    ("the first byte of a hash alone", |t, more| {
        sorted(t, more, |sequence, hash, at| (Reverse(sequence), hash[0], at))
    }),
    ("all bytes of a hash but the last", |t, more| {
        sorted(t, more, |sequence, hash, at| (Reverse(sequence), hash[..31].to_vec(), at))
    }),
    ("the highest hash first", |t, more| {
        sorted(t, more, |sequence, hash, at| (Reverse(sequence), Reverse(hash), at))
    }),
    ("a hash from its last byte on", |t, more| {
        sorted(t, more, |sequence, mut hash, at| {
            hash.reverse();
            (Reverse(sequence), hash, at)
        })
    }),
    ("the hash that an empty slot holds", |t, more| {
        sorted(t, more, |sequence, _, at| (Reverse(sequence), hash_held(t, at), at))
    }),
    ("the highest slot first", |t, more| {
        sorted(t, more, |sequence, hash, at| (Reverse(sequence), hash, Reverse(at)))
    }),
    ("tips without a block left out", |t, more| {
        rows(t, more, |heads| heads.retain(|(_, row)| row.sequence != NONE_REF))
    }),
    ("shared tips shown once", |t, more| {
        rows(t, more, |heads| heads.dedup_by_key(|(_, row)| row.tip))
    }),
    ("an empty tip with sequence 0", |t, more| {
        rows(t, more, |heads| {
            let empty = heads.iter_mut().filter(|(_, row)| row.sequence == NONE_REF);
            empty.for_each(|(_, row)| row.sequence = 0);
        })
    }),
    ("connected by any bit of the flag", |t, more| {
        rows(t, more, |heads| {
            heads.iter_mut().for_each(|(key, row)| row.kind = u32::from(t.connected[key.2] != 0));
        })
    }),
    ("the kind that a walk finds", |t, more| {
        rows(t, more, |heads| heads.iter_mut().for_each(|(_, row)| row.kind = walked(t, row.tip).0))
    }),
    ("the anchor that a walk finds", |t, more| {
        rows(t, more, |heads| {
            heads.iter_mut().for_each(|(_, row)| row.anchor = walked(t, row.tip).1)
        })
    }),
    ("10 by the heads in use", |t, more| match ask(t, more) {
        Err(10) if screen(t).len() <= room(t, more) => Ok(Answer::Screen(screen(t))),
        reply => reply,
    }),
    ("10 before 1", |t, more| if room(t, more) < t.m() { Err(10) } else { ask(t, more) }),
];

#[test]
fn each_fault_is_found() {
    let mut asked = asked();
    asked.retain(|(t, _)| BLOCK_SLOTS.contains(&t.n()));
    for (name, fault) in FAULTS {
        let differs =
            |(t, more): &(Tables, i8)| compare(t, |t| ask(t, *more), |t| fault(t, *more)).is_err();
        assert!(asked.iter().any(differs), "not found: {name}");
    }
}
