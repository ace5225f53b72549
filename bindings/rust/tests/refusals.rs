//! Each refusal by its number, in its order, with the tables left as they stood.

use station::{
    BlockSlot, HeadRow, MOST_BLOCKS, MOST_HEADS, NONE_REF, Parts, Refusal, Sequence, Tables,
};
use std::collections::HashSet;
use std::error::Error;

const A: [u8; 32] = [0x0a; 32];
const B: [u8; 32] = [0x0b; 32];
const ZERO: [u8; 32] = [0; 32];

/// The number of the refusal, of a call that leaves the tables.
fn refused<T: std::fmt::Debug>(
    tables: &mut Tables,
    call: impl FnOnce(&mut Tables) -> Result<T, Refusal>,
) -> u32 {
    let before = tables.clone();
    let refusal = call(tables).expect_err("a refusal");
    assert_eq!(*tables, before);
    refusal.number()
}

fn refused_admit(tables: &mut Tables, sequence: u32, hash: &[u8], previous: &[u8]) -> u32 {
    refused(tables, |t| t.admit(Sequence(sequence), hash, previous, 1))
}

#[test]
fn sizes() {
    for (blocks, heads) in [(1, 2), (1, 64), (1_024, 2), (MOST_BLOCKS, MOST_HEADS)] {
        assert!(Tables::new(blocks, heads).is_ok(), "{blocks} {heads}");
    }
    for (blocks, heads) in
        [(0, 2), (1_025, 2), (1, 0), (1, 1), (1, 65), (usize::MAX, 2), (1, usize::MAX)]
    {
        assert_eq!(Tables::new(blocks, heads), Err(Refusal::Shape), "{blocks} {heads}");
    }
}

type Change = fn(&mut Parts);

fn shorten<T>(buffer: &mut Vec<T>) {
    buffer.pop();
}

fn lengthen<T: Default>(buffer: &mut Vec<T>) {
    buffer.push(T::default());
}

#[test]
fn shape_1_whichever_buffer_does_not_fit() {
    let changes: [Change; 22] = [
        |p| shorten(&mut p.hashes),
        |p| lengthen(&mut p.hashes),
        |p| shorten(&mut p.parents),
        |p| lengthen(&mut p.parents),
        |p| shorten(&mut p.sequences),
        |p| lengthen(&mut p.sequences),
        |p| shorten(&mut p.counts),
        |p| lengthen(&mut p.counts),
        |p| shorten(&mut p.flags),
        |p| lengthen(&mut p.flags),
        |p| shorten(&mut p.tips),
        |p| lengthen(&mut p.tips),
        |p| shorten(&mut p.tails),
        |p| lengthen(&mut p.tails),
        |p| shorten(&mut p.missing),
        |p| lengthen(&mut p.missing),
        |p| shorten(&mut p.requested),
        |p| lengthen(&mut p.requested),
        |p| shorten(&mut p.arrivals),
        |p| lengthen(&mut p.arrivals),
        |p| shorten(&mut p.connected),
        |p| lengthen(&mut p.connected),
    ];
    let mut whole = Tables::new(4, 2).unwrap();
    whole.admit(Sequence(5), &A, &ZERO, 1).unwrap();
    for (which, change) in changes.into_iter().enumerate() {
        let mut parts = whole.clone().into_parts();
        change(&mut parts);
        assert_eq!(Tables::from_parts(parts), Err(Refusal::Shape), "{which}");
    }
}

#[test]
fn hash_length_2() {
    let mut tables = Tables::new(4, 2).unwrap();
    assert_eq!(refused_admit(&mut tables, 5, &[1; 31], &A), 2);
    assert_eq!(refused_admit(&mut tables, 5, &[1; 33], &A), 2);
    assert_eq!(refused_admit(&mut tables, 5, &[], &A), 2);
    assert_eq!(refused_admit(&mut tables, 5, &A, &[1; 31]), 2);
    assert_eq!(refused_admit(&mut tables, 5, &A, &[]), 2);
    assert_eq!(refused_admit(&mut tables, u32::MAX, &[0; 31], &A), 2, "before 4 and 5");
}

#[test]
fn no_block_3() {
    let mut tables = Tables::new(4, 2).unwrap();
    for slot in [0, 3, 4, u32::MAX].map(BlockSlot) {
        assert_eq!(refused(&mut tables, |t| t.promote(slot)), 3, "{slot}");
        assert_eq!(refused(&mut tables, |t| t.remove(slot)), 3, "{slot}");
        assert_eq!(refused(&mut tables, |t| t.under(slot)), 3, "{slot}");
    }
}

#[test]
fn reserved_sequence_4() {
    let mut tables = Tables::new(4, 2).unwrap();
    assert_eq!(refused_admit(&mut tables, u32::MAX, &A, &B), 4);
    assert_eq!(refused_admit(&mut tables, u32::MAX, &ZERO, &B), 4, "before 5");
    assert!(tables.admit(Sequence(u32::MAX - 1), &A, &B, 1).is_ok());
}

#[test]
fn zero_hash_5() {
    let mut tables = Tables::new(1, 2).unwrap();
    assert_eq!(refused_admit(&mut tables, 5, &ZERO, &A), 5);
    assert!(tables.admit(Sequence(5), &A, &ZERO, 1).is_ok(), "a zero previous hash is allowed");
    assert_eq!(refused_admit(&mut tables, 5, &ZERO, &A), 5, "before 7");
}

#[test]
fn known_6() {
    let mut tables = Tables::new(1, 2).unwrap();
    tables.admit(Sequence(5), &A, &ZERO, 1).unwrap();
    assert_eq!(refused_admit(&mut tables, 5, &A, &B), 6, "before 7");
}

#[test]
fn full_7() {
    let mut tables = Tables::new(1, 2).unwrap();
    tables.admit(Sequence(5), &A, &ZERO, 1).unwrap();
    assert_eq!(refused_admit(&mut tables, 6, &A, &ZERO), 7);
    assert_eq!(refused_admit(&mut tables, 5, &B, &ZERO), 7);
}

#[test]
fn not_next_8() {
    let mut tables = Tables::new(4, 2).unwrap();
    let first = tables.admit(Sequence(5), &A, &ZERO, 1).unwrap();
    let second = tables.admit(Sequence(6), &B, &A, 2).unwrap();
    let third = tables.admit(Sequence(7), &A, &B, 3).unwrap();
    tables.promote(first).unwrap();
    assert_eq!(refused(&mut tables, |t| t.promote(third)), 8);
    assert_eq!(refused(&mut tables, |t| t.promote(first)), 8);
    tables.promote(second).unwrap();
    assert_eq!(tables.active_head(), Some(second));
}

#[test]
fn holds_active_9() {
    let mut tables = Tables::new(4, 2).unwrap();
    let first = tables.admit(Sequence(5), &A, &ZERO, 1).unwrap();
    let second = tables.admit(Sequence(6), &B, &A, 2).unwrap();
    tables.promote(second).unwrap();
    assert_eq!(refused(&mut tables, |t| t.remove(second)), 9);
    assert_eq!(refused(&mut tables, |t| t.remove(first)), 9, "below an active block");
}

#[test]
fn short_list_10() {
    let before: Vec<HeadRow> = confirmed().screen().collect();
    let mut tables = Tables::new(4, 3).unwrap();
    for room in 0..3 {
        let mut rows = before.iter().copied().cycle().take(room).collect::<Vec<HeadRow>>();
        let kept = rows.clone();
        assert_eq!(refused(&mut tables, |t| t.fill_screen(&mut rows)), 10, "{room}");
        assert_eq!(rows, kept, "the list of a refused call");
    }
    assert_eq!(tables.fill_screen(&mut [HeadRow::default(); 3]), Ok(0));
}

/// Slots 1 and 2 are siblings, and 1 is the active head.
fn confirmed() -> Tables {
    let mut tables = Tables::new(4, 2).unwrap();
    let first = tables.admit(Sequence(5), &A, &ZERO, 1).unwrap();
    let second = tables.admit(Sequence(6), &A, &A, 2).unwrap();
    tables.admit(Sequence(6), &B, &A, 3).unwrap();
    tables.promote(first).unwrap();
    tables.promote(second).unwrap();
    tables
}

#[test]
fn store_100() {
    let saved = confirmed().to_bytes();
    assert_eq!(Tables::from_bytes(&saved), Ok(confirmed()));
    assert_eq!(Tables::from_bytes(&[]), Err(Refusal::Store));
    assert_eq!(Tables::from_bytes(&vec![0; saved.len()]), Err(Refusal::Store));
    assert_eq!(Tables::from_bytes(&saved[1..]), Err(Refusal::Store));
    assert_eq!(Tables::from_bytes(&saved[8..]), Err(Refusal::Store));
    assert_eq!(Tables::from_bytes(&[&[0; 8], &saved[..]].concat()), Err(Refusal::Store));
    for byte in saved.len() - 16..saved.len() {
        let mut other = saved.clone();
        other[byte] ^= 0x80;
        assert_eq!(Tables::from_bytes(&other), Err(Refusal::Store), "byte {byte} of the mark");
    }
}

#[test]
fn record_101() {
    for (active, why) in
        [(NONE_REF, "lost"), (0, "old"), (2, "not active"), (3, "empty"), (4, "no slot")]
    {
        let mut parts = confirmed().into_parts();
        parts.active = active;
        assert_eq!(Tables::from_parts(parts), Err(Refusal::Record), "{why}");
    }
    let mut parts = Tables::new(4, 2).unwrap().into_parts();
    parts.active = 0;
    assert_eq!(Tables::from_parts(parts), Err(Refusal::Record), "no block is active");

    let mut tables = Tables::new(4, 2).unwrap();
    tables.admit(Sequence(5), &A, &ZERO, 1).unwrap();
    let second = tables.admit(Sequence(6), &A, &A, 2).unwrap();
    tables.promote(second).unwrap();
    let parts = Parts { active: NONE_REF, ..tables.into_parts() };
    assert_eq!(Tables::from_parts(parts), Err(Refusal::Record), "lost, the parent not active");
}

#[test]
fn numbers_and_words() {
    let numbers: Vec<u32> = Refusal::ALL.into_iter().map(Refusal::number).collect();
    assert_eq!(numbers, (1..=10).chain(100..=101).collect::<Vec<u32>>());
    for refusal in Refusal::ALL {
        assert_eq!(Refusal::from_number(refusal.number()), Some(refusal));
    }
    assert_eq!(Refusal::from_number(0), None);
    assert_eq!(Refusal::from_number(11), None);

    let words: HashSet<String> = Refusal::ALL.iter().map(Refusal::to_string).collect();
    assert_eq!(words.len(), 12);
    let error: Box<dyn Error> = Refusal::Full.into();
    assert_eq!(error.to_string(), "no block slot is empty");
}
