//! The questions, on the tables of the scope's trial, and what is shown of them.

use station::{
    Anchor, Block, BlockSlot, Head, HeadKind, HeadRow, HeadSlot, MOST_BLOCKS, MOST_HEADS, NONE_REF,
    Parts, Rank, Refusal, Request, Sequence, Status, Tables, Under,
};
use std::cmp::Ordering;
use std::collections::HashSet;

fn hash(byte: u8) -> [u8; 32] {
    [byte; 32]
}

/// Slots 0, 2 and 3 hold blocks, 0 is the active head and the parent of 2.
fn after_the_trial() -> Result<Tables, Refusal> {
    let mut tables = Tables::new(4, 2)?;
    tables.admit(Sequence(5), &hash(0x0a), &hash(0x09), 1)?;
    tables.admit(Sequence(6), &hash(0x0b), &hash(0x0a), 2)?;
    tables.admit(Sequence(6), &hash(0x0c), &hash(0x0a), 3)?;
    let asked = Request { head: HeadSlot(0), sequence: Sequence(4), hash: hash(0x09) };
    assert_eq!(tables.timer(10, Some(5))?, Some(asked));
    tables.promote(BlockSlot(0))?;
    tables.admit(Sequence(7), &hash(0x0d), &hash(0x0e), 20)?;
    Ok(tables)
}

#[test]
fn blocks() -> Result<(), Refusal> {
    let tables = after_the_trial()?;
    let block = |byte, parent: Option<u32>, sequence, active| Block {
        hash: hash(byte),
        parent: parent.map(BlockSlot),
        sequence: Sequence(sequence),
        count: 1,
        active,
    };
    let blocks: Vec<(BlockSlot, Block)> = tables.blocks().collect();
    let expected = [
        (BlockSlot(0), block(0x0a, None, 5, true)),
        (BlockSlot(2), block(0x0c, Some(0), 6, false)),
        (BlockSlot(3), block(0x0d, None, 7, false)),
    ];
    assert_eq!(blocks, expected);
    assert_eq!(tables.get(BlockSlot(1)), None);
    assert_eq!(tables.get(BlockSlot(4)), None);
    assert_eq!(tables.active_head(), Some(BlockSlot(0)));
    assert_eq!((tables.block_slots(), tables.head_slots()), (4, 2));
    Ok(())
}

#[test]
fn searches() -> Result<(), Refusal> {
    let tables = after_the_trial()?;
    assert_eq!(tables.find(Sequence(6), &hash(0x0c)), Some(BlockSlot(2)));
    assert_eq!(tables.find(Sequence(6), &hash(0x0b)), None);
    assert_eq!(tables.find(Sequence(5), &hash(0x0c)), None);
    assert_eq!(tables.find_parent(Sequence(6), &hash(0x0a)), Some(BlockSlot(0)));
    assert_eq!(tables.find_parent(Sequence(5), &hash(0x0a)), None);
    assert_eq!(tables.find_parent(Sequence(0), &hash(0x0a)), None);
    assert_eq!(tables.next_free(), Some(BlockSlot(1)));
    assert_eq!(tables.head_ref_count(BlockSlot(2)), Some(1));
    assert_eq!(tables.head_ref_count(BlockSlot(1)), None);
    assert_eq!(tables.status(BlockSlot(0)), Some(Status::Active));
    assert_eq!(tables.status(BlockSlot(2)), Some(Status::Stored));
    assert_eq!(tables.status(BlockSlot(1)), None);
    Ok(())
}

#[test]
fn walks() -> Result<(), Refusal> {
    let tables = after_the_trial()?;
    assert_eq!(tables.subtree(BlockSlot(0)), [0, 2].map(BlockSlot));
    assert_eq!(tables.subtree(BlockSlot(3)), [3].map(BlockSlot));
    assert_eq!(tables.subtree(BlockSlot(1)), []);
    assert!(tables.walks_to_active_chain(BlockSlot(2)));
    assert!(!tables.walks_to_active_chain(BlockSlot(3)));
    assert_eq!(tables.locate_anchor(BlockSlot(2)), Anchor::Connection(BlockSlot(0)));
    assert_eq!(tables.locate_anchor(BlockSlot(3)), Anchor::Tail(BlockSlot(3)));
    assert_eq!(tables.locate_anchor(BlockSlot(1)), Anchor::Tail(BlockSlot(1)));
    Ok(())
}

/// Tables adopted with blocks of these parents; the block in slot i has sequence i.
fn with_parents(parents: &[u32]) -> Result<Tables, Refusal> {
    let fresh = Tables::new(parents.len(), 2)?.into_parts();
    let sequences = (0..).take(parents.len()).collect();
    Tables::from_parts(Parts { parents: parents.to_vec(), sequences, ..fresh })
}

fn hanging(blocks: usize, highest: u32) -> Result<Under, Refusal> {
    Ok(Under { blocks, highest: Sequence(highest) })
}

#[test]
fn what_hangs_under_a_block() -> Result<(), Refusal> {
    let tables = after_the_trial()?;
    assert_eq!(tables.under(BlockSlot(0)), hanging(2, 6));
    assert_eq!(tables.under(BlockSlot(2)), hanging(1, 6));
    assert_eq!(tables.under(BlockSlot(3)), hanging(1, 7));
    assert_eq!(tables.under(BlockSlot(1)), Err(Refusal::NoBlock));

    let line = with_parents(&[NONE_REF, 0, 1, 2, 3])?;
    assert_eq!(line.under(BlockSlot(0)), hanging(5, 4));
    assert_eq!(line.under(BlockSlot(3)), hanging(2, 4));
    Ok(())
}

/// It goes down n levels, and counts a block at each at which it is met.
#[test]
fn what_hangs_under_a_block_of_damaged_tables() -> Result<(), Refusal> {
    let ring = with_parents(&[1, 0, 0, 4, 3])?;
    assert_eq!(ring.under(BlockSlot(0)), hanging(1 + 2 + 1 + 2 + 1, 2), "0, 1 2, 0, 1 2, 0");
    assert_eq!(ring.under(BlockSlot(1)), hanging(1 + 1 + 2 + 1 + 2, 2), "1, 0, 1 2, 0, 1 2");
    assert_eq!(ring.under(BlockSlot(2)), hanging(1, 2));
    assert_eq!(ring.under(BlockSlot(3)), hanging(5, 4));

    // One that is its own parent, and that of all others: first, between and last among its children.
    let n = MOST_BLOCKS;
    let last = n as u32 - 1;
    for own in [0, 1, last] {
        let most = with_parents(&vec![own; n])?;
        assert_eq!(most.under(BlockSlot(own)), hanging(n * n - n + 1, last), "{own}");
        assert_eq!(most.under(BlockSlot(2)), hanging(1, 2), "{own}");
    }
    assert_eq!(with_parents(&[0])?.under(BlockSlot(0)), hanging(1, 0), "one level");
    Ok(())
}

#[test]
fn heads() -> Result<(), Refusal> {
    let tables = after_the_trial()?;
    let stored = Head {
        slot: HeadSlot(0),
        tip: BlockSlot(3),
        anchor: Some(BlockSlot(3)),
        connected: false,
        missing: hash(0x0e),
        requested: 0,
        arrival: 20,
    };
    let connected = Head {
        slot: HeadSlot(1),
        tip: BlockSlot(2),
        anchor: Some(BlockSlot(0)),
        connected: true,
        missing: hash(0),
        requested: 0,
        arrival: 3,
    };
    assert_eq!(tables.heads().collect::<Vec<Head>>(), [stored, connected]);
    assert_eq!(tables.head(HeadSlot(1)), Some(connected));
    assert_eq!(tables.head(HeadSlot(2)), None);
    assert_eq!(tables.head_count(), 2);
    assert!(tables.has_stored_head());
    assert_eq!(tables.head_of(BlockSlot(2)), Some(HeadSlot(1)));
    assert_eq!(tables.head_of(BlockSlot(0)), None);
    Ok(())
}

type Row = (u32, Option<u32>, HeadKind, Option<u32>);

/// The tip, its sequence, the kind and the anchor of a record.
fn fields(row: &HeadRow) -> Row {
    let anchor = row.anchor().map(|slot| slot.0);
    (row.tip().0, row.sequence().map(|sequence| sequence.0), row.kind(), anchor)
}

fn screen(tables: &Tables) -> Vec<Row> {
    tables.screen().map(|row| fields(&row)).collect()
}

#[test]
fn the_head_screen() -> Result<(), Refusal> {
    let mut tables = after_the_trial()?;
    let expected =
        [(3, Some(7), HeadKind::Stored, Some(3)), (2, Some(6), HeadKind::Connected, Some(0))];
    assert_eq!(screen(&tables), expected);

    let first = tables.screen().next().expect("a head");
    let shown = "HeadRow { tip: BlockSlot(3), sequence: Some(Sequence(7)), kind: Stored, \
                 anchor: Some(BlockSlot(3)) }";
    assert_eq!(format!("{first:?}"), shown);
    assert_eq!(fields(&HeadRow::default()), (NONE_REF, None, HeadKind::Stored, None));

    for row in tables.screen() {
        tables.remove(row.tip())?;
    }
    assert_eq!(screen(&tables), [(0, Some(5), HeadKind::Connected, Some(0))]);
    Ok(())
}

#[test]
fn records_past_the_last_head_stay() -> Result<(), Refusal> {
    let mut tables = after_the_trial()?;
    let before = tables.screen().last().expect("a head");
    tables.remove(before.tip())?;
    tables.remove(BlockSlot(3))?;
    let mut rows = [before; MOST_HEADS];
    assert_eq!(tables.fill_screen(&mut rows)?, 1);
    assert_eq!(fields(&rows[0]), (0, Some(5), HeadKind::Connected, Some(0)));
    assert_eq!(rows[1..], [before; MOST_HEADS - 1]);
    Ok(())
}

/// Tables adopted with blocks of these sequences and hashes, and heads of these tips; the head in slot
/// k has anchor k and the flag byte k.
fn with_tips(blocks: &[(u32, u8)], tips: &[u32]) -> Result<Tables, Refusal> {
    let fresh = Tables::new(blocks.len(), tips.len())?.into_parts();
    Tables::from_parts(Parts {
        hashes: blocks.iter().flat_map(|block| hash(block.1)).collect(),
        sequences: blocks.iter().map(|block| block.0).collect(),
        tips: tips.to_vec(),
        tails: (0..).take(tips.len()).collect(),
        connected: (0..).take(tips.len()).collect(),
        ..fresh
    })
}

#[test]
fn the_order_of_the_screen() -> Result<(), Refusal> {
    let blocks = [(5, 1), (9, 8), (9, 7), (NONE_REF, 9), (5, 0), (NONE_REF - 1, 1), (9, 8)];
    // The highest sequence, then the lowest hash, then the lowest slot, where tip or hash are shared.
    let order = |tips: &[u32]| {
        let tables = with_tips(&blocks, tips)?;
        Ok(tables.screen().filter_map(|row| row.anchor()).map(|slot| slot.0).collect::<Vec<_>>())
    };
    assert_eq!(order(&[0, 1, 5])?, [2, 1, 0]);
    assert_eq!(order(&[0, 1, 2, 4])?, [2, 1, 3, 0]);
    assert_eq!(order(&[6, 1, 2, 6, 1])?, [2, 0, 1, 3, 4]);
    assert_eq!(order(&[0, NONE_REF, 0, NONE_REF])?, [0, 2]);
    // A tip that is empty or out of range, whatever bytes its slot has.
    assert_eq!(order(&[5, 3, 0, 7, 3])?, [1, 3, 4, 0, 2]);
    Ok(())
}

#[test]
fn the_screen_of_damaged_tables() -> Result<(), Refusal> {
    let tables = with_tips(&[(5, 1), (NONE_REF, 9)], &[0, 1, 2, NONE_REF - 1])?;
    let mut parts = tables.into_parts();
    parts.tails[2] = NONE_REF;
    parts.connected = vec![254, 255, 2, 129];
    let expected = [
        (1, None, HeadKind::Connected, Some(1)),
        (2, None, HeadKind::Stored, None),
        (NONE_REF - 1, None, HeadKind::Connected, Some(3)),
        (0, Some(5), HeadKind::Stored, Some(0)),
    ];
    assert_eq!(screen(&Tables::from_parts(parts)?), expected);
    Ok(())
}

#[test]
fn timers() -> Result<(), Refusal> {
    let mut tables = after_the_trial()?;
    assert_eq!(tables.earliest_deadline(Some(5))?, Some(0));
    let asked = Request { head: HeadSlot(0), sequence: Sequence(6), hash: hash(0x0e) };
    assert_eq!(tables.timer(30, Some(5))?, Some(asked));
    assert_eq!(tables.earliest_deadline(Some(5))?, Some(35));
    assert_eq!(tables.earliest_deadline(Some(0))?, Some(30));
    assert_eq!(tables.earliest_deadline(Some(u64::MAX))?, Some(u64::MAX));
    assert_eq!(tables.earliest_deadline(None)?, Some(90));
    assert_eq!(tables.timer(34, Some(5))?, None);
    assert_eq!(tables.timer(89, None)?, None);
    assert_eq!(tables.timer(90, None)?, Some(asked));

    tables.remove(BlockSlot(3))?;
    assert_eq!(tables.earliest_deadline(None)?, None);
    assert_eq!(tables.timer(u64::MAX, None)?, None);
    Ok(())
}

#[test]
fn fresh_tables_are_empty() -> Result<(), Refusal> {
    let mut tables = after_the_trial()?;
    tables.fresh()?;
    assert_eq!(tables, Tables::new(4, 2)?);
    assert_eq!(tables.blocks().count() + tables.heads().count(), 0);
    assert_eq!(tables.active_head(), None);
    assert_eq!(tables.next_free(), Some(BlockSlot(0)));
    assert!(!tables.has_stored_head());
    Ok(())
}

#[test]
fn ranks() {
    let rank = |value, length, byte| Rank { value, length, hash: hash(byte) };
    assert!(rank(2, 0, 9).outranks(&rank(1, 9, 0)));
    assert!(rank(1, 9, 9).outranks(&rank(1, 8, 0)));
    assert!(rank(1, 9, 0).outranks(&rank(1, 9, 1)));
    assert!(!rank(1, 9, 1).outranks(&rank(1, 9, 0)));
    assert!(!rank(1, 9, 1).outranks(&rank(1, 9, 1)));
    let low_first = Rank { hash: std::array::from_fn(|i| i as u8), ..rank(1, 9, 0) };
    let low_last = Rank { hash: std::array::from_fn(|i| 31 - i as u8), ..rank(1, 9, 0) };
    assert!(low_first.outranks(&low_last));

    let mut ranks = vec![low_first, low_last];
    for (value, length) in [(0, 7), (7, 0), (7, 7), (7, 8)] {
        ranks.extend([0, 1, 255].map(|byte| rank(value, length, byte)));
    }
    for (a, b) in ranks.iter().flat_map(|a| ranks.iter().map(move |b| (a, b))) {
        assert_eq!(a.cmp(b) == Ordering::Greater, a.outranks(b), "{a:?} {b:?}");
        assert_eq!(a.cmp(b) == Ordering::Equal, a == b, "{a:?} {b:?}");
        assert_eq!(a.cmp(b), b.cmp(a).reverse(), "{a:?} {b:?}");
    }
}

#[test]
fn answers_in_a_set() -> Result<(), Refusal> {
    let mut tables = after_the_trial()?;
    let blocks: HashSet<Block> = tables.blocks().map(|(_, block)| block).collect();
    let heads: HashSet<Head> = tables.heads().collect();
    let under: HashSet<Under> =
        tables.blocks().filter_map(|(slot, _)| tables.under(slot).ok()).collect();
    let rows: HashSet<HeadRow> = tables.screen().collect();
    let asked: HashSet<Option<Request>> = [tables.timer(30, None)?, None].into();
    assert_eq!((blocks.len(), heads.len(), under.len()), (3, 2, 3));
    assert_eq!((rows.len(), asked.len()), (2, 2));
    Ok(())
}

#[test]
fn what_is_shown_fits_a_screen() -> Result<(), Refusal> {
    let tables = Tables::new(MOST_BLOCKS, MOST_HEADS)?;
    let shown = [format!("{tables:#?}"), format!("{:#?}", tables.parts())];
    assert!(shown.iter().all(|text| text.lines().count() < 10), "{shown:?}");

    let tables = after_the_trial()?;
    let expected = "Tables { block_slots: 4, blocks: 3, head_slots: 2, heads: 2, \
                    active_head: Some(BlockSlot(0)), .. }";
    assert_eq!(format!("{tables:?}"), expected);
    let block = tables.get(BlockSlot(0)).expect("a block");
    assert!(format!("{block:?}").starts_with(&format!("Block {{ hash: {},", "0a".repeat(32))));
    Ok(())
}
