//! Random lists of calls from fresh tables: what is proved of them, looked at through the crate.

use station::{
    Anchor, BlockSlot, Head, HeadKind, MOST_BLOCKS, MOST_HEADS, Refusal, Sequence, Tables, Under,
};
use std::cmp::Reverse;
use std::collections::HashMap;

/// Numbers that look random, from Knuth's linear congruence.
struct Random(u64);

impl Random {
    fn below(&mut self, limit: u32) -> u32 {
        self.0 =
            self.0.wrapping_mul(6_364_136_223_846_793_005).wrapping_add(1_442_695_040_888_963_407);
        (self.0 >> 33) as u32 % limit
    }
}

#[test]
fn lists_of_calls() {
    let mut accepted = HashMap::new();
    for seed in 0..300 {
        let mut random = Random(seed);
        let mut tables = Tables::new(8 + random.below(8) as usize, 2 + random.below(4) as usize)
            .expect("fitting sizes");
        let mut promoted = HashMap::new();
        for now in 1..150 {
            let before = tables.clone();
            let (call, answer) = any_call(&mut tables, &mut random, now);
            match answer {
                Ok(()) => *accepted.entry(call).or_insert(0) += 1,
                Err(_) => assert_eq!(tables, before, "a refused {call}"),
            }
            if let Some(slot) = tables.active_head() {
                promoted.entry(slot).or_insert_with(|| tables.get(slot).expect("a block").hash);
            }
            check(&tables, &promoted);
        }
    }
    for call in ["admit", "promote", "remove", "timer", "restart"] {
        assert!(accepted.get(call).is_some_and(|&times| times > 100), "{call}: {accepted:?}");
    }
}

fn any_call(
    tables: &mut Tables,
    random: &mut Random,
    now: u64,
) -> (&'static str, Result<(), Refusal>) {
    let slot = BlockSlot(random.below(16));
    match random.below(20) {
        0 => ("promote", tables.promote(slot)),
        1 => ("remove", tables.remove(slot).map(drop)),
        2 => ("restart", tables.restart(now)),
        3 | 4 => ("timer", tables.timer(now, Some(u64::from(random.below(9)))).map(drop)),
        _ => {
            let sequence = random.below(6);
            // A block of each sequence has one of three hashes, which its children name.
            let byte = |sequence: u32, which: u32| [(16 * sequence + which + 1) as u8; 32];
            let own = byte(sequence, random.below(3));
            let previous = byte(sequence.saturating_sub(1), random.below(3));
            ("admit", tables.admit(Sequence(sequence), &own, &previous, now).map(drop))
        }
    }
}

fn check(tables: &Tables, promoted: &HashMap<BlockSlot, [u8; 32]>) {
    for (slot, block) in tables.blocks() {
        let children = tables.blocks().filter(|(_, other)| other.parent == Some(slot)).count();
        assert_eq!(block.active, promoted.contains_key(&slot));
        if !block.active {
            assert_eq!(usize::from(block.count), children.max(1), "the count of {slot}");
            assert_eq!(tables.head_of(slot).is_some(), children == 0, "the head of {slot}");
        }
        let listed = tables.subtree(slot);
        let sequences = listed.iter().filter_map(|&slot| tables.get(slot)).map(|b| b.sequence);
        let highest = sequences.max().expect("the block itself");
        let under = Under { blocks: listed.len(), highest };
        assert_eq!(tables.under(slot), Ok(under), "what hangs under {slot}");
    }
    for (slot, hash) in promoted {
        assert_eq!(tables.get(*slot).map(|block| block.hash), Some(*hash), "promoted: {slot}");
    }
    for head in tables.heads() {
        let anchor = head.anchor.expect("an anchor");
        let kept = if head.connected { Anchor::Connection(anchor) } else { Anchor::Tail(anchor) };
        assert_eq!(tables.locate_anchor(head.tip), kept, "the anchor of {}", head.slot);
        assert_eq!(tables.walks_to_active_chain(head.tip), head.connected);
    }
    assert_eq!(tables.heads().count(), tables.head_count());
    check_screen(tables);
    assert_eq!(Tables::from_bytes(&tables.to_bytes()).as_ref(), Ok(tables), "saved and loaded");
}

fn check_screen(tables: &Tables) {
    let mut heads: Vec<Head> = tables.heads().collect();
    heads.sort_by_key(|head| {
        let tip = tables.get(head.tip).expect("a block");
        (Reverse(tip.sequence), tip.hash, head.slot)
    });
    let rows = heads.iter().map(|head| {
        let kind = if head.connected { HeadKind::Connected } else { HeadKind::Stored };
        (head.tip, tables.get(head.tip).map(|tip| tip.sequence), kind, head.anchor)
    });
    let screen = tables.screen().map(|row| (row.tip(), row.sequence(), row.kind(), row.anchor()));
    assert!(screen.eq(rows), "the screen of {heads:?}");
}

/// A chain of 1,024 blocks that arrives from its tip on.
#[test]
fn the_largest_tables() -> Result<(), Refusal> {
    let hash = |sequence: u32| (sequence + 1).to_be_bytes().repeat(8);
    let mut tables = Tables::new(MOST_BLOCKS, MOST_HEADS)?;
    for sequence in (1..=MOST_BLOCKS as u32).rev() {
        tables.admit(Sequence(sequence), &hash(sequence), &hash(sequence - 1), 1)?;
    }
    assert_eq!(tables.admit(Sequence(0), &hash(0), &[0; 32], 1), Err(Refusal::Full));
    let (tip, root) = (BlockSlot(0), BlockSlot(MOST_BLOCKS as u32 - 1));
    let head = tables.heads().next().expect("a head");
    assert_eq!((head.tip, head.anchor, tables.head_count()), (tip, Some(root), 1));
    check(&tables, &HashMap::new());

    let mut again = tables.clone();
    again.restart(1)?;
    assert_eq!(again.blocks().collect::<Vec<_>>(), tables.blocks().collect::<Vec<_>>());
    assert_eq!(tables.subtree(root).len(), MOST_BLOCKS);
    assert_eq!(tables.remove(root)?, MOST_BLOCKS);
    assert_eq!(tables, Tables::new(MOST_BLOCKS, MOST_HEADS)?);
    Ok(())
}
