//! What hangs under a block: the model on tables whose answer is known, the model beside the
//! original's lists on tables that calls have reached, the damage that the comparison must meet, and
//! faults that it finds.

use oracle::beneath::Beneath;
use oracle::calls::Call;
use oracle::functions::compare;
use oracle::judge;
use oracle::misfit::Misfit;
use oracle::original::mark_subtree;
use oracle::random::Random;
use oracle::rings;
use oracle::scripts::{self, Script};
use oracle::tables::{NONE_REF, Tables};
use oracle::under::{Under, under};
use std::collections::BTreeSet;

/// Sizes for which the original is compiled.
const BLOCK_SLOTS: [usize; 8] = [1, 2, 3, 4, 5, 6, 8, 12];

/// Tables with these parents, the sequence of each slot ten more than its number.
fn hung(parents: &[u32]) -> Tables {
    let n = parents.len();
    let sequences = (10..10 + n as u32).collect();
    Tables { parents: parents.to_vec(), sequences, ..Tables::empty(n, 2) }
}

fn answers(t: &Tables) -> Vec<(u32, u32)> {
    let answer = |slot| under(t, slot).map(|under| (under.blocks, under.highest));
    (0..t.n() as u32).map(|slot| answer(slot).unwrap_or((0, 0))).collect()
}

#[test]
fn a_tree() {
    let t = hung(&[NONE_REF, 0, 1, 1, 0, 9]);
    assert_eq!(answers(&t), [(5, 14), (3, 13), (1, 12), (1, 13), (1, 14), (1, 15)]);
}

#[test]
fn as_deep_as_there_are_slots() {
    assert_eq!(answers(&hung(&[1, 2, 3, NONE_REF])), [(1, 10), (2, 11), (3, 12), (4, 13)]);
}

#[test]
fn a_block_counts_at_every_level() {
    assert_eq!(answers(&hung(&[0])), [(1, 10)]);
    assert_eq!(answers(&hung(&[0, NONE_REF, NONE_REF])), [(3, 10), (1, 11), (1, 12)]);
    assert_eq!(answers(&hung(&[1, 0, NONE_REF])), [(3, 11), (3, 11), (1, 12)]);
    assert_eq!(answers(&hung(&[2, 0, 1])), [(3, 12); 3]);
    // level by level: 0, 1, 0 2, 1
    assert_eq!(answers(&hung(&[1, 0, 1, NONE_REF]))[0], (5, 12));
}

#[test]
fn an_empty_slot_is_no_child_and_leads_to_none() {
    let mut t = hung(&[NONE_REF, 0, 1, 0]);
    t.sequences[1] = NONE_REF;
    assert_eq!(answers(&t), [(2, 13), (0, 0), (1, 12), (1, 13)]);
    t.parents[0] = 1;
    assert_eq!(answers(&t), [(2, 13), (0, 0), (1, 12), (1, 13)]);
}

/// Slot 0 is its own parent and that of all others.
fn star(n: usize) -> Tables {
    hung(&vec![0; n])
}

#[test]
fn the_most_that_can_hang_under_a_block() {
    for n in [2, 3, 12, 1024] {
        let most = (n * n - n + 1) as u32;
        assert_eq!(under(&star(n), 0), Some(Under { blocks: most, highest: 9 + n as u32 }));
    }
    assert_eq!(under(&star(1024), 0).map(|under| under.blocks), Some(1_047_553));
}

#[test]
fn the_refusals_in_their_order() {
    let mut t = hung(&[NONE_REF, 0]);
    t.sequences[1] = NONE_REF;
    let ask = |t: &mut Tables, slot| judge::run(&Call::Under { slot }, t);
    for slot in [1, 2, 256, NONE_REF] {
        assert_eq!(ask(&mut t, slot), Err(3), "slot {slot}");
    }
    Misfit::Heads(1).apply(&mut t);
    assert_eq!(ask(&mut t, 0), Err(1));
    assert_eq!(ask(&mut t, 1), Err(1));
}

#[test]
fn on_reached_tables_the_original_lists_as_many() {
    let mut random = Random::new(1);
    for _ in 0..400 {
        let (n, m, calls) = scripts::sizes(&mut random);
        if n > 64 {
            continue;
        }
        let mut t = Tables::empty(n, m);
        let mut script = Script::new(&mut random, n);
        for _ in 0..calls {
            let call = script.next(&mut random, &t);
            _ = judge::run(&call, &mut t);
        }
        for slot in 0..=n as u32 {
            let model = judge::run(&Call::Under { slot }, &mut t);
            assert_eq!(model, judge::listed(&t, slot), "slot {slot} of {t:?}");
        }
    }
}

#[test]
fn each_damage_is_met() {
    let mut random = Random::new(1);
    let mut beneath = Beneath::default();
    for round in 0..400 {
        let t = rings::tables(&mut random, round);
        for slot in rings::slots(&mut random, &t) {
            if let Some(under) = under(&t, slot) {
                beneath.note(&t, slot, under.blocks);
            }
        }
    }
    for (damage, times) in beneath.counts() {
        assert!(times > 0, "no blocks {damage}");
    }
}

#[test]
fn tables_of_every_size_come() {
    let mut random = Random::new(1);
    let mut sizes = BTreeSet::new();
    let mut heads = BTreeSet::new();
    for round in (0..8 * 1024).step_by(8) {
        let t = rings::tables(&mut random, round);
        sizes.insert(t.n());
        heads.insert(t.m());
    }
    assert!(sizes.into_iter().eq(1..=1024) && heads.into_iter().eq(2..=64));
}

/// Blocks of the comparison's small tables, of sizes for which the original is compiled.
fn small_blocks() -> Vec<(Tables, u32)> {
    let mut random = Random::new(1);
    let mut blocks = Vec::new();
    for round in 0..400 {
        let t = rings::tables(&mut random, round);
        let slots = rings::slots(&mut random, &t);
        if BLOCK_SLOTS.contains(&t.n()) {
            let occupied = slots.into_iter().filter(|&slot| under(&t, slot).is_some());
            blocks.extend(occupied.map(|slot| (t.clone(), slot)));
        }
    }
    blocks
}

/// The answer in another way: down from the block, with so many levels left.
fn down(t: &Tables, slot: u32, levels: usize) -> Under {
    let mut all = Under { blocks: 1, highest: t.sequences[slot as usize] };
    let children = (0..t.n()).filter(|&at| t.parents[at] == slot && t.sequences[at] != NONE_REF);
    for child in children.filter(|_| levels > 1) {
        let below = down(t, child as u32, levels - 1);
        all.blocks += below.blocks;
        all.highest = all.highest.max(below.highest);
    }
    all
}

#[test]
fn the_model_goes_down_all_ways() {
    for (t, slot) in small_blocks() {
        assert_eq!(under(&t, slot), Some(down(&t, slot, t.n())), "slot {slot} of {t:?}");
    }
}

/// What a fault is called, and what it makes of an answer.
type Fault = (&'static str, fn(&Tables, u32, Under) -> Under);

const FAULTS: [Fault; 5] = [
    ("the number that the original lists", |t, slot, under| Under {
        blocks: mark_subtree(t, slot).0 as u32,
        ..under
    }),
    ("the block itself left out", |_, _, under| Under { blocks: under.blocks - 1, ..under }),
    ("n - 1 levels", |t, slot, _| down(t, slot, (t.n() - 1).max(1))),
    ("the highest of the slot alone", |t, slot, under| Under {
        highest: t.sequences[slot as usize],
        ..under
    }),
    ("an empty slot taken for a child", |t, slot, under| {
        let named = (0..t.n()).filter(|&at| t.parents[at] == slot && t.sequences[at] == NONE_REF);
        Under { blocks: under.blocks + named.count() as u32, ..under }
    }),
];

#[test]
fn each_fault_is_found() {
    let blocks = small_blocks();
    for (name, fault) in FAULTS {
        let found = blocks.iter().any(|(t, slot)| {
            let model = |t: &mut Tables| under(t, *slot);
            compare(t, model, |t| model(t).map(|under| fault(t, *slot, under))).is_err()
        });
        assert!(found, "not found: {name}");
    }
}
