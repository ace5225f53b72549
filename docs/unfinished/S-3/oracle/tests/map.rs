//! The map of occupied slots: the model on maps whose answer is known and beside the original on true ones,
//! the port on full tables, the maps that the comparison must meet, and faults that it finds.

use oracle::args::Args;
use oracle::buffers::BUFFERS;
use oracle::calls::{Answer, Call, Reply};
use oracle::functions::compare;
use oracle::map::{self, first_free, next_free_index, total};
use oracle::mapped::Mapped;
use oracle::misfit::Misfit;
use oracle::random::Random;
use oracle::single::SINGLES;
use oracle::tables::{Block, Head, NONE_REF, Tables};
use oracle::{generate, judge, maps, rings, station, tips};
use std::collections::BTreeSet;

const ALL: u64 = u64::MAX;

/// Tables of n slots, of which these are occupied, with this map.
fn tables(n: usize, occupied: &[usize], map: &[u64]) -> Tables {
    let mut t = Tables { map: map.to_vec(), ..Tables::empty(n, 2) };
    for &slot in occupied {
        let mut hash = [1; 32];
        hash[..2].copy_from_slice(&(slot as u16).to_le_bytes());
        t.set_block(slot, Block { sequence: 5, hash, ..Block::EMPTY });
    }
    t
}

/// All slots occupied, and a true map.
fn full(n: usize) -> Tables {
    let mut t = tables(n, &Vec::from_iter(0..n), &[]);
    t.mend_map();
    t
}

fn admit(sequence: u32) -> Call {
    Call::Admit { sequence, hash: vec![2; 32], previous: vec![3; 32], arrival: 1 }
}

#[test]
fn the_true_map_has_the_fewest_words() {
    assert_eq!([1, 63, 64, 65, 127, 128, 129, 1024].map(map::words), [1, 1, 1, 2, 2, 2, 3, 16]);
    let mut t = tables(65, &[0, 2, 63, 64], &[]);
    t.mend_map();
    assert_eq!(t.map, [1 << 63 | 0b101, 1]);
    assert_eq!((full(64).map, full(65).map), (vec![ALL], vec![ALL, 1]));
}

#[test]
fn the_lowest_free_slot_goes_by_the_map() {
    let free = |n, occupied: &[usize], map: &[u64]| next_free_index(&tables(n, occupied, map));
    assert_eq!(free(4, &[], &[0]), Some(0));
    // slots 0 and 1 are empty, too
    assert_eq!(free(4, &[], &[0b0011]), Some(2));
    assert_eq!(free(70, &[], &[ALL, 0b1011]), Some(66));
}

#[test]
fn no_other_bit_is_tried() {
    // slot 0 is occupied, slot 1 is empty and its bit is free
    assert_eq!(next_free_index(&tables(4, &[0], &[0])), None);
    // bit 3 is past the last slot, slot 0 is empty
    assert_eq!(next_free_index(&tables(3, &[], &[0b0111])), None);
    // all bits are set, slot 63 is empty
    assert_eq!(next_free_index(&tables(64, &[0], &[ALL])), None);
}

#[test]
fn the_total_counts_all_ones() {
    assert_eq!(total(&[0, 0]), 0);
    assert_eq!(total(&[1 << 63 | 1, 0b110]), 4);
    let t = &mut tables(1, &[0], &[ALL]);
    assert_eq!(judge::run(&Call::Total, t), Ok(Answer::Total(64)));
    assert_eq!(judge::run(&Call::Total, &mut full(65)), Ok(Answer::Total(65)));
}

#[test]
fn a_full_table_of_true_map_on_both_sides() {
    for (n, free) in [(64, None), (65, Some(65)), (128, None), (1024, None)] {
        let t = full(n);
        assert_eq!(first_free(&t.map), free);
        for side in [judge::run, judge::by_map, station::run] {
            let mut after = t.clone();
            assert_eq!((side(&admit(6), &mut after), &after), (Err(7), &t), "n {n}");
        }
    }
}

#[test]
fn inserting_sets_a_bit_and_freeing_clears_it() {
    let mut t = tables(5, &[0, 1], &[0b11_0001]);
    assert_eq!(judge::run(&admit(6), &mut t), Err(7));
    assert_eq!(t.map, [0b11_0001]);
    t.map = vec![0b11_0011];
    assert_eq!(judge::run(&admit(6), &mut t), Ok(Answer::Slot(2)));
    assert_eq!(t.map, [0b11_0111]);
    // a free bit of an occupied slot stays free
    t.map = vec![0b11_0010];
    assert_eq!(judge::run(&Call::Remove { slot: 2 }, &mut t), Ok(Answer::Freed(1)));
    assert_eq!(judge::run(&Call::Remove { slot: 0 }, &mut t), Ok(Answer::Freed(1)));
    assert_eq!(t.map, [0b11_0010]);
    assert_eq!(judge::run(&Call::Restart { now: 1 }, &mut t), Ok(Answer::Done));
    assert_eq!(t.map, [0b11_0010]);
    assert_eq!(judge::run(&Call::Fresh, &mut t), Ok(Answer::Done));
    assert_eq!(t.map, [0]);
}

#[test]
fn an_eviction_that_frees_the_new_block() {
    let mut t = tables(3, &[0], &[0b1001]);
    t.set_head(0, Head { tip: 0, tail: 0, ..Head::EMPTY });
    t.set_head(1, Head { tip: 1, tail: 1, ..Head::EMPTY });
    let mut ported = t.clone();
    assert_eq!(judge::run(&admit(4), &mut t), Ok(Answer::Slot(1)));
    assert_eq!((t.sequences[1], t.map.as_slice()), (NONE_REF, &[0b1001][..]));
    assert_eq!((station::run(&admit(4), &mut ported), ported), (Ok(Answer::Slot(1)), t));
}

#[test]
fn a_map_of_another_length_is_refused() {
    let map = BUFFERS.iter().find(|buffer| buffer.name == "map").expect("a buffer");
    let mut random = Random::new(1);
    for n in [1, 64, 65] {
        for words in [-1, 1] {
            let mut t = full(n);
            let args = generate::args(&mut random, &t);
            Misfit::Buffer(map, words).apply(&mut t);
            for single in SINGLES {
                for side in [judge::run, station::run] {
                    let mut after = t.clone();
                    let reply = side(&(single.call)(&args), &mut after);
                    assert_eq!((reply, &after), (Err(1), &t), "{}", single.function.name);
                }
            }
        }
    }
}

#[test]
fn the_other_modes_have_true_maps() {
    let mut random = Random::new(1);
    for round in 0..2000 {
        assert!(map::is_true(&generate::tables(&mut random)));
        assert!(map::is_true(&rings::tables(&mut random, round)));
        assert!(map::is_true(&tips::tables(&mut random, round)));
    }
}

#[test]
fn on_a_true_map_the_model_is_the_original() {
    let mut random = Random::new(1);
    for _ in 0..2000 {
        let t = generate::tables(&mut random);
        for single in SINGLES {
            let call = (single.call)(&generate::args(&mut random, &t));
            let same = compare(&t, |t| judge::run(&call, t), |t| judge::by_map(&call, t));
            assert!(same.is_ok(), "{call} on {t:?}");
            let (_, after) = same.unwrap_or_else(|_| unreachable!());
            assert!(map::is_true(&after), "{call} on {t:?}");
        }
    }
}

#[test]
fn each_bit_of_each_size_is_wrong_once() {
    let mut random = Random::new(1);
    let mut wrong = BTreeSet::new();
    for round in 0..40_000 {
        let t = maps::tables(&mut random, round);
        let right = map::of(&t.sequences);
        let bits = map::bits(&t.map).zip(map::bits(&right)).enumerate();
        let off: Vec<usize> =
            bits.filter(|(_, (bit, right))| bit != right).map(|(at, _)| at).collect();
        if let [bit] = off[..] {
            wrong.insert((t.n(), bit));
        }
    }
    for n in maps::BLOCK_SLOTS.into_iter().chain([maps::LARGEST]) {
        for bit in 0..64 * map::words(n) {
            assert!(wrong.contains(&(n, bit)), "bit {bit} of {n} slots");
        }
    }
}

/// Calls of the comparison on tables whose map may be false.
fn made() -> Vec<(Tables, Call)> {
    let mut random = Random::new(1);
    let mut all = Vec::new();
    for round in (1..4000u64).filter(|round| !round.is_multiple_of(maps::LARGE)) {
        let t = maps::tables(&mut random, round);
        for single in SINGLES {
            let args = Args { misfit: None, ..maps::args(&mut random, &t) };
            all.push((t.clone(), (single.call)(&args)));
        }
    }
    all
}

#[test]
fn each_case_is_met() {
    let mut met = Mapped::default();
    for (t, call) in made() {
        let mut after = t.clone();
        met.note(&call, &judge::run(&call, &mut after), &t, &after);
    }
    for (call, case, times) in met.counts() {
        assert!(times > 0, "no {call} with {case}");
    }
}

/// What a fault is called, and how it runs a call.
type Fault = (&'static str, fn(&Call, &mut Tables) -> Reply);

/// The call, and then something else.
fn then(call: &Call, t: &mut Tables, also: impl FnOnce(&Reply, &Tables, &mut Tables)) -> Reply {
    let before = t.clone();
    let reply = judge::run(call, t);
    also(&reply, &before, t);
    reply
}

/// The slots that were occupied before and are not after.
fn freed(before: &Tables, after: &Tables) -> Vec<usize> {
    let is_empty = |t: &Tables, slot: usize| t.sequences[slot] == NONE_REF;
    (0..before.n()).filter(|&slot| !is_empty(before, slot) && is_empty(after, slot)).collect()
}

fn is_set(t: &Tables, slot: usize) -> bool {
    map::bits(&t.map).nth(slot) == Some(true)
}

const FAULTS: [Fault; 15] = [
    ("the lowest empty slot by the sequences", |call, t| {
        let before = t.clone();
        t.mend_map();
        let reply = judge::run(call, t);
        let slot = if let Ok(Answer::Slot(slot)) = reply { Some(slot) } else { None };
        t.map = map::left(&before, slot, t);
        reply
    }),
    ("refusal 7 before all others", |call, t| match call {
        Call::Admit { .. } if next_free_index(t).is_none() => Err(7),
        _ => judge::run(call, t),
    }),
    ("an occupied slot taken", |call, t| match (call, first_free(&t.map)) {
        (Call::Admit { .. }, Some(slot)) if slot < t.n() => {
            t.set_block(slot, Block::EMPTY);
            judge::run(call, t)
        }
        _ => judge::run(call, t),
    }),
    ("the total without the bits past the last slot", |call, t| match call {
        Call::Total => {
            Ok(Answer::Total(map::bits(&t.map).take(t.n()).filter(|bit| *bit).count() as u32))
        }
        _ => judge::run(call, t),
    }),
    ("the total by the sequences", |call, t| {
        if *call == Call::Total {
            t.mend_map();
        }
        judge::run(call, t)
    }),
    ("bits past the last slot kept by fresh", |call, t| {
        then(call, t, |_, before, after| {
            let past = (before.n()..64 * before.map.len()).filter(|&bit| is_set(before, bit));
            past.for_each(|bit| map::put(&mut after.map, bit, true));
        })
    }),
    ("a restart that mends", |call, t| {
        then(call, t, |_, _, after| {
            if let Call::Restart { .. } = call {
                after.mend_map();
            }
        })
    }),
    ("a refused call that mends", |call, t| {
        then(call, t, |reply, _, after| {
            if reply.is_err() {
                after.mend_map();
            }
        })
    }),
    ("a promotion that sets its bit", |call, t| {
        then(call, t, |reply, _, after| {
            if let (Call::Promote { slot }, Ok(_)) = (call, reply) {
                map::put(&mut after.map, *slot as usize, true);
            }
        })
    }),
    ("an admission that mends its word", |call, t| {
        then(call, t, |reply, _, after| {
            if let Ok(Answer::Slot(slot)) = reply {
                let word = *slot as usize / 64;
                after.map[word] = map::of(&after.sequences)[word];
            }
        })
    }),
    ("the bits of evicted blocks left set", |call, t| {
        then(call, t, |reply, before, after| {
            if let Ok(Answer::Slot(_)) = reply {
                let left = freed(before, after).into_iter().filter(|&slot| is_set(before, slot));
                left.for_each(|slot| map::put(&mut after.map, slot, true));
            }
        })
    }),
    ("those that a restart evicts left set", |call, t| {
        then(call, t, |_, before, after| {
            if let Call::Restart { .. } = call {
                after.map.clone_from(&before.map);
            }
        })
    }),
    ("those of removed blocks left set", |call, t| {
        then(call, t, |_, before, after| {
            if let Call::Remove { .. } = call {
                after.map.clone_from(&before.map);
            }
        })
    }),
    ("a freed bit turned over", |call, t| {
        then(call, t, |_, before, after| {
            let clear = freed(before, after).into_iter().filter(|&slot| !is_set(before, slot));
            clear.for_each(|slot| map::put(&mut after.map, slot, true));
        })
    }),
    ("the bit of a lost new block left set", |call, t| {
        then(call, t, |reply, _, after| {
            if let Ok(Answer::Slot(slot)) = reply {
                map::put(&mut after.map, *slot as usize, true);
            }
        })
    }),
];

#[test]
fn each_fault_is_found() {
    let made = made();
    for (name, fault) in FAULTS {
        let differs = |(t, call): &(Tables, Call)| {
            compare(t, |t| judge::run(call, t), |t| fault(call, t)).is_err()
        };
        assert!(made.iter().any(differs), "not found: {name}");
    }
}
