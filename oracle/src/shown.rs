//! What the head screens that were asked for have met: a reader sees that each case came which changes
//! their order, their records or their refusal.

use crate::calls::{Refusal, Reply, room};
use crate::generate::TOP;
use crate::judge::is_shaped;
use crate::screen::{Key, keys};
use crate::tables::{NONE_REF, Tables};
use std::cmp::Reverse;
use std::fmt;

#[derive(Default, PartialEq)]
pub struct Shown {
    met: [u64; CASES.len()],
}

/// The refusal that a case is of, if any, what is said of it, and whether a screen is one.
type Case = (Option<Refusal>, &'static str, fn(&Asked) -> bool);

const CASES: [Case; 19] = [
    (None, "no head", |a| a.keys.is_empty()),
    (None, "all heads in use", |a| a.keys.len() == a.t.m()),
    (None, "64 heads", |a| a.keys.len() == 64),
    (None, "a shared tip", |a| a.has_next(|one, next| a.tip(one) == a.tip(next))),
    (None, "an empty tip", |a| a.has(|key| a.is_empty(key))),
    (None, "a hash in its slot", |a| a.has(|key| a.is_empty(key) && a.slot_has_hash(key))),
    (None, "a tip out of range", |a| a.has(|key| a.tip(key) >= a.t.n())),
    (None, "two tips without a block", |a| a.without_block().count() > 1),
    (None, "the highest sequence behind one", |a| {
        a.has_next(|one, next| one.0 == NO_BLOCK && next.0 == Reverse(TOP))
    }),
    (None, "one sequence with two hashes", |a| {
        a.has_next(|one, next| one.0 == next.0 && one.1 != next.1)
    }),
    (None, "two that differ in the last byte", |a| {
        a.has_next(|one, next| one.0 == next.0 && one.1[..31] == next.1[..31] && one.1 != next.1)
    }),
    (None, "one hash in two slots", |a| {
        a.has_next(|one, next| {
            one.0 != NO_BLOCK && (one.0, one.1) == (next.0, next.1) && a.tip(one) != a.tip(next)
        })
    }),
    (None, "a block of zero hash", |a| a.has(|key| key.0 != NO_BLOCK && key.1 == [0; 32])),
    (None, "a stored flag with other bits", |a| {
        a.has(|key| a.flag(key) > 1 && a.flag(key) % 2 == 0)
    }),
    (None, "a connected one", |a| a.has(|key| a.flag(key) > 1 && a.flag(key) % 2 == 1)),
    (None, "no anchor", |a| a.has(|key| a.t.tails[key.2] == NONE_REF)),
    (None, "a longer list", |a| a.room > a.t.m()),
    (Some(10), "room for the heads in use", |a| a.room >= a.keys.len()),
    (Some(1), "a short list", |a| a.room < a.t.m()),
];

const NO_BLOCK: Reverse<u32> = Reverse(NONE_REF);

impl Shown {
    /// Notes a screen that was asked for with so many records more than head slots, or fewer.
    pub fn note(&mut self, t: &Tables, more: i8, reply: &Reply) {
        let keys = if is_shaped(t) { keys(t) } else { Vec::new() };
        let asked = Asked { t, room: room(t, more), keys };
        let refusal = reply.as_ref().err().copied();
        for ((of, _, is_one), times) in CASES.iter().zip(&mut self.met) {
            *times += u64::from(*of == refusal && is_one(&asked));
        }
    }

    /// How often each case was met, and the refusal that it is of.
    pub fn counts(&self) -> impl Iterator<Item = (Option<Refusal>, &'static str, u64)> {
        CASES.iter().zip(self.met).map(|((of, name, _), times)| (*of, *name, times))
    }
}

/// A screen that was asked for.
struct Asked<'a> {
    t: &'a Tables,
    room: usize,
    /// Of the heads in use, in their order.
    keys: Vec<Key>,
}

impl Asked<'_> {
    fn has(&self, is_so: impl Fn(&Key) -> bool) -> bool {
        self.keys.iter().any(is_so)
    }

    /// Whether it is so of a head and the next one.
    fn has_next(&self, is_so: impl Fn(&Key, &Key) -> bool) -> bool {
        self.keys.windows(2).any(|two| is_so(&two[0], &two[1]))
    }

    fn without_block(&self) -> impl Iterator<Item = &Key> {
        self.keys.iter().filter(|key| key.0 == NO_BLOCK)
    }

    fn is_empty(&self, key: &Key) -> bool {
        self.t.sequences.get(self.tip(key)) == Some(&NONE_REF)
    }

    fn slot_has_hash(&self, key: &Key) -> bool {
        self.t.block(self.tip(key)).hash != [0; 32]
    }

    fn tip(&self, key: &Key) -> usize {
        self.t.tips[key.2] as usize
    }

    fn flag(&self, key: &Key) -> u8 {
        self.t.connected[key.2]
    }
}

impl fmt::Display for Shown {
    fn fmt(&self, f: &mut fmt::Formatter) -> fmt::Result {
        let of = |which: Option<Refusal>| {
            let counts = self.counts().filter(move |(of, ..)| *of == which);
            counts.map(|(_, name, times)| format!("{name} {times}")).collect::<Vec<String>>()
        };
        let accepted = of(None);
        let lines: Vec<String> = accepted.chunks(5).map(|some| some.join(", ")).collect();
        writeln!(f, "  screens with {}", lines.join(",\n    "))?;
        writeln!(f, "    refused by 10 with {}, by 1 with {}", of(Some(10))[0], of(Some(1))[0])
    }
}
