//! What the calls on false maps have met: a reader sees that each case came in which the map decides, or
//! in which its bits are not those of the blocks.

use crate::calls::{Answer, Call, Reply};
use crate::judge::is_shaped;
use crate::map;
use crate::tables::{NONE_REF, Tables};
use std::fmt;

#[derive(Default, PartialEq)]
pub struct Mapped {
    met: [u64; CASES.len()],
}

/// The call that a case is of, what is said of it, and whether a call is one.
type Case = (&'static str, &'static str, fn(&Made) -> bool);

const CASES: [Case; 16] = [
    ("admit", "no free bit", |m| m.finds_none() && m.free.is_none()),
    ("admit", "a free bit past the last slot", |m| m.finds_none() && m.free >= Some(m.before.n())),
    ("admit", "that of an occupied slot", |m| m.finds_none() && m.free < Some(m.before.n())),
    ("admit", "no slot found though one is empty", |m| m.finds_none() && m.empty().count() > 0),
    ("admit", "a lower empty slot passed over", |m| m.empty().any(|slot| Some(slot) < m.slot())),
    ("admit", "its own block lost", |m| m.slot().is_some_and(|slot| is_empty(m.after, slot))),
    ("admit", "an evicted slot of clear bit", |m| m.frees(false)),
    ("admit", "of set bit", |m| m.frees(true)),
    ("remove", "a freed slot of clear bit", |m| m.frees(false)),
    ("remove", "of set bit", |m| m.frees(true)),
    ("restart", "an evicted slot of clear bit", |m| m.frees(false)),
    ("restart", "of set bit", |m| m.frees(true)),
    ("fresh", "bits past the last slot", |m| m.past_the_last()),
    ("total", "bits past the last slot", |m| m.past_the_last()),
    ("total", "more than there are blocks", |m| m.total() > m.blocks()),
    ("total", "fewer", |m| m.total() < m.blocks()),
];

impl Mapped {
    /// Notes a call, if its map is false.
    pub fn note(&mut self, call: &Call, reply: &Reply, before: &Tables, after: &Tables) {
        if !is_shaped(before) || map::is_true(before) {
            return;
        }
        let made = Made { reply, before, after, free: map::first_free(&before.map) };
        for ((of, _, is_one), times) in CASES.iter().zip(&mut self.met) {
            *times += u64::from(*of == Call::NAMES[call.kind()] && is_one(&made));
        }
    }

    /// How often each case was met, and the call that it is of.
    pub fn counts(&self) -> impl Iterator<Item = (&'static str, &'static str, u64)> {
        CASES.iter().zip(self.met).map(|((of, name, _), times)| (*of, *name, times))
    }
}

/// A call on a false map.
struct Made<'a> {
    reply: &'a Reply,
    before: &'a Tables,
    after: &'a Tables,
    /// The first free bit.
    free: Option<usize>,
}

impl Made<'_> {
    fn finds_none(&self) -> bool {
        *self.reply == Err(7)
    }

    /// The slot that an admit took.
    fn slot(&self) -> Option<usize> {
        match self.reply {
            Ok(Answer::Slot(slot)) => Some(*slot as usize),
            _ => None,
        }
    }

    fn empty(&self) -> impl Iterator<Item = usize> {
        (0..self.before.n()).filter(|&slot| is_empty(self.before, slot))
    }

    /// Whether it frees an occupied slot whose bit is so.
    fn frees(&self, bit: bool) -> bool {
        let mut slots = (0..self.before.n()).zip(map::bits(&self.before.map));
        slots.any(|(slot, is_set)| {
            is_set == bit && !is_empty(self.before, slot) && is_empty(self.after, slot)
        })
    }

    fn past_the_last(&self) -> bool {
        map::bits(&self.before.map).skip(self.before.n()).any(|bit| bit)
    }

    fn total(&self) -> usize {
        map::total(&self.before.map) as usize
    }

    fn blocks(&self) -> usize {
        self.before.n() - self.empty().count()
    }
}

fn is_empty(t: &Tables, slot: usize) -> bool {
    t.sequences[slot] == NONE_REF
}

impl fmt::Display for Mapped {
    fn fmt(&self, f: &mut fmt::Formatter) -> fmt::Result {
        writeln!(f, "  with a false map:")?;
        for call in Call::NAMES {
            let counts = self.counts().filter(|(of, ..)| *of == call);
            let said: Vec<String> = counts.map(|(_, name, n)| format!("{name} {n}")).collect();
            if !said.is_empty() {
                writeln!(f, "    {call}: {}", said.join(", "))?;
            }
        }
        Ok(())
    }
}
