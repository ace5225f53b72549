//! How many calls were compared, by kind and reply, and what they met on the way: a reader sees
//! that they are not trivial.

use crate::beneath::Beneath;
use crate::calls::{Answer, Call, Reply};
use crate::shown::Shown;
use crate::tables::{NONE_REF, Tables};
use std::fmt;

const KINDS: usize = Call::NAMES.len();

#[derive(Default)]
pub struct Tally {
    accepted: [u64; KINDS],
    refused: [[u64; 11]; KINDS],
    met: Met,
    beneath: Beneath,
    shown: Shown,
}

/// What accepted calls did.
#[derive(Default, PartialEq)]
struct Met {
    /// Admits that freed another block, those of them with 64 heads, admits that freed their own,
    /// and restarts that freed one.
    evicting: u64,
    evicting_largest: u64,
    own_freed: u64,
    restarts_evicting: u64,
    /// Blocks linked to a parent that came late, and admits that linked two or more.
    late_links: u64,
    forked_links: u64,
    /// Admits that took the last empty slot, and those of them of 1,024.
    filling: u64,
    filling_largest: u64,
    /// Removals of more than one block, and timer calls and deadlines that found a head.
    subtrees: u64,
    requests: u64,
    deadlines: u64,
}

impl Tally {
    pub fn note(&mut self, call: &Call, reply: &Reply, before: &Tables, after: &Tables) {
        self.count(call, reply);
        match (call, reply) {
            (Call::Under { slot }, Ok(Answer::Under(under))) => {
                self.beneath.note(before, *slot, under.blocks);
            }
            (Call::Screen { more }, reply) => self.shown.note(before, *more, reply),
            (_, Ok(answer)) => self.met.note(call, answer, before, after),
            _ => {}
        }
    }

    /// What was asked on tables that calls have reached, where no damage is met.
    pub fn note_asked(&mut self, asked: &[(Call, Reply)]) {
        asked.iter().for_each(|(call, reply)| self.count(call, reply));
    }

    fn count(&mut self, call: &Call, reply: &Reply) {
        match reply {
            Ok(_) => self.accepted[call.kind()] += 1,
            Err(number) => self.refused[call.kind()][usize::from(*number)] += 1,
        }
    }

    /// All calls.
    pub fn calls(&self) -> u64 {
        (0..KINDS).map(|kind| self.made(kind)).sum()
    }

    fn made(&self, kind: usize) -> u64 {
        self.accepted[kind] + self.refused[kind].iter().sum::<u64>()
    }
}

impl Met {
    fn note(&mut self, call: &Call, answer: &Answer, before: &Tables, after: &Tables) {
        let is_empty = |t: &Tables, slot: usize| t.sequences[slot] == NONE_REF;
        let frees = || (0..before.n()).any(|slot| !is_empty(before, slot) && is_empty(after, slot));
        match (call, answer) {
            (Call::Admit { .. }, &Answer::Slot(slot)) => {
                let is_late = |at: &usize| !is_empty(before, *at) && after.parents[*at] == slot;
                let linked = (0..before.n()).filter(is_late).count() as u64;
                let empty = (0..before.n()).filter(|&at| is_empty(before, at)).count();
                let evicts = frees();
                self.evicting += u64::from(evicts);
                self.evicting_largest += u64::from(evicts && before.m() == 64);
                self.own_freed += u64::from(is_empty(after, slot as usize));
                self.late_links += linked;
                self.forked_links += u64::from(linked > 1);
                self.filling += u64::from(empty == 1);
                self.filling_largest += u64::from(empty == 1 && before.n() == 1024);
            }
            (Call::Restart { .. }, _) => self.restarts_evicting += u64::from(frees()),
            (Call::Remove { .. }, Answer::Freed(freed)) => self.subtrees += u64::from(*freed > 1),
            (_, Answer::Asked(Some(_))) => self.requests += 1,
            (_, Answer::Due(Some(_))) => self.deadlines += 1,
            _ => {}
        }
    }
}

impl fmt::Display for Tally {
    fn fmt(&self, f: &mut fmt::Formatter) -> fmt::Result {
        let made = |(kind, _): &(usize, _)| self.made(*kind) > 0;
        for (kind, name) in Call::NAMES.iter().enumerate().filter(made) {
            write!(f, "  {name:<10}accepted {:>9}", self.accepted[kind])?;
            for (number, times) in self.refused[kind].iter().enumerate().filter(|(_, n)| **n > 0) {
                write!(f, "   refused by {number}: {times}")?;
            }
            writeln!(f)?;
        }
        if self.met != Met::default() {
            write!(f, "{}", self.met)?;
        }
        if self.beneath != Beneath::default() {
            write!(f, "{}", self.beneath)?;
        }
        if self.shown != Shown::default() {
            write!(f, "{}", self.shown)?;
        }
        Ok(())
    }
}

impl fmt::Display for Met {
    fn fmt(&self, f: &mut fmt::Formatter) -> fmt::Result {
        writeln!(
            f,
            "  admits that evicted {} (64 heads: {}), that lost their own block {}, that filled the \
             table {} (1024 slots: {})",
            self.evicting,
            self.evicting_largest,
            self.own_freed,
            self.filling,
            self.filling_largest,
        )?;
        writeln!(
            f,
            "  late links {}, two or more at once {}; restarts that evicted {}; removals of more \
             than one block {}; requests {}; deadlines {}",
            self.late_links,
            self.forked_links,
            self.restarts_evicting,
            self.subtrees,
            self.requests,
            self.deadlines,
        )
    }
}
