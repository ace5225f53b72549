//! Looks for the shortest lists of calls after which the original's heads are not as one would expect:
//! admit's added step moves one, or a missing hash is not the previous hash of the head's tail. All
//! lists from fresh tables are made, shorter ones first and each length on fewer slots first:
//! `cargo run --release --example search`.
//!
//! The timer is left out, since no other call reads the time of a request. Arrival times are 0, and
//! hashes are numbered as a list first names them; of blocks of one sequence the one named first so
//! has the lower hash.

use oracle::calls::Call;
use oracle::judge;
use oracle::lists::List;
use oracle::original::refresh_tails;
use oracle::tables::{NONE_REF, Tables};
use std::ops::{Range, RangeInclusive};
use std::thread;

const LONGEST: usize = 5;
const BLOCK_SLOTS: RangeInclusive<usize> = 1..=5;
const HEAD_SLOTS: RangeInclusive<usize> = 2..=3;
const SEQUENCES: Range<u32> = 0..4;
/// Each the hash of one block at most; 0 is the hash of none.
const HASHES: u8 = 5;

/// What a list shows.
#[derive(Clone, Copy)]
enum Point {
    AddedStep,
    Evicted,
    LowerSlot,
    MergedAway,
    OwnHashFirst,
    Connected,
    Restarted,
    Other,
}

const TITLES: [&str; 8] = [
    "admit's added step moves a head",
    "zeros: a fork evicts the only sibling",
    "zeros: the new head falls in a lower slot than the sibling's",
    "the arrived hash: the merged-away head alone knew the deeper tail",
    "the arrived hash: the head finds itself before the one that knows the deeper tail",
    "zeros: the heads above the tail are connected and know no hash",
    "zeros: a restart knows no hash",
    "a wrong hash for another reason",
];

/// A list for each point.
type Found = [Option<List>; TITLES.len()];

/// What a list has reached.
#[derive(Clone)]
struct State {
    tables: Tables,
    /// The previous hash of the block in each slot.
    previous: Vec<u8>,
    /// How many hashes the calls have named, and whether each is a block's.
    named: u8,
    taken: [bool; HASHES as usize + 1],
    /// Whether the last call's added step changed anything.
    refreshed: bool,
}

impl State {
    fn fresh(n: usize, m: usize) -> State {
        State {
            tables: Tables::empty(n, m),
            previous: vec![0; n],
            named: 0,
            taken: [false; HASHES as usize + 1],
            refreshed: false,
        }
    }

    fn occupied(&self) -> impl Iterator<Item = u32> {
        (0..).zip(&self.tables.sequences).filter(|(_, s)| **s != NONE_REF).map(|(slot, _)| slot)
    }

    /// The calls that may come next.
    fn calls(&self) -> Vec<Call> {
        let mut calls = vec![Call::Restart { now: 0 }];
        calls.extend(self.occupied().map(|slot| Call::Promote { slot }));
        calls.extend(self.occupied().map(|slot| Call::Remove { slot }));
        if !self.tables.sequences.contains(&NONE_REF) {
            return calls;
        }
        let next = |named: u8| HASHES.min(named + 1);
        for hash in (1..=next(self.named)).filter(|hash| !self.taken[usize::from(*hash)]) {
            for previous in 0..=next(self.named.max(hash)) {
                calls.extend(SEQUENCES.map(|sequence| Call::Admit {
                    sequence,
                    hash: vec![hash; 32],
                    previous: vec![previous; 32],
                    arrival: 0,
                }));
            }
        }
        calls
    }

    /// What the call leaves, if it is accepted.
    fn after(&self, call: &Call) -> Option<State> {
        let mut next = State { refreshed: false, ..self.clone() };
        match call {
            Call::Admit { sequence, hash, previous, arrival } => {
                let t = &mut next.tables;
                let slot = judge::admit(t, *sequence, hash, previous, *arrival).ok()?;
                let unrefreshed = t.clone();
                refresh_tails(t);
                next.refreshed = *t != unrefreshed;
                next.previous[slot as usize] = previous[0];
                next.named = next.named.max(hash[0]).max(previous[0]);
                next.taken[usize::from(hash[0])] = true;
            }
            _ => {
                judge::run(call, &mut next.tables).ok()?;
            }
        }
        Some(next)
    }

    fn is_stored(&self, head: usize) -> bool {
        self.tables.tips[head] != NONE_REF && self.tables.connected[head] == 0
    }

    /// The stored heads with this tail.
    fn waiting(&self, tail: u32) -> impl Iterator<Item = usize> {
        (0..self.tables.m()).filter(move |&at| self.is_stored(at) && self.tables.tails[at] == tail)
    }

    /// The stored heads whose missing hash is not the previous hash of the tail.
    fn stale(&self) -> impl Iterator<Item = usize> {
        (0..self.tables.m()).filter(|&at| {
            let head = self.tables.head(at);
            self.is_stored(at) && head.missing != [self.previous[head.tail as usize]; 32]
        })
    }

    /// The point that the call shows, which led here from a state in which all missing hashes were
    /// right. A sibling has the head's tail and had it before.
    fn why_stale(&self, head: usize, call: &Call, before: &State) -> Point {
        let tail = self.tables.tails[head];
        let zeros = self.tables.head(head).missing == [0; 32];
        let known = before.waiting(tail).next().is_some();
        let sibling = before.waiting(tail).any(|other| {
            let stays = self.tables.tips[other] == before.tables.tips[other];
            other != head && stays && self.waiting(tail).any(|at| at == other)
        });
        match (call, zeros) {
            (Call::Admit { .. }, true) if sibling => Point::LowerSlot,
            (Call::Admit { .. }, true) if known => Point::Evicted,
            (Call::Admit { .. }, true) => Point::Connected,
            (Call::Restart { .. }, true) => Point::Restarted,
            (Call::Admit { .. }, false) if sibling => Point::OwnHashFirst,
            (Call::Admit { .. }, false) => Point::MergedAway,
            _ => Point::Other,
        }
    }
}

/// The lists of one length on so many slots, and the first for each point.
struct Search {
    length: usize,
    list: List,
    found: Found,
}

impl Search {
    fn new(n: usize, m: usize, length: usize) -> Search {
        let list = List { n, m, calls: Vec::new() };
        Search { length, list, found: Default::default() }
    }

    fn run(mut self) -> Found {
        self.extend(&State::fresh(self.list.n, self.list.m));
        self.found
    }

    fn extend(&mut self, before: &State) {
        for call in before.calls() {
            let Some(state) = before.after(&call) else { continue };
            self.list.calls.push(call);
            if self.list.calls.len() < self.length {
                self.extend(&state);
            } else {
                self.look(before, &state);
            }
            self.list.calls.pop();
        }
    }

    fn look(&mut self, before: &State, state: &State) {
        if state.refreshed {
            self.note(Point::AddedStep);
        }
        // of heads with one tail the lowest went wrong first
        if let (None, Some(head)) = (before.stale().next(), state.stale().next()) {
            let call = self.list.calls.last().expect("a list has a call");
            self.note(state.why_stale(head, call, before));
        }
    }

    fn note(&mut self, point: Point) {
        self.found[point as usize].get_or_insert_with(|| self.list.clone());
    }
}

fn main() {
    let mut shortest: Found = Default::default();
    for length in 1..=LONGEST {
        let sizes = BLOCK_SLOTS.flat_map(|n| HEAD_SLOTS.map(move |m| (n, m)));
        thread::scope(|scope| {
            let searches: Vec<_> =
                sizes.map(|(n, m)| scope.spawn(move || Search::new(n, m, length).run())).collect();
            for search in searches {
                let found = search.join().expect("a search ends");
                for (short, found) in shortest.iter_mut().zip(found) {
                    *short = short.take().or(found);
                }
            }
        });
    }
    for (title, list) in TITLES.iter().zip(shortest) {
        println!("{title}");
        match list {
            Some(List { n, m, calls }) => {
                println!("N {n} {m}");
                calls.iter().for_each(|call| println!("{call}"));
            }
            None => println!("not met"),
        }
        println!();
    }
}
