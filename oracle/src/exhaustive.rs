//! All lists up to a length over a small alphabet of calls. Level by level, every call is made on
//! all tables that the lists of a length have reached. Tables that have been met before are not
//! continued again: what a call does depends on its tables alone, and so does what the promises
//! expect of them, once they hold.

use crate::calls::{Answer, Call};
use crate::lists::{List, Reached};
use crate::tally::Tally;
use std::collections::HashSet;

pub struct Alphabet {
    pub n: usize,
    pub m: usize,
    pub longest: usize,
    /// The lines of the calls.
    pub calls: &'static [&'static str],
}

/// A small tree with two forks and a stray block, promotions, removals, requests at the very time,
/// restarts, and refusals for more than one reason.
const TREE: &[&str] = &[
    "A 0 06 00 8",
    "A 1 01 06 1",
    "A 2 02 01 2",
    "A 2 03 01 3",
    "A 3 04 02 4",
    "A 3 05 03 5",
    "A 3 07 01 6",
    "A 1 00 06 1",
    "A 4294967295 00 01 1",
    "A 4294967295 00 x0606 1",
    "P 0",
    "P 1",
    "P 2",
    "P 3",
    "D 0",
    "D 1",
    "D 2",
    "D 3",
    "T 5 3",
    "T 8 3",
    "T 65 -",
    "L -",
    "R 7",
];

/// Late parents in every order, of tails that several heads share, and hashes that stay wrong.
const LATE: &[&str] = &[
    "A 0 03 00 5",
    "A 1 01 03 1",
    "A 1 06 03 2",
    "A 2 02 01 3",
    "A 2 05 01 4",
    "A 3 04 02 6",
    "A 3 07 02 7",
    "P 0",
    "D 1",
    "T 9 -",
    "R 7",
];

pub const ALPHABETS: [Alphabet; 8] = [
    Alphabet { n: 1, m: 2, longest: 8, calls: TREE },
    Alphabet { n: 2, m: 2, longest: 8, calls: TREE },
    Alphabet { n: 3, m: 2, longest: 7, calls: TREE },
    Alphabet { n: 3, m: 3, longest: 7, calls: TREE },
    Alphabet { n: 4, m: 2, longest: 7, calls: TREE },
    Alphabet { n: 4, m: 3, longest: 6, calls: TREE },
    Alphabet { n: 5, m: 2, longest: 7, calls: LATE },
    Alphabet { n: 5, m: 3, longest: 7, calls: LATE },
];

/// What a walk has covered.
pub struct Covered {
    pub lists: u128,
    pub tables: usize,
}

impl Alphabet {
    /// The error is a list with a trouble.
    pub fn walk(&self, tally: &mut Tally) -> Result<Covered, List> {
        let calls: Vec<Call> =
            self.calls.iter().map(|line| Call::read(line).expect("a call's line")).collect();
        let list = |places: &[u8]| {
            let calls = places.iter().map(|&at| calls[usize::from(at)].clone()).collect();
            List { n: self.n, m: self.m, calls }
        };
        let fresh = Reached::fresh(self.n, self.m).map_err(|_| list(&[]))?;
        tally.note(&Call::Fresh, &Ok(Answer::Done), &fresh.tables, &fresh.tables);
        tally.note_asked(&fresh.ask().map_err(|_| list(&[]))?);
        let mut met = HashSet::from([fresh.tables.clone()]);
        let mut level = vec![(Vec::new(), fresh)];
        for length in 1..=self.longest {
            let mut next = Vec::new();
            for (places, reached) in &level {
                for (at, call) in calls.iter().enumerate() {
                    let places = [places.as_slice(), &[at as u8]].concat();
                    let (reply, after) = reached.after(call).map_err(|_| list(&places))?;
                    tally.note(call, &reply, &reached.tables, &after.tables);
                    if met.contains(&after.tables) {
                        continue;
                    }
                    let asked = after.ask().map_err(|_| list(&places))?;
                    tally.note_asked(&asked);
                    if length < self.longest {
                        met.insert(after.tables.clone());
                        next.push((places, after));
                    }
                }
            }
            level = next;
        }
        let lists = (1..=self.longest as u32).map(|length| (calls.len() as u128).pow(length)).sum();
        Ok(Covered { lists, tables: met.len() })
    }
}
