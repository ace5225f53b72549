//! Lists of calls from fresh tables: each call runs on both sides on the same tables, the answers,
//! every byte of the tables and the record must agree, and then the promises must hold, and the port
//! must say of the slots what the original lists under them, and show the heads as the model does.

use crate::calls::{Call, Reply};
use crate::functions::{Difference, compare};
use crate::promises::Ledger;
use crate::tables::Tables;
use crate::{judge, station};

/// A list of calls, and the number of block and head slots.
#[derive(Debug, Clone, PartialEq, Eq)]
pub struct List {
    pub n: usize,
    pub m: usize,
    pub calls: Vec<Call>,
}

/// What is wrong after a call.
pub enum Trouble {
    Differs(Box<Difference>),
    /// The sides agree on the tables that they leave, and these break a promise.
    Broken {
        before: Box<Tables>,
        after: Box<Tables>,
        why: String,
    },
    /// The port gives another answer to a question that is asked on the tables.
    Asked {
        question: Call,
        found: Box<Difference>,
    },
}

/// Tables that a list has reached on both sides alike.
pub struct Reached {
    pub tables: Tables,
    ledger: Ledger,
    /// How many calls the list has.
    length: usize,
}

impl Reached {
    /// What an accepted fresh leaves.
    pub fn fresh(n: usize, m: usize) -> Result<Reached, Trouble> {
        let before = Tables::used(n, m);
        let ledger = Ledger::new(n);
        let (_, tables) = both(&Call::Fresh, &before).map_err(Trouble::Differs)?;
        match ledger.holds(&tables) {
            Err(why) => Err(Trouble::broken(before, tables, why)),
            Ok(()) => Ok(Reached { tables, ledger, length: 0 }),
        }
    }

    /// The reply to the next call of the list, and what it reaches.
    pub fn after(&self, call: &Call) -> Result<(Reply, Reached), Trouble> {
        let (reply, tables) = both(call, &self.tables).map_err(Trouble::Differs)?;
        let mut ledger = self.ledger.clone();
        match ledger.check(call, &reply, &self.tables, &tables) {
            Err(why) => Err(Trouble::broken(self.tables.clone(), tables, why)),
            Ok(()) => Ok((reply, Reached { tables, ledger, length: self.length + 1 })),
        }
    }

    /// The questions, and what the port replies to each.
    pub fn ask(&self) -> Result<Vec<(Call, Reply)>, Trouble> {
        let ask = |question: Call| {
            let judged = |t: &mut Tables| judge::asked(&question, t);
            match compare(&self.tables, judged, |t| station::run(&question, t)) {
                Err(found) => Err(Trouble::Asked { question, found }),
                Ok((reply, _)) => Ok((question, reply)),
            }
        };
        let under = self.slots().map(|slot| Call::Under { slot });
        under.chain([Call::Screen { more: 0 }]).map(ask).collect()
    }

    /// The slots to ask for, the first beyond the table among them. The original's lists take long
    /// on large tables; there they are some of the slots, and others after the next call.
    fn slots(&self) -> impl Iterator<Item = u32> {
        let slots = self.tables.n() + 1;
        let every = match slots {
            0..=13 => 1,
            14..=34 => 3,
            35..=65 => 11,
            66..=257 => 499,
            _ => 16_001,
        };
        let before = self.length * slots;
        (0..slots).filter(move |slot| (before + slot).is_multiple_of(every)).map(|slot| slot as u32)
    }
}

impl Trouble {
    fn broken(before: Tables, after: Tables, why: String) -> Trouble {
        Trouble::Broken { before: Box::new(before), after: Box::new(after), why }
    }
}

impl List {
    /// The first trouble, and how many calls the list has up to it.
    pub fn trouble(&self) -> Option<(usize, Trouble)> {
        let asked = |reached: Reached| reached.ask().map(|_| reached);
        let mut reached = match Reached::fresh(self.n, self.m).and_then(asked) {
            Err(trouble) => return Some((0, trouble)),
            Ok(reached) => reached,
        };
        for (call, length) in self.calls.iter().zip(1..) {
            reached = match reached.after(call).and_then(|(_, next)| asked(next)) {
                Err(trouble) => return Some((length, trouble)),
                Ok(next) => next,
            };
        }
        None
    }
}

/// The reply to a call and the tables that it leaves, on which both sides agree.
pub fn both(call: &Call, tables: &Tables) -> Result<(Reply, Tables), Box<Difference>> {
    compare(tables, |t| judge::run(call, t), |t| station::run(call, t))
}
