//! The calls as both sides have them, and lists of one kind of call.

use station::{Hash, NONE_REF, Parts};
use std::hint::black_box;

pub type Refusal = u8;

/// What an admit takes.
#[derive(Clone)]
pub struct Block {
    pub sequence: u32,
    pub hash: Hash,
    pub previous: Hash,
    pub arrival: u64,
}

#[derive(Debug, PartialEq, Eq)]
#[repr(C)]
pub struct Asked {
    pub head: u32,
    pub claimed: u32,
    pub missing: Hash,
}

/// How many blocks hang under a slot, and the highest sequence among them.
#[derive(Debug, PartialEq, Eq)]
pub struct Under {
    pub blocks: u32,
    pub highest: u32,
}

/// A record of the head screen; the kind is 1 for a connected head.
#[derive(Debug, Clone, Copy, PartialEq, Eq)]
pub struct Row {
    pub tip: u32,
    pub sequence: u32,
    pub kind: u32,
    pub anchor: u32,
}

impl Row {
    /// What a list has where nothing was written.
    pub const NONE: Row = Row { tip: NONE_REF, sequence: NONE_REF, kind: 0, anchor: NONE_REF };
}

/// The original or the port, with its tables and the record.
pub trait Side {
    fn fresh(&mut self) -> Result<(), Refusal>;
    fn admit(&mut self, block: &Block) -> Result<u32, Refusal>;
    fn promote(&mut self, slot: u32) -> Result<(), Refusal>;
    fn remove(&mut self, slot: u32) -> Result<u32, Refusal>;
    fn timer(&mut self, now: u64, span: Option<u64>) -> Result<Option<Asked>, Refusal>;
    fn deadline(&mut self, span: Option<u64>) -> Result<Option<u64>, Refusal>;
    fn restart(&mut self, now: u64) -> Result<(), Refusal>;
    fn under(&mut self, slot: u32) -> Result<Under, Refusal>;
    /// Fills the side's list, which has a record for each head slot.
    fn screen(&mut self) -> Result<u32, Refusal>;

    /// Takes the tables and the record of the other.
    fn restore(&mut self, from: &Self);
    fn show(&self) -> Parts;
    /// The list of the screen.
    fn rows(&self) -> Vec<Row>;
}

#[derive(Debug, PartialEq, Eq)]
pub enum Answer {
    Done,
    Number(u32),
    Asked(Option<Asked>),
    Due(Option<u64>),
    Under(Under),
}

impl From<()> for Answer {
    fn from(_: ()) -> Answer {
        Answer::Done
    }
}

impl From<u32> for Answer {
    fn from(number: u32) -> Answer {
        Answer::Number(number)
    }
}

impl From<Option<Asked>> for Answer {
    fn from(asked: Option<Asked>) -> Answer {
        Answer::Asked(asked)
    }
}

impl From<Option<u64>> for Answer {
    fn from(time: Option<u64>) -> Answer {
        Answer::Due(time)
    }
}

impl From<Under> for Answer {
    fn from(under: Under) -> Answer {
        Answer::Under(under)
    }
}

/// Who gets the replies of a list.
pub trait Taker {
    fn take<A: Into<Answer>>(&mut self, reply: Result<A, Refusal>);
}

impl Taker for Vec<Result<Answer, Refusal>> {
    fn take<A: Into<Answer>>(&mut self, reply: Result<A, Refusal>) {
        self.push(reply.map(A::into));
    }
}

/// Looks at no reply; none is optimised away.
pub struct Unread;

impl Taker for Unread {
    fn take<A: Into<Answer>>(&mut self, reply: Result<A, Refusal>) {
        _ = black_box(reply);
    }
}

/// Calls of one kind, so that nothing chooses between calls while they are timed.
pub enum List {
    Fresh(usize),
    Admit(Vec<Block>),
    Promote(Vec<u32>),
    Remove(Vec<u32>),
    Timer(Vec<(u64, Option<u64>)>),
    Deadline(Vec<Option<u64>>),
    Restart(Vec<u64>),
    Under(Vec<u32>),
    Screen(usize),
}

impl List {
    pub fn len(&self) -> usize {
        match self {
            List::Fresh(times) | List::Screen(times) => *times,
            List::Admit(calls) => calls.len(),
            List::Promote(slots) | List::Remove(slots) | List::Under(slots) => slots.len(),
            List::Timer(calls) => calls.len(),
            List::Deadline(spans) => spans.len(),
            List::Restart(times) => times.len(),
        }
    }

    pub fn run(&self, side: &mut impl Side, taker: &mut impl Taker) {
        match self {
            List::Fresh(times) => (0..*times).for_each(|_| taker.take(side.fresh())),
            List::Admit(calls) => calls.iter().for_each(|c| taker.take(side.admit(black_box(c)))),
            List::Promote(calls) => {
                calls.iter().for_each(|c| taker.take(side.promote(black_box(*c))))
            }
            List::Remove(calls) => {
                calls.iter().for_each(|c| taker.take(side.remove(black_box(*c))))
            }
            List::Timer(calls) => {
                calls.iter().for_each(|c| taker.take(side.timer(black_box(c.0), c.1)))
            }
            List::Deadline(calls) => {
                calls.iter().for_each(|c| taker.take(side.deadline(black_box(*c))))
            }
            List::Restart(calls) => {
                calls.iter().for_each(|c| taker.take(side.restart(black_box(*c))))
            }
            List::Under(calls) => calls.iter().for_each(|c| taker.take(side.under(black_box(*c)))),
            List::Screen(times) => (0..*times).for_each(|_| taker.take(side.screen())),
        }
    }

    pub fn replies(&self, side: &mut impl Side) -> Vec<Result<Answer, Refusal>> {
        let mut replies = Vec::new();
        self.run(side, &mut replies);
        replies
    }
}
