//! The calls of the scope document, and what hangs under a block and the head screen, which leave the
//! tables and are no calls of a list: what each takes and answers, and its line in the trial program.
//! Where the trial has no form, it is our own: `N` alone is fresh, `L retry` asks for the earliest
//! deadline, `-` in place of a retry is none given, `x` comes before a hash of other bytes, and `V +1`
//! or `V -1` gives the screen a list of so many records more or fewer than there are head slots.

use crate::screen::Row;
use crate::tables::{Recovery, Tables};
use crate::under::Under;
use std::fmt;

#[derive(Debug, Clone, PartialEq, Eq)]
pub enum Call {
    Fresh,
    Admit { sequence: u32, hash: Vec<u8>, previous: Vec<u8>, arrival: u64 },
    Promote { slot: u32 },
    Remove { slot: u32 },
    Timer { now: u64, span: Option<u64> },
    Deadline { span: Option<u64> },
    Restart { now: u64 },
    Under { slot: u32 },
    Screen { more: i8 },
}

#[derive(Debug, Clone, PartialEq, Eq)]
pub enum Answer {
    Slot(u32),
    Freed(u32),
    Asked(Option<Recovery>),
    Due(Option<u64>),
    Under(Under),
    Screen(Vec<Row>),
    Done,
    /// What the port returned where it is none of the call's answers.
    Unread(u64),
}

/// The number of a refusal.
pub type Refusal = u8;

pub type Reply = Result<Answer, Refusal>;

impl Call {
    pub const NAMES: [&str; 9] =
        ["fresh", "admit", "promote", "remove", "timer", "deadline", "restart", "under", "screen"];

    /// The place of the call's name.
    pub fn kind(&self) -> usize {
        match self {
            Call::Fresh => 0,
            Call::Admit { .. } => 1,
            Call::Promote { .. } => 2,
            Call::Remove { .. } => 3,
            Call::Timer { .. } => 4,
            Call::Deadline { .. } => 5,
            Call::Restart { .. } => 6,
            Call::Under { .. } => 7,
            Call::Screen { .. } => 8,
        }
    }

    /// The call of a line.
    pub fn read(line: &str) -> Option<Call> {
        let words: Vec<&str> = line.split_whitespace().collect();
        Some(match words[..] {
            ["N"] => Call::Fresh,
            ["A", sequence, hash, previous, arrival] => Call::Admit {
                sequence: sequence.parse().ok()?,
                hash: read_hash(hash)?,
                previous: read_hash(previous)?,
                arrival: arrival.parse().ok()?,
            },
            ["P", slot] => Call::Promote { slot: slot.parse().ok()? },
            ["D", slot] => Call::Remove { slot: slot.parse().ok()? },
            ["T", now, span] => Call::Timer { now: now.parse().ok()?, span: read_span(span)? },
            ["L", span] => Call::Deadline { span: read_span(span)? },
            ["R", now] => Call::Restart { now: now.parse().ok()? },
            ["U", slot] => Call::Under { slot: slot.parse().ok()? },
            ["V"] => Call::Screen { more: 0 },
            ["V", more] => Call::Screen { more: more.parse().ok()? },
            _ => return None,
        })
    }
}

impl fmt::Display for Call {
    fn fmt(&self, f: &mut fmt::Formatter) -> fmt::Result {
        match self {
            Call::Fresh => write!(f, "N"),
            Call::Admit { sequence, hash, previous, arrival } => {
                write!(f, "A {sequence} {} {} {arrival}", hash_word(hash), hash_word(previous))
            }
            Call::Promote { slot } => write!(f, "P {slot}"),
            Call::Remove { slot } => write!(f, "D {slot}"),
            Call::Timer { now, span } => write!(f, "T {now} {}", span_word(*span)),
            Call::Deadline { span } => write!(f, "L {}", span_word(*span)),
            Call::Restart { now } => write!(f, "R {now}"),
            Call::Under { slot } => write!(f, "U {slot}"),
            Call::Screen { more: 0 } => write!(f, "V"),
            Call::Screen { more } => write!(f, "V {more:+}"),
        }
    }
}

/// How many records the list of a screen has, at least none.
pub fn room(t: &Tables, more: i8) -> usize {
    t.m().saturating_add_signed(more.into())
}

fn read_hash(word: &str) -> Option<Vec<u8>> {
    let Some(digits) = word.strip_prefix('x') else {
        return Some(vec![u8::from_str_radix(word, 16).ok()?; 32]);
    };
    digits.as_bytes().chunks(2).map(|pair| byte(std::str::from_utf8(pair).ok()?)).collect()
}

fn byte(digits: &str) -> Option<u8> {
    u8::from_str_radix(digits, 16).ok()
}

fn hash_word(hash: &[u8]) -> String {
    match hash {
        [first, ..] if hash == [*first; 32] => format!("{first:02x}"),
        _ => hash.iter().fold("x".to_string(), |word, byte| word + &format!("{byte:02x}")),
    }
}

fn read_span(word: &str) -> Option<Option<u64>> {
    if word == "-" { Some(None) } else { word.parse().ok().map(Some) }
}

fn span_word(span: Option<u64>) -> String {
    span.map_or_else(|| "-".to_string(), |ticks| ticks.to_string())
}
