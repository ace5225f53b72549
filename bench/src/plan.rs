//! What is measured, and how, as the command line says.

use crate::cases::{KINDS, Kind};
use crate::measure::Effort;
use crate::sizes::{SIZES, Size, Who};
use std::time::Duration;

pub const USAGE: &str = "bench [--quick] [--only WORDS] [--n N] [--m M] [--repeat rust|port TURNS]";

const FULL: Effort = Effort { time: Duration::from_millis(1200), turns: 5001 };
const QUICK: Effort = Effort { time: Duration::from_millis(50), turns: 101 };

pub struct Plan {
    pub effort: Effort,
    only: String,
    n: Option<usize>,
    m: Option<usize>,
    /// The side that runs alone, and how often.
    pub repeat: Option<(Who, usize)>,
}

impl Plan {
    pub fn read(mut words: impl Iterator<Item = String>) -> Option<Plan> {
        let only = String::new();
        let mut plan = Plan { effort: FULL, only, n: None, m: None, repeat: None };
        while let Some(word) = words.next() {
            match word.as_str() {
                "--quick" => plan.effort = QUICK,
                "--only" => plan.only = words.next()?,
                "--n" => plan.n = Some(words.next()?.parse().ok()?),
                "--m" => plan.m = Some(words.next()?.parse().ok()?),
                "--repeat" => {
                    let who = match words.next()?.as_str() {
                        "rust" => Who::Rust,
                        "port" => Who::Port,
                        _ => return None,
                    };
                    plan.repeat = Some((who, words.next()?.parse().ok()?));
                }
                _ => return None,
            }
        }
        Some(plan)
    }

    /// The kind of this very name, or those that have it in theirs.
    pub fn kinds(&self) -> impl Iterator<Item = &'static Kind> {
        let named = KINDS.iter().any(|kind| kind.name == self.only);
        KINDS.iter().filter(move |kind| match named {
            true => kind.name == self.only,
            false => kind.name.contains(&self.only),
        })
    }

    pub fn sizes(&self) -> impl Iterator<Item = &'static Size> {
        let wanted =
            |size: &&Size| self.n.is_none_or(|n| n == size.n) && self.m.is_none_or(|m| m == size.m);
        SIZES.iter().filter(wanted)
    }
}
