//! The sizes that are measured, and what is measured at one.

use crate::calls::{List, Side, Unread};
use crate::cases::{Case, Kind};
use crate::measure::{Effort, Pair, agree, measure};
use crate::port::Port;
use crate::rust::Rust;
use crate::stack::deepest;
use crate::stats::Spread;

pub struct Size {
    pub n: usize,
    pub m: usize,
    pub times: fn(&Case, Effort) -> Outcome,
    pub stack: fn(&Case) -> (usize, usize),
    pub repeat: fn(&Case, Who, usize),
}

#[derive(Clone, Copy, PartialEq, Eq)]
pub enum Who {
    Rust,
    Port,
}

/// Nanoseconds a call of either side, and the port's as a part of the original's in the same turn.
#[derive(Clone, Copy)]
pub struct Outcome {
    pub rust: Spread,
    pub port: Spread,
    pub ratio: Spread,
}

impl Size {
    const fn of<const N: usize, const M: usize>() -> Size {
        Size { n: N, m: M, times: times::<N, M>, stack: stack::<N, M>, repeat: repeat::<N, M> }
    }

    pub fn case(&self, kind: &Kind) -> Option<Case> {
        (kind.at)(self.n, self.m)
    }
}

pub const SIZES: [Size; 9] = [
    Size::of::<64, 4>(),
    Size::of::<64, 16>(),
    Size::of::<64, 64>(),
    Size::of::<256, 4>(),
    Size::of::<256, 16>(),
    Size::of::<256, 64>(),
    Size::of::<1024, 4>(),
    Size::of::<1024, 16>(),
    Size::of::<1024, 64>(),
];

fn rust<const N: usize, const M: usize>(case: &Case) -> Pair<Rust<N, M>> {
    Pair::new(Rust::new(), Rust::new(), &case.setup)
}

fn port<const N: usize, const M: usize>(case: &Case) -> Pair<Port> {
    Pair::new(Port::new(N, M), Port::new(N, M), &case.setup)
}

fn times<const N: usize, const M: usize>(case: &Case, effort: Effort) -> Outcome {
    let (mut rust, mut port) = (rust::<N, M>(case), port::<N, M>(case));
    agree(&mut rust, &mut port, case);
    let times = measure(&mut rust, &mut port, &case.timed, effort);
    let ratios = times.port.iter().zip(&times.rust).map(|(port, rust)| port / rust).collect();
    Outcome {
        rust: Spread::of(times.rust),
        port: Spread::of(times.port),
        ratio: Spread::of(ratios),
    }
}

fn stack<const N: usize, const M: usize>(case: &Case) -> (usize, usize) {
    let (mut rust, mut port) = (rust::<N, M>(case), port::<N, M>(case));
    (deepest(&case.timed, &mut rust), deepest(&case.timed, &mut port))
}

/// The list of the case, so many times on one side, for a profiler.
fn repeat<const N: usize, const M: usize>(case: &Case, who: Who, turns: usize) {
    match who {
        Who::Rust => repeat_on(rust::<N, M>(case), case, turns),
        Who::Port => repeat_on(port::<N, M>(case), case, turns),
    }
}

fn repeat_on(mut pair: Pair<impl Side>, case: &Case, turns: usize) {
    for _ in 0..turns {
        one_turn(&case.timed, pair.restored());
    }
    println!("{} calls", turns * case.timed.len());
}

/// By this name a profiler knows what is measured.
#[inline(never)]
fn one_turn(list: &List, side: &mut impl Side) {
    list.run(side, &mut Unread);
}
