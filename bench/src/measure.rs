//! A case on both sides: first whether they agree, then how long each takes, in turn.

use crate::calls::{List, Side, Unread};
use crate::cases::Case;
use std::time::{Duration, Instant};

/// How long a case may be measured, and how often at most.
#[derive(Clone, Copy)]
pub struct Effort {
    pub time: Duration,
    pub turns: usize,
}

/// Nanoseconds a call, of one turn after the other.
pub struct Times {
    pub rust: Vec<f64>,
    pub port: Vec<f64>,
}

/// One side before and after the calls of a case; the second is worked upon.
pub struct Pair<S> {
    start: S,
    work: S,
}

impl<S: Side> Pair<S> {
    pub fn new(mut start: S, work: S, setup: &[List]) -> Pair<S> {
        for list in setup {
            assert!(list.replies(&mut start).iter().all(Result::is_ok), "a setup call is refused");
        }
        Pair { start, work }
    }

    /// The tables of the start, to be worked upon.
    pub fn restored(&mut self) -> &mut S {
        self.work.restore(&self.start);
        &mut self.work
    }

    fn time(&mut self, list: &List, clock: Duration) -> f64 {
        let side = self.restored();
        timed(list.len(), clock, || list.run(side, &mut Unread))
    }
}

/// Nanoseconds of each of so many calls.
pub fn timed(calls: usize, clock: Duration, act: impl FnOnce()) -> f64 {
    let start = Instant::now();
    act();
    start.elapsed().saturating_sub(clock).as_nanos() as f64 / calls as f64
}

/// Both sides start and end with the same tables, and reply the same.
pub fn agree<A: Side, B: Side>(rust: &mut Pair<A>, port: &mut Pair<B>, case: &Case) {
    assert!(rust.start.show() == port.start.show(), "the tables differ before the list");
    let (a, b) = (rust.restored(), port.restored());
    let replies = case.timed.replies(a);
    assert_eq!(replies, case.timed.replies(b), "the replies differ");
    assert!(a.show() == b.show(), "the tables differ after the list");
    assert_eq!(a.rows(), b.rows(), "the screens differ");
    let expected = |reply: &Result<_, u8>| reply.as_ref().err().copied() == case.refusal;
    assert!(replies.iter().all(expected), "a call is refused, or not: {replies:?}");
}

pub fn measure<A: Side, B: Side>(
    rust: &mut Pair<A>,
    port: &mut Pair<B>,
    list: &List,
    effort: Effort,
) -> Times {
    let clock = clock();
    let (rust, port) = in_turn(effort, || rust.time(list, clock), || port.time(list, clock));
    Times { rust, port }
}

/// What the two give, one turn after the other; the first comes first in every other turn.
pub fn in_turn(
    effort: Effort,
    mut first: impl FnMut() -> f64,
    mut second: impl FnMut() -> f64,
) -> (Vec<f64>, Vec<f64>) {
    let mut times = (Vec::new(), Vec::new());
    let end = Instant::now() + effort.time;
    for turn in 0.. {
        let (a, b);
        if turn % 2 == 0 {
            a = first();
            b = second();
        } else {
            b = second();
            a = first();
        }
        if turn >= WARMING {
            times.0.push(a);
            times.1.push(b);
        }
        let enough = times.0.len() >= LEAST;
        if enough && (times.0.len() >= effort.turns || Instant::now() > end) {
            break;
        }
    }
    times
}

/// Turns that do not count.
const WARMING: usize = 4;

const LEAST: usize = 21;

/// What it takes to read the clock twice.
pub fn clock() -> Duration {
    let mut times: Vec<Duration> = (0..1001).map(|_| Instant::now().elapsed()).collect();
    times.sort();
    times[times.len() / 2]
}
