//! From a list with a trouble to a shorter one that still has one: fewer slots, fewer calls, plainer
//! arguments.

use crate::calls::Call;
use crate::lists::{List, Trouble};
use crate::sizes::{BLOCK_SLOTS, HEAD_SLOTS};
use crate::tables::NONE_REF;
use std::collections::BTreeSet;
use std::time::{Duration, Instant};

/// No step is tried after this time.
const PATIENCE: Duration = Duration::from_secs(60);

/// The shortest list found, up to its trouble.
pub fn shorten(list: List) -> (List, Trouble) {
    let (length, trouble) = list.trouble().expect("the list has a trouble");
    let mut shorter = Shortener { list, trouble, end: Instant::now() + PATIENCE };
    shorter.list.calls.truncate(length);
    loop {
        let before = shorter.list.clone();
        shorter.fewer_slots();
        shorter.fewer_calls();
        shorter.plainer_hashes();
        shorter.plainer_numbers();
        if shorter.list == before {
            return (shorter.list, shorter.trouble);
        }
    }
}

struct Shortener {
    list: List,
    trouble: Trouble,
    end: Instant,
}

impl Shortener {
    /// Takes the changed list, up to its trouble, if it has one.
    fn attempt(&mut self, change: impl FnOnce(&mut List)) -> bool {
        let mut list = self.list.clone();
        change(&mut list);
        if list == self.list || Instant::now() > self.end {
            return false;
        }
        let Some((length, trouble)) = list.trouble() else {
            return false;
        };
        list.calls.truncate(length);
        (self.list, self.trouble) = (list, trouble);
        true
    }

    fn fewer_slots(&mut self) {
        let (n, m) = (self.list.n, self.list.m);
        for size in BLOCK_SLOTS.into_iter().take_while(|&size| size < n) {
            if self.attempt(|list| list.n = size) {
                break;
            }
        }
        for size in HEAD_SLOTS.into_iter().take_while(|&size| size < m) {
            if self.attempt(|list| list.m = size) {
                break;
            }
        }
    }

    /// Leaves out calls, in runs that become shorter.
    fn fewer_calls(&mut self) {
        let mut run = self.list.calls.len() / 2;
        while run > 0 {
            let mut from = 0;
            while from + run <= self.list.calls.len() {
                if !self.attempt(|list| drop(list.calls.drain(from..from + run))) {
                    from += run;
                }
            }
            run /= 2;
        }
    }

    /// Writes all hashes of 32 bytes as such of equal bytes, in the same order, and then one by one.
    fn plainer_hashes(&mut self) {
        let mut hashes = BTreeSet::new();
        for call in &mut self.list.calls {
            each_hash(call, |hash| hashes.extend([hash.clone()]));
        }
        let hashes: Vec<Vec<u8>> = hashes.into_iter().filter(|hash| hash != &[0; 32]).collect();
        let plain = |hash: &Vec<u8>| {
            let at = hashes.binary_search(hash).ok()?;
            u8::try_from(at + 1).ok().map(|byte| vec![byte; 32])
        };
        self.attempt(|list| replace_hashes(list, plain));
        for old in &hashes {
            self.attempt(|list| {
                replace_hashes(list, |hash| if hash == old { plain(hash) } else { None });
            });
        }
    }

    /// Lowers all sequences alike, and tries small numbers for the times.
    fn plainer_numbers(&mut self) {
        let mut least = NONE_REF;
        for call in &mut self.list.calls {
            each_sequence(call, |sequence| least = least.min(*sequence));
        }
        self.attempt(|list| {
            for call in &mut list.calls {
                each_sequence(call, |sequence| *sequence -= least);
            }
        });
        for plain in [0, 1] {
            for at in 0..self.list.calls.len() {
                self.attempt(|list| {
                    each_time(&mut list.calls[at], |time| *time = plain.min(*time));
                });
            }
        }
    }
}

fn replace_hashes(list: &mut List, new: impl Fn(&Vec<u8>) -> Option<Vec<u8>>) {
    for call in &mut list.calls {
        each_hash(call, |hash| {
            if let Some(new) = new(hash) {
                *hash = new;
            }
        });
    }
}

/// The hashes of 32 bytes that the call takes.
fn each_hash(call: &mut Call, mut see: impl FnMut(&mut Vec<u8>)) {
    if let Call::Admit { hash, previous, .. } = call {
        [hash, previous].into_iter().filter(|hash| hash.len() == 32).for_each(&mut see);
    }
}

/// The sequence that the call takes, unless it is the reserved one.
fn each_sequence(call: &mut Call, mut see: impl FnMut(&mut u32)) {
    if let Call::Admit { sequence, .. } = call
        && *sequence != NONE_REF
    {
        see(sequence);
    }
}

/// The times that the call takes.
fn each_time(call: &mut Call, mut see: impl FnMut(&mut u64)) {
    match call {
        Call::Admit { arrival, .. } => see(arrival),
        Call::Restart { now } => see(now),
        Call::Timer { now, span } => {
            see(now);
            span.iter_mut().for_each(see);
        }
        Call::Deadline { span } => span.iter_mut().for_each(see),
        _ => {}
    }
}
