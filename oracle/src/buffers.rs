//! The list of the lent buffers, in the port's order: what each is called, how long it is and what
//! its cells hold. What picks a buffer, or goes through all of them, takes them from here.

use crate::tables::Tables;
use std::fmt;

pub struct Buffer {
    pub name: &'static str,
    /// How many cells it must have for n block slots and m head slots.
    pub fits: fn(usize, usize) -> usize,
    /// How many cells it has.
    pub len: fn(&Tables) -> usize,
    pub cells: fn(&mut Tables) -> Cells,
}

/// A buffer, by what its cells hold.
pub enum Cells<'a> {
    Hashes(&'a mut Vec<u8>),
    BlockSlots(&'a mut Vec<u32>),
    Sequences(&'a mut Vec<u32>),
    Bytes(&'a mut Vec<u8>),
    Times(&'a mut Vec<u64>),
}

/// Makes the list, and a pattern of the tables with each buffer in it: a field of the tables that
/// is not in the list does not compile.
macro_rules! buffers {
    ($($name:ident: $cells:ident, $fits:expr;)*) => {
        pub static BUFFERS: &[Buffer] = &[$(Buffer {
            name: stringify!($name),
            fits: $fits,
            len: |t| t.$name.len(),
            cells: |t| Cells::$cells(&mut t.$name),
        }),*];

        const _: fn(Tables) = |Tables { $($name: _,)* active: _ }| ();
    };
}

buffers! {
    hashes: Hashes, |n, _| 32 * n;
    parents: BlockSlots, |n, _| n;
    sequences: Sequences, |n, _| n;
    counts: Bytes, |n, _| n;
    flags: Bytes, |n, _| n;
    tips: BlockSlots, |_, m| m;
    tails: BlockSlots, |_, m| m;
    missing: Hashes, |_, m| 32 * m;
    requested: Times, |_, m| m;
    arrivals: Times, |_, m| m;
    connected: Bytes, |_, m| m;
}

impl Buffer {
    /// Cuts the buffer to so many cells, or adds zeros.
    pub fn resize(&self, t: &mut Tables, cells: usize) {
        match (self.cells)(t) {
            Cells::Hashes(bytes) | Cells::Bytes(bytes) => bytes.resize(cells, 0),
            Cells::BlockSlots(words) | Cells::Sequences(words) => words.resize(cells, 0),
            Cells::Times(times) => times.resize(cells, 0),
        }
    }
}

impl fmt::Debug for Buffer {
    fn fmt(&self, f: &mut fmt::Formatter) -> fmt::Result {
        f.write_str(self.name)
    }
}
