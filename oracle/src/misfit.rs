//! Buffers that do not fit one another, or are for too few or too many slots.

use crate::buffers::{BUFFERS, Buffer};
use crate::tables::Tables;

#[derive(Debug, Clone, Copy)]
pub enum Misfit {
    /// The buffer has so many cells more or fewer.
    Buffer(&'static Buffer, isize),
    /// All buffers of the blocks are for so many slots.
    Blocks(usize),
    /// All buffers of the heads are for so many slots.
    Heads(usize),
}

impl Misfit {
    pub fn apply(self, t: &mut Tables) {
        match self {
            Misfit::Buffer(buffer, cells) => {
                buffer.resize(t, (buffer.len)(t).saturating_add_signed(cells));
            }
            Misfit::Blocks(n) => fit(t, n, t.m()),
            Misfit::Heads(m) => fit(t, t.n(), m),
        }
    }
}

fn fit(t: &mut Tables, n: usize, m: usize) {
    BUFFERS.iter().for_each(|buffer| buffer.resize(t, (buffer.fits)(n, m)));
}
