//! The original Rust tables as the judge of the port: both sides as functions and calls on the same
//! lent buffers, and what compares them.

#[cfg(debug_assertions)]
compile_error!("the judge is a release build: cargo run --release");

pub mod args;
pub mod beneath;
pub mod buffers;
pub mod calls;
pub mod exhaustive;
pub mod functions;
pub mod generate;
pub mod judge;
pub mod lists;
pub mod misfit;
pub mod modes;
pub mod port;
pub mod promises;
pub mod random;
pub mod rings;
pub mod screen;
pub mod scripts;
pub mod shorten;
pub mod show;
pub mod shown;
pub mod shrink;
pub mod single;
pub mod station;
pub mod tables;
pub mod tally;
pub mod tips;
pub mod under;

mod entries;
mod sizes;
mod stand_ins;

use stand_ins::{api, staged_validation};

include!(concat!(env!("OUT_DIR"), "/modules.rs"));

/// The original's functions, each on the lent buffers.
pub mod original {
    pub use crate::blocks::judged::*;
    pub use crate::branch_value::judged::outranks;
    pub use crate::chain_heads::judged::*;
}
