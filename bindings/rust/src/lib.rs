//! The booking chain's block tree and its heads, proved, for Rust programs.
//!
//! A station keeps its bookings in blocks, each of which names its parent by hash. [`Tables`] hold up to
//! 1,024 of them and the heads of up to 64 branches; [`Tables::promote`] confirms a block, and
//! [`Tables::screen`] shows the branches. A full head table evicts a branch, and a block that another
//! branch shares, or that is confirmed, must stay.
//!
//! ```
//! use station::{BlockSlot, Refusal, Sequence, Tables};
//!
//! // A pass is booked and confirmed, and two branches share its block.
//! let mut tables = Tables::new(4, 2)?;
//! let pass = tables.admit(Sequence(5), &[0x0a; 32], &[0x09; 32], 1)?;
//! tables.admit(Sequence(6), &[0x0b; 32], &[0x0a; 32], 2)?;
//! tables.admit(Sequence(6), &[0x0c; 32], &[0x0a; 32], 3)?;
//! tables.promote(pass)?;
//!
//! // The station saves its tables and stops. It loads them, and restarts.
//! let saved = tables.to_bytes();
//! let mut tables = Tables::from_bytes(&saved)?;
//! tables.restart(10)?;
//! assert_eq!(tables.head_ref_count(pass), Some(2));
//!
//! // The head table is full, so a third branch evicts the lowest. The pass stays, and is not sold again.
//! tables.admit(Sequence(7), &[0x0d; 32], &[0x0e; 32], 20)?;
//! assert_eq!(tables.get(BlockSlot(1)), None);
//! assert_eq!(tables.find(Sequence(5), &[0x0a; 32]), Some(pass));
//! assert_eq!(tables.admit(Sequence(5), &[0x0a; 32], &[0x09; 32], 21), Err(Refusal::Known));
//! # Ok::<(), Refusal>(())
//! ```
//!
//! # What is proved
//!
//! Behind the methods stands an archive of functions, each proved to meet its contract:
//!
//! 1. On any buffers, slots, hashes and clocks a call ends, stays within its buffers, and does its
//!    work or refuses with one [`Refusal`] and leaves every byte as it stood.
//! 2. Its answer and what it leaves are those of its rule in `crates/rules/specs`.
//! 3. After every list of calls from fresh tables the counts, heads and anchors are those worked out
//!    afresh from the blocks, the active blocks are those promoted, and none was ever freed; and
//!    [`Tables::under`] counts the blocks that [`Tables::subtree`] lists.
//!
//! Not proved, but tested: that this crate declares the archive's functions as they are (`src/raw.rs`),
//! and the Rust around them, which lends the buffers and reads the answers. [`Tables::heads`],
//! [`Tables::head`], and what saves and loads are Rust alone.
//!
//! # What a station writes to disk
//!
//! [`Tables::to_bytes`] gives all that must outlast the station. Save it after each accepted call that
//! changes the blocks or the record, which the timer and questions do not, before anyone is told of the
//! answer, and save it whole: write a second file, flush it to the disk and rename it over the first, so
//! that a crash leaves the old tables or the new ones and nothing in between. When the station comes up
//! again, [`Tables::from_bytes`] refuses what is not such bytes, and [`Tables::restart`] comes before all
//! else. Of the bytes the hashes, parents, sequences and flags of the blocks and the record must come
//! back as one call left them; the counts of blocks and the heads may be anything. They are the bytes of
//! a store of `include/station.h`.
//!
//! # Building
//!
//! The crate needs `alloc` and no `std`. The build script links `libstation.a` of the folder
//! `STATION_LIB_DIR`. Where that is not set it takes the repository's, `target/staticlib/libstation.a`,
//! and makes it anew where it is not made of the files under `crates/` as they are. That runs
//! `tools/archive`, which proves the crates first and so takes minutes from nothing; without the
//! Rattle kit's `rt` on `PATH` it says so and stops.

#![no_std]
#![deny(unsafe_code, unsafe_op_in_unsafe_fn, missing_docs)]

#[cfg(not(all(target_arch = "x86_64", target_pointer_width = "64")))]
compile_error!("libstation.a is for x86-64 with 64-bit pointers");

extern crate alloc;

mod raw;
mod records;
mod refusal;
mod store;
mod tables;

pub use records::{
    Anchor, Block, BlockSlot, Hash, Head, HeadKind, HeadRow, HeadSlot, NONE_REF, Rank, Request,
    Sequence, Status, Under,
};
pub use refusal::Refusal;
pub use tables::{MOST_BLOCKS, MOST_HEADS, Parts, Tables};
