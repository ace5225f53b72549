//! Tables as bytes, laid out as the store of `include/station.h`: the fields one after the other, the
//! numbers with their lowest byte first, and a mark at the end.

use crate::refusal::Refusal;
use crate::tables::{Parts, Tables};
use alloc::vec::Vec;

/// How a mark begins, after the zeros that fill the store up to a multiple of 8: the store's name, and
/// the number of its layout. The numbers of block slots and of head slots follow.
const NAME: &[u8; 8] = b"station\x01";

/// The bytes of a mark but for the zeros.
const MARK: usize = 16;

/// Saving and loading.
impl Tables {
    /// What a station must write to disk.
    ///
    /// ```
    /// use station::{Refusal, Sequence, Tables};
    ///
    /// let mut tables = Tables::new(4, 2)?;
    /// tables.admit(Sequence(5), &[0x0a; 32], &[0x09; 32], 1)?;
    /// let saved = tables.to_bytes();
    /// assert_eq!(Tables::from_bytes(&saved)?, tables);
    /// assert_eq!(Tables::from_bytes(&[0; 300]), Err(Refusal::Store));
    /// # Ok::<(), Refusal>(())
    /// ```
    #[must_use]
    pub fn to_bytes(&self) -> Vec<u8> {
        let parts = self.parts();
        let mut bytes = Vec::new();
        for times in [&parts.requested, &parts.arrivals] {
            bytes.extend(times.iter().flat_map(|time| time.to_le_bytes()));
        }
        for words in [&parts.parents, &parts.sequences, &parts.tips, &parts.tails] {
            bytes.extend(words.iter().flat_map(|word| word.to_le_bytes()));
        }
        bytes.extend(parts.active.to_le_bytes());
        for field in [&parts.hashes, &parts.missing, &parts.counts, &parts.flags, &parts.connected]
        {
            bytes.extend(field);
        }
        bytes.resize(bytes.len().next_multiple_of(8), 0);
        bytes.extend(NAME);
        bytes.extend((self.block_slots() as u32).to_le_bytes());
        bytes.extend((self.head_slots() as u32).to_le_bytes());
        bytes
    }

    /// Adopts what [`to_bytes`](Tables::to_bytes) gave. As with [`from_parts`](Tables::from_parts) counts
    /// and heads are believed as they stand until [`restart`](Tables::restart) works them out.
    ///
    /// # Errors
    ///
    /// [`Refusal::Store`] if the bytes have another mark or another length than such tables have, or else
    /// what `from_parts` refuses.
    pub fn from_bytes(bytes: &[u8]) -> Result<Tables, Refusal> {
        read(bytes).ok_or(Refusal::Store).and_then(Tables::from_parts)
    }
}

fn read(bytes: &[u8]) -> Option<Parts> {
    let (rest, mark) = bytes.split_last_chunk::<MARK>()?;
    let (name, slots) = mark.split_first_chunk::<8>()?;
    let mut slots = Rest(slots);
    let (n, m) = (slots.word()? as usize, slots.word()? as usize);
    let mut rest = Rest(rest);
    let parts = Parts {
        requested: rest.times(m)?,
        arrivals: rest.times(m)?,
        parents: rest.words(n)?,
        sequences: rest.words(n)?,
        tips: rest.words(m)?,
        tails: rest.words(m)?,
        active: rest.word()?,
        hashes: rest.take(32 * n)?.to_vec(),
        missing: rest.take(32 * m)?.to_vec(),
        counts: rest.take(n)?.to_vec(),
        flags: rest.take(n)?.to_vec(),
        connected: rest.take(m)?.to_vec(),
    };
    let fills = rest.0.len() < 8 && bytes.len() % 8 == 0 && rest.0.iter().all(|&byte| byte == 0);
    (name == NAME && fills).then_some(parts)
}

/// The bytes that are not read yet.
struct Rest<'a>(&'a [u8]);

impl<'a> Rest<'a> {
    fn take(&mut self, number: usize) -> Option<&'a [u8]> {
        let (taken, rest) = self.0.split_at_checked(number)?;
        self.0 = rest;
        Some(taken)
    }

    fn word(&mut self) -> Option<u32> {
        self.words(1)?.pop()
    }

    fn words(&mut self, number: usize) -> Option<Vec<u32>> {
        let taken = self.take(4 * number)?.chunks_exact(4);
        Some(taken.map(|word| u32::from_le_bytes(word.try_into().expect("4 bytes"))).collect())
    }

    fn times(&mut self, number: usize) -> Option<Vec<u64>> {
        let taken = self.take(8 * number)?.chunks_exact(8);
        Some(taken.map(|time| u64::from_le_bytes(time.try_into().expect("8 bytes"))).collect())
    }
}
