//! The arguments of the compared functions, all of them at once: each function takes some. And a
//! walk over the fields of arguments and tables, for what must treat each kind of field alike.

use crate::buffers::{BUFFERS, Cells};
use crate::misfit::Misfit;
use crate::show::{hex, reference};
use crate::tables::{BlockStatus, Hash, Tables};

#[derive(Debug, Clone)]
pub struct Args {
    pub slot: u32,
    pub parent: u32,
    /// The parent of an admitted block.
    pub found: Option<u32>,
    pub head: u32,
    pub sequence: u32,
    pub hash: Hash,
    pub previous: Hash,
    pub change: i8,
    pub count: u8,
    pub flags: u8,
    pub status: BlockStatus,
    pub value: bool,
    pub now: u64,
    pub retry: u64,
    pub requested: u64,
    /// The slots of freed blocks.
    pub deleted: Vec<u32>,
    pub first: Rank,
    pub second: Rank,
    /// How many bytes a call gets for the hash, and for the previous one.
    pub hash_length: usize,
    pub previous_length: usize,
    /// The retry span, where one is given.
    pub span: Option<u64>,
    /// How many records more than head slots the list of a screen has, or fewer.
    pub more: i8,
    /// How the buffers that a call gets are put out of shape.
    pub misfit: Option<Misfit>,
}

/// The value, length and hash of a branch.
pub type Rank = (u64, u16, Hash);

/// A field of the tables or the arguments.
pub enum Field<'a> {
    BlockSlot(&'a mut u32),
    HeadSlot(&'a mut u32),
    Sequence(&'a mut u32),
    Byte(&'a mut u8),
    Time(&'a mut u64),
    Change(&'a mut i8),
    Hash(&'a mut [u8]),
}

impl Args {
    /// The tables as a call gets them.
    pub fn lend(&self, tables: &Tables) -> Tables {
        let mut lent = tables.clone();
        if let Some(misfit) = self.misfit {
            misfit.apply(&mut lent);
        }
        lent
    }

    pub fn each_field(&mut self, see: &mut impl FnMut(Field)) {
        see(Field::BlockSlot(&mut self.slot));
        see(Field::BlockSlot(&mut self.parent));
        self.found.iter_mut().for_each(|slot| see(Field::BlockSlot(slot)));
        see(Field::HeadSlot(&mut self.head));
        see(Field::Sequence(&mut self.sequence));
        see(Field::Hash(&mut self.hash));
        see(Field::Hash(&mut self.previous));
        see(Field::Change(&mut self.change));
        see(Field::Byte(&mut self.count));
        see(Field::Byte(&mut self.flags));
        see(Field::Time(&mut self.now));
        see(Field::Time(&mut self.retry));
        see(Field::Time(&mut self.requested));
        self.deleted.iter_mut().for_each(|slot| see(Field::BlockSlot(slot)));
        for (value, _, hash) in [&mut self.first, &mut self.second] {
            see(Field::Time(value));
            see(Field::Hash(hash));
        }
        self.span.iter_mut().for_each(|span| see(Field::Time(span)));
        see(Field::Change(&mut self.more));
    }

    /// The arguments by name, as they are shown.
    pub fn named(&self) -> Vec<(&'static str, String)> {
        vec![
            ("slot", reference(self.slot)),
            ("parent", reference(self.parent)),
            ("found", format!("{:?}", self.found)),
            ("head", reference(self.head)),
            ("sequence", reference(self.sequence)),
            ("hash", hex(&self.hash)),
            ("previous", hex(&self.previous)),
            ("change", self.change.to_string()),
            ("count", self.count.to_string()),
            ("flags", format!("{:08b}", self.flags)),
            ("status", format!("{:?}", self.status)),
            ("value", self.value.to_string()),
            ("now", self.now.to_string()),
            ("retry", self.retry.to_string()),
            ("requested", self.requested.to_string()),
            ("deleted", format!("{:?}", self.deleted)),
            ("first", rank(&self.first)),
            ("second", rank(&self.second)),
            ("hash_length", self.hash_length.to_string()),
            ("previous_length", self.previous_length.to_string()),
            ("span", format!("{:?}", self.span)),
            ("more", self.more.to_string()),
            ("misfit", format!("{:?}", self.misfit)),
        ]
    }
}

fn rank((value, len, hash): &Rank) -> String {
    format!("value {value} length {len} hash {}", hex(hash))
}

impl Tables {
    pub fn each_field(&mut self, see: &mut impl FnMut(Field)) {
        for buffer in BUFFERS {
            match (buffer.cells)(self) {
                Cells::Hashes(bytes) => {
                    bytes.chunks_exact_mut(32).for_each(|hash| see(Field::Hash(hash)));
                }
                Cells::BlockSlots(slots) => {
                    slots.iter_mut().for_each(|slot| see(Field::BlockSlot(slot)));
                }
                Cells::Sequences(sequences) => {
                    sequences.iter_mut().for_each(|sequence| see(Field::Sequence(sequence)));
                }
                Cells::Bytes(bytes) => bytes.iter_mut().for_each(|byte| see(Field::Byte(byte))),
                Cells::Times(times) => times.iter_mut().for_each(|time| see(Field::Time(time))),
            }
        }
        see(Field::BlockSlot(&mut self.active));
    }
}
