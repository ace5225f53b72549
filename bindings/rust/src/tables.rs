use crate::raw::{self, ActiveHead};
use crate::records::{
    Anchor, Block, BlockSlot, Hash, Head, HeadRow, HeadSlot, NONE_REF, Request, Sequence, Status,
    Under, found,
};
use crate::refusal::{Refusal, accepted};
use alloc::{vec, vec::Vec};
use core::fmt;

/// The most block slots that tables may have. The fewest is 1.
pub const MOST_BLOCKS: usize = 1_024;

/// The most head slots that tables may have. The fewest is 2.
pub const MOST_HEADS: usize = 64;

/// What tables hold, as a station stores it: a buffer for each field of the n block slots and of the
/// m head slots, and the record. [`NONE_REF`] stands for none.
#[derive(Clone, PartialEq, Eq)]
pub struct Parts {
    /// The blocks' hashes, 32 bytes a slot.
    pub hashes: Vec<u8>,
    /// The blocks' parent slots.
    pub parents: Vec<u32>,
    /// The blocks' sequences, [`NONE_REF`] in an empty slot.
    pub sequences: Vec<u32>,
    /// The blocks' counts.
    pub counts: Vec<u8>,
    /// The blocks' flags: bit 0 on the active chain, bits 1 and 2 the status.
    pub flags: Vec<u8>,
    /// The heads' tips, [`NONE_REF`] in an empty head.
    pub tips: Vec<u32>,
    /// The heads' anchors.
    pub tails: Vec<u32>,
    /// The hashes that the heads wait for, 32 bytes a slot.
    pub missing: Vec<u8>,
    /// When those were last asked for.
    pub requested: Vec<u64>,
    /// When the heads' last blocks came.
    pub arrivals: Vec<u64>,
    /// Whether the heads are connected, in bit 0.
    pub connected: Vec<u8>,
    /// The record: the active head's slot.
    pub active: u32,
}

/// No slots at all, and no active head: what [`Tables::from_parts`] refuses.
impl Default for Parts {
    fn default() -> Parts {
        Parts {
            hashes: vec![],
            parents: vec![],
            sequences: vec![],
            counts: vec![],
            flags: vec![],
            tips: vec![],
            tails: vec![],
            missing: vec![],
            requested: vec![],
            arrivals: vec![],
            connected: vec![],
            active: NONE_REF,
        }
    }
}

/// The number of slots and the record alone: the buffers would fill many screens.
impl fmt::Debug for Parts {
    fn fmt(&self, f: &mut fmt::Formatter) -> fmt::Result {
        f.debug_struct("Parts")
            .field("block_slots", &self.sequences.len())
            .field("head_slots", &self.tips.len())
            .field("active", &self.active)
            .finish_non_exhaustive()
    }
}

/// A block tree and its heads.
///
/// The tables own their memory and nothing but their calls writes it, so all that is proved holds of
/// tables from [`Tables::new`], whatever is called. The buffers of tables fit one another, so none of
/// their calls is refused by [`Refusal::Shape`].
#[derive(Clone, PartialEq, Eq)]
pub struct Tables {
    parts: Parts,
}

/// How much the tables hold; [`Tables::blocks`] and [`Tables::heads`] give the rest.
impl fmt::Debug for Tables {
    fn fmt(&self, f: &mut fmt::Formatter) -> fmt::Result {
        f.debug_struct("Tables")
            .field("block_slots", &self.block_slots())
            .field("blocks", &self.blocks().count())
            .field("head_slots", &self.head_slots())
            .field("heads", &self.head_count())
            .field("active_head", &self.active_head())
            .finish_non_exhaustive()
    }
}

/// Calls the entry point with the eleven buffers, and more.
macro_rules! lend {
    ($parts:expr, $entry:ident $(, $more:expr)*) => {{
        let Parts {
            hashes, parents, sequences, counts, flags,
            tips, tails, missing, requested, arrivals, connected, active: _,
        } = $parts;
        raw::$entry(
            hashes, parents, sequences, counts, flags,
            tips, tails, missing, requested, arrivals, connected
            $(, $more)*
        )
    }};
}

/// The calls.
impl Tables {
    /// Empty tables of so many block slots, from 1 to 1,024, and head slots, from 2 to 64.
    ///
    /// # Errors
    ///
    /// [`Refusal::Shape`] for other sizes.
    pub fn new(blocks: usize, heads: usize) -> Result<Tables, Refusal> {
        // One slot too many is enough to be refused, so none is allocated beyond.
        let n = blocks.min(MOST_BLOCKS + 1);
        let m = heads.min(MOST_HEADS + 1);
        let parts = Parts {
            hashes: vec![0; 32 * n],
            parents: vec![0; n],
            sequences: vec![0; n],
            counts: vec![0; n],
            flags: vec![0; n],
            tips: vec![0; m],
            tails: vec![0; m],
            missing: vec![0; 32 * m],
            requested: vec![0; m],
            arrivals: vec![0; m],
            connected: vec![0; m],
            active: 0,
        };
        let mut tables = Tables { parts };
        tables.fresh()?;
        Ok(tables)
    }

    /// Adopts what a station stored. Counts and heads are believed as they stand until
    /// [`restart`](Tables::restart) works them out: after it they are as on tables from
    /// [`new`](Tables::new) if the blocks alone are whole, that is, parents are there and one lower in
    /// sequence, the active blocks are one line, no two blocks share sequence and hash, none has more
    /// than 255 children, and empty slots are as fresh leaves them.
    ///
    /// # Errors
    ///
    /// [`Refusal::Shape`] if the buffers do not fit one another, [`Refusal::Record`] if the record does
    /// not name an active block that has no active child, or nothing where no block is active.
    pub fn from_parts(parts: Parts) -> Result<Tables, Refusal> {
        let tables = Tables { parts };
        // The deadline is the call that refuses misfits alone and writes nothing.
        tables.earliest_deadline(None)?;
        if tables.record_fits() { Ok(tables) } else { Err(Refusal::Record) }
    }

    fn record_fits(&self) -> bool {
        let Parts { parents, flags, active, .. } = &self.parts;
        let is_active = |bits: u8| bits & 1 == 1;
        if *active == NONE_REF {
            return !flags.iter().any(|&bits| is_active(bits));
        }
        flags.get(*active as usize).is_some_and(|&bits| is_active(bits))
            && !flags.iter().zip(parents).any(|(&bits, parent)| is_active(bits) && parent == active)
    }

    /// What the tables hold.
    #[must_use]
    pub fn parts(&self) -> &Parts {
        &self.parts
    }

    /// What the tables held.
    #[must_use]
    pub fn into_parts(self) -> Parts {
        self.parts
    }

    /// Empties all slots, all heads and the record.
    ///
    /// # Errors
    ///
    /// [`Refusal::Shape`] alone, which tables do not meet.
    pub fn fresh(&mut self) -> Result<(), Refusal> {
        let mut held = ActiveHead { slot: self.parts.active };
        let answer = lend!(&mut self.parts, station_fresh, &mut held);
        self.parts.active = held.slot;
        accepted(answer).map(drop)
    }

    /// Stores an arriving block, whose parent has the hash `previous` and need not be there, and
    /// gives its slot, the lowest empty one. The block gets or moves a head, a full head table
    /// evicts one, and blocks that waited for this one are linked.
    ///
    /// The hashes are slices because blocks come from elsewhere: other lengths than 32 are refused.
    ///
    /// # Errors
    ///
    /// [`Refusal::HashLength`], [`ReservedSequence`](Refusal::ReservedSequence),
    /// [`ZeroHash`](Refusal::ZeroHash), [`Known`](Refusal::Known) or [`Full`](Refusal::Full).
    pub fn admit(
        &mut self,
        sequence: Sequence,
        hash: &[u8],
        previous: &[u8],
        arrival: u64,
    ) -> Result<BlockSlot, Refusal> {
        let active = self.parts.active;
        let answer =
            lend!(&mut self.parts, station_admit, active, sequence.0, hash, previous, arrival);
        accepted(answer).map(BlockSlot)
    }

    /// Puts the block on the active chain, as its new head, and works out the heads' anchors again.
    /// The block is never freed from then on.
    ///
    /// # Errors
    ///
    /// [`Refusal::NoBlock`] or [`NotNext`](Refusal::NotNext).
    pub fn promote(&mut self, slot: BlockSlot) -> Result<(), Refusal> {
        let mut held = ActiveHead { slot: self.parts.active };
        let answer = lend!(&mut self.parts, station_promote, &mut held, slot.0);
        self.parts.active = held.slot;
        accepted(answer).map(drop)
    }

    /// Frees the block and all above it, and gives their number. Heads, anchors and counts follow.
    ///
    /// # Errors
    ///
    /// [`Refusal::NoBlock`] or [`HoldsActive`](Refusal::HoldsActive).
    pub fn remove(&mut self, slot: BlockSlot) -> Result<usize, Refusal> {
        accepted(lend!(&mut self.parts, station_remove, slot.0)).map(|freed| freed as usize)
    }

    /// How many blocks hang under the one in this slot, itself among them, and the highest sequence
    /// among them. The count goes from the block to its children and from those to theirs, at most n
    /// levels with its own.
    ///
    /// On tables from [`new`](Tables::new) it is as many as [`subtree`](Tables::subtree) lists. In
    /// adopted tables that are damaged a block met at several levels counts at each, so that it may be
    /// up to n * n - n + 1, and the way down, which is a recursion, may take some 120 KiB of stack,
    /// where the other calls take 6.
    ///
    /// # Errors
    ///
    /// [`Refusal::NoBlock`].
    ///
    /// ```
    /// use station::{BlockSlot, Refusal, Sequence, Tables, Under};
    ///
    /// let mut tables = Tables::new(4, 2)?;
    /// let pass = tables.admit(Sequence(5), &[0x0a; 32], &[0x09; 32], 1)?;
    /// tables.admit(Sequence(6), &[0x0b; 32], &[0x0a; 32], 2)?;
    /// tables.admit(Sequence(6), &[0x0c; 32], &[0x0a; 32], 3)?;
    /// assert_eq!(tables.under(pass)?, Under { blocks: 3, highest: Sequence(6) });
    /// assert_eq!(tables.under(BlockSlot(3)), Err(Refusal::NoBlock));
    /// # Ok::<(), Refusal>(())
    /// ```
    pub fn under(&self, slot: BlockSlot) -> Result<Under, Refusal> {
        let mut highest = [0];
        let blocks = accepted(lend!(&self.parts, station_under, slot.0, &mut highest))?;
        Ok(Under { blocks: blocks as usize, highest: Sequence(highest[0]) })
    }

    /// Fills the list with a record for each head in use and gives their number; records past the last
    /// head keep their contents. They stand by the tip's sequence, highest first, then by its hash,
    /// lowest first, then by head slot, lowest first.
    ///
    /// In adopted tables that are damaged a tip that is empty or out of range has no sequence and sorts
    /// with a zero hash, so that its head stands first.
    ///
    /// The list has [`head_slots`](Tables::head_slots) records at least, however many heads are in use;
    /// [`MOST_HEADS`] are enough for any tables. [`screen`](Tables::screen) needs no list.
    ///
    /// # Errors
    ///
    /// [`Refusal::ShortList`], and the list keeps its contents.
    ///
    /// ```
    /// use station::{HeadRow, Refusal, Sequence, Tables};
    ///
    /// let mut tables = Tables::new(4, 2)?;
    /// let mut rows = [HeadRow::default(); 2];
    /// assert_eq!(tables.fill_screen(&mut rows)?, 0);
    /// let low = tables.admit(Sequence(5), &[0x0a; 32], &[0x09; 32], 1)?;
    /// let high = tables.admit(Sequence(7), &[0x0d; 32], &[0x0e; 32], 2)?;
    /// assert_eq!(tables.fill_screen(&mut rows)?, 2);
    /// assert_eq!(rows.map(|row| row.tip()), [high, low]);
    /// assert_eq!(tables.fill_screen(&mut rows[..1]), Err(Refusal::ShortList));
    /// # Ok::<(), Refusal>(())
    /// ```
    pub fn fill_screen(&self, rows: &mut [HeadRow]) -> Result<usize, Refusal> {
        accepted(lend!(&self.parts, station_screen, rows)).map(|shown| shown as usize)
    }

    /// Chooses the missing block to be asked for now, if one is due, and notes the time at its head.
    /// A head that was asked for is due again `retry` ticks later; `None` is 60 ticks.
    ///
    /// # Errors
    ///
    /// [`Refusal::Shape`] alone, which tables do not meet.
    ///
    /// ```
    /// use station::{HeadSlot, Request, Sequence, Tables};
    ///
    /// let mut tables = Tables::new(4, 2)?;
    /// tables.admit(Sequence(5), &[0x0a; 32], &[0x09; 32], 1)?;
    /// let request = Request { head: HeadSlot(0), sequence: Sequence(4), hash: [0x09; 32] };
    /// assert_eq!(tables.timer(10, None)?, Some(request));
    /// assert_eq!(tables.timer(69, None)?, None);
    /// assert_eq!(tables.earliest_deadline(None)?, Some(70));
    /// # Ok::<(), station::Refusal>(())
    /// ```
    pub fn timer(&mut self, now: u64, retry: Option<u64>) -> Result<Option<Request>, Refusal> {
        let (given, span) = lowered(retry);
        let mut claimed = [0];
        let mut hash = [0; 32];
        let answer =
            lend!(&mut self.parts, station_timer, now, given, span, &mut claimed, &mut hash);
        let sequence = Sequence(claimed[0]);
        Ok(found(accepted(answer)?).map(|head| Request { head: HeadSlot(head), sequence, hash }))
    }

    /// When the first stored head is due, if any is stored. `retry` as in [`timer`](Tables::timer).
    ///
    /// # Errors
    ///
    /// [`Refusal::Shape`] alone, which tables do not meet.
    pub fn earliest_deadline(&self, retry: Option<u64>) -> Result<Option<u64>, Refusal> {
        let (given, span) = lowered(retry);
        let mut time = [0];
        let answer = lend!(&self.parts, station_earliest_deadline, given, span, &mut time);
        Ok(is_yes(accepted(answer)?).then_some(time[0]))
    }

    /// After the station restarted: sets the counts from the blocks alone, then makes the heads anew,
    /// which arrive `now` and have no request and no missing hash noted.
    ///
    /// # Errors
    ///
    /// [`Refusal::Shape`] alone, which tables do not meet.
    pub fn restart(&mut self, now: u64) -> Result<(), Refusal> {
        let active = self.parts.active;
        accepted(lend!(&mut self.parts, station_restart, active, now)).map(drop)
    }
}

/// Questions. They refuse nothing.
impl Tables {
    /// The number of block slots.
    #[must_use]
    pub fn block_slots(&self) -> usize {
        self.parts.sequences.len()
    }

    /// The number of head slots.
    #[must_use]
    pub fn head_slots(&self) -> usize {
        self.parts.tips.len()
    }

    /// The slot of the active head.
    #[must_use]
    pub fn active_head(&self) -> Option<BlockSlot> {
        found(self.parts.active).map(BlockSlot)
    }

    /// The blocks, with their slots, in slot order.
    pub fn blocks(&self) -> impl Iterator<Item = (BlockSlot, Block)> {
        slots(self.block_slots())
            .map(BlockSlot)
            .filter_map(|slot| self.get(slot).map(|block| (slot, block)))
    }

    /// The block in this slot.
    #[must_use]
    pub fn get(&self, slot: BlockSlot) -> Option<Block> {
        let Parts { hashes, parents, sequences, counts, flags, .. } = &self.parts;
        let mut hash = [0; 32];
        let mut words = [0; 4];
        let there = raw::station_get(
            hashes, parents, sequences, counts, flags, slot.0, &mut hash, &mut words,
        );
        let [parent, sequence, count, flags] = words;
        is_yes(there).then(|| Block {
            hash,
            parent: found(parent).map(BlockSlot),
            sequence: Sequence(sequence),
            count: count as u8,
            active: flags & 1 == 1,
        })
    }

    /// The lowest slot with a block of this sequence and hash.
    #[must_use]
    pub fn find(&self, sequence: Sequence, hash: &Hash) -> Option<BlockSlot> {
        let Parts { hashes, sequences, .. } = &self.parts;
        found(raw::station_find(hashes, sequences, sequence.0, hash)).map(BlockSlot)
    }

    /// The lowest slot with the parent of a block of this sequence and previous hash.
    #[must_use]
    pub fn find_parent(&self, sequence: Sequence, previous: &Hash) -> Option<BlockSlot> {
        let Parts { hashes, sequences, .. } = &self.parts;
        found(raw::station_find_parent(hashes, sequences, sequence.0, previous)).map(BlockSlot)
    }

    /// The lowest empty slot.
    #[must_use]
    pub fn next_free(&self) -> Option<BlockSlot> {
        found(raw::station_next_free_index(&self.parts.sequences)).map(BlockSlot)
    }

    /// The count of the block in this slot.
    #[must_use]
    pub fn head_ref_count(&self, slot: BlockSlot) -> Option<u8> {
        let Parts { sequences, counts, .. } = &self.parts;
        found(raw::station_head_ref_count(sequences, counts, slot.0)).map(|count| count as u8)
    }

    /// The status of the block in this slot.
    #[must_use]
    pub fn status(&self, slot: BlockSlot) -> Option<Status> {
        let Parts { sequences, flags, .. } = &self.parts;
        found(raw::station_status(sequences, flags, slot.0)).map(|status| match status {
            1 => Status::Connected,
            2 => Status::Active,
            _ => Status::Stored,
        })
    }

    /// The slots of the block in this slot and of all above it, in slot order: those that
    /// [`remove`](Tables::remove) would free.
    #[must_use]
    pub fn subtree(&self, root: BlockSlot) -> Vec<BlockSlot> {
        let Parts { parents, sequences, .. } = &self.parts;
        let mut list = vec![0; sequences.len()];
        let listed = raw::station_mark_subtree(parents, sequences, root.0, &mut list);
        list.into_iter().take(listed as usize).map(BlockSlot).collect()
    }

    /// Whether the parent walk from this slot meets the active chain.
    #[must_use]
    pub fn walks_to_active_chain(&self, slot: BlockSlot) -> bool {
        let Parts { parents, sequences, flags, .. } = &self.parts;
        is_yes(raw::station_walks_to_active_chain(parents, sequences, flags, slot.0))
    }

    /// Where the parent walk from this slot ends.
    #[must_use]
    pub fn locate_anchor(&self, slot: BlockSlot) -> Anchor {
        let Parts { parents, sequences, flags, .. } = &self.parts;
        let answer = raw::station_locate_anchor(parents, sequences, flags, slot.0);
        let at = BlockSlot(answer as u32);
        if answer >> 32 == 1 { Anchor::Connection(at) } else { Anchor::Tail(at) }
    }

    /// The heads in use, in slot order.
    pub fn heads(&self) -> impl Iterator<Item = Head> {
        slots(self.head_slots()).map(HeadSlot).filter_map(|slot| self.head(slot))
    }

    /// The head in this slot.
    #[must_use]
    pub fn head(&self, slot: HeadSlot) -> Option<Head> {
        let Parts { tips, tails, missing, requested, arrivals, connected, .. } = &self.parts;
        let k = slot.0 as usize;
        let cell = |field: &[u32]| field.get(k).copied().and_then(found).map(BlockSlot);
        let time = |field: &[u64]| field.get(k).copied().unwrap_or(0);
        Some(Head {
            slot,
            tip: cell(tips)?,
            anchor: cell(tails),
            connected: connected.get(k).is_some_and(|bits| bits & 1 == 1),
            missing: core::array::from_fn(|i| missing.get(32 * k + i).copied().unwrap_or(0)),
            requested: time(requested),
            arrival: time(arrivals),
        })
    }

    /// The head screen: a record for each head in use, in the order of
    /// [`fill_screen`](Tables::fill_screen). It shows the tables as they stand when it is asked for, and
    /// does not borrow them.
    ///
    /// ```
    /// use station::{HeadKind, Refusal, Sequence, Tables};
    ///
    /// let mut tables = Tables::new(4, 2)?;
    /// let pass = tables.admit(Sequence(5), &[0x0a; 32], &[0x09; 32], 1)?;
    /// tables.promote(pass)?;
    /// let stray = tables.admit(Sequence(7), &[0x0d; 32], &[0x0e; 32], 2)?;
    /// let shown: Vec<_> = tables.screen().map(|row| (row.tip(), row.kind())).collect();
    /// assert_eq!(shown, [(stray, HeadKind::Stored), (pass, HeadKind::Connected)]);
    /// # Ok::<(), Refusal>(())
    /// ```
    pub fn screen(&self) -> impl Iterator<Item = HeadRow> + use<> {
        let mut rows = [HeadRow::default(); MOST_HEADS];
        let shown = self.fill_screen(&mut rows).expect("a list for all heads");
        rows.into_iter().take(shown)
    }

    /// How many heads are in use.
    #[must_use]
    pub fn head_count(&self) -> usize {
        raw::station_count(&self.parts.tips) as usize
    }

    /// Whether a head in use is stored, which is to say not connected.
    #[must_use]
    pub fn has_stored_head(&self) -> bool {
        let Parts { tips, connected, .. } = &self.parts;
        is_yes(raw::station_has_stored_head(tips, connected))
    }

    /// The lowest head slot that has this block as its tip.
    #[must_use]
    pub fn head_of(&self, tip: BlockSlot) -> Option<HeadSlot> {
        found(raw::station_slot_of_head(&self.parts.tips, tip.0)).map(HeadSlot)
    }
}

fn lowered(retry: Option<u64>) -> (u32, u64) {
    (u32::from(retry.is_some()), retry.unwrap_or(0))
}

fn is_yes(answer: u32) -> bool {
    answer == 1
}

/// All slots of a table with so many; [`NONE_REF`] names none.
fn slots(number: usize) -> core::ops::Range<u32> {
    0..u32::try_from(number).unwrap_or(NONE_REF)
}
