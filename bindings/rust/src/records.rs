use crate::raw;
use core::cmp::Ordering;
use core::fmt;

/// The number that names no slot. It is also the sequence of an empty block slot, which no block may
/// have.
pub const NONE_REF: u32 = u32::MAX;

/// The number, where it is not [`NONE_REF`].
pub(crate) fn found(number: u32) -> Option<u32> {
    (number != NONE_REF).then_some(number)
}

/// The 32 bytes of a hash. Hashes are ordered from their first byte on.
pub type Hash = [u8; 32];

/// A place in the block table.
#[derive(Debug, Clone, Copy, PartialEq, Eq, PartialOrd, Ord, Hash)]
pub struct BlockSlot(pub u32);

/// A place in the head table.
#[derive(Debug, Clone, Copy, PartialEq, Eq, PartialOrd, Ord, Hash)]
pub struct HeadSlot(pub u32);

/// A block's sequence number. A parent's is one lower than its child's.
#[derive(Debug, Clone, Copy, PartialEq, Eq, PartialOrd, Ord, Hash)]
pub struct Sequence(pub u32);

impl fmt::Display for BlockSlot {
    fn fmt(&self, f: &mut fmt::Formatter) -> fmt::Result {
        self.0.fmt(f)
    }
}

impl fmt::Display for HeadSlot {
    fn fmt(&self, f: &mut fmt::Formatter) -> fmt::Result {
        self.0.fmt(f)
    }
}

impl fmt::Display for Sequence {
    fn fmt(&self, f: &mut fmt::Formatter) -> fmt::Result {
        self.0.fmt(f)
    }
}

/// A hash as hexadecimal digits in one word.
struct Digits<'a>(&'a Hash);

impl fmt::Debug for Digits<'_> {
    fn fmt(&self, f: &mut fmt::Formatter) -> fmt::Result {
        self.0.iter().try_for_each(|byte| write!(f, "{byte:02x}"))
    }
}

/// A stored block.
#[derive(Clone, Copy, PartialEq, Eq, Hash)]
pub struct Block {
    /// The block's own hash.
    pub hash: Hash,
    /// The slot of its parent, if that is there.
    pub parent: Option<BlockSlot>,
    /// Its sequence number.
    pub sequence: Sequence,
    /// How many children keep it, 1 for a tip. On the active chain it may be another number.
    pub count: u8,
    /// Whether it is on the active chain.
    pub active: bool,
}

impl fmt::Debug for Block {
    fn fmt(&self, f: &mut fmt::Formatter) -> fmt::Result {
        f.debug_struct("Block")
            .field("hash", &Digits(&self.hash))
            .field("parent", &self.parent)
            .field("sequence", &self.sequence)
            .field("count", &self.count)
            .field("active", &self.active)
            .finish()
    }
}

/// How far the station has come with a block.
#[derive(Debug, Clone, Copy, PartialEq, Eq, Hash)]
pub enum Status {
    /// Stored alone.
    Stored,
    /// Connected to the active chain.
    Connected,
    /// On the active chain.
    Active,
}

/// A head: the tip of a branch, and where the branch stands.
#[derive(Clone, Copy, PartialEq, Eq, Hash)]
pub struct Head {
    /// The head's own slot.
    pub slot: HeadSlot,
    /// The slot of the branch's last block.
    pub tip: BlockSlot,
    /// Where the tip's parent walk first meets the active chain, or else where it ends.
    pub anchor: Option<BlockSlot>,
    /// Whether that walk meets the active chain; otherwise the head is stored.
    pub connected: bool,
    /// The hash of the block that a stored head waits for.
    pub missing: Hash,
    /// When that block was last asked for, 0 for never.
    pub requested: u64,
    /// When the head's last block came.
    pub arrival: u64,
}

impl fmt::Debug for Head {
    fn fmt(&self, f: &mut fmt::Formatter) -> fmt::Result {
        f.debug_struct("Head")
            .field("slot", &self.slot)
            .field("tip", &self.tip)
            .field("anchor", &self.anchor)
            .field("connected", &self.connected)
            .field("missing", &Digits(&self.missing))
            .field("requested", &self.requested)
            .field("arrival", &self.arrival)
            .finish()
    }
}

/// A record of the head screen: a branch's tip and its sequence, and where the branch stands. A list
/// to be filled is made of `HeadRow::default()`, the record of no head.
// The archive writes it as it lies in memory: `raw` asserts the layout.
#[derive(Clone, Copy, PartialEq, Eq, Hash)]
#[repr(C)]
pub struct HeadRow {
    pub(crate) tip: u32,
    pub(crate) sequence: u32,
    pub(crate) kind: u32,
    pub(crate) anchor: u32,
}

impl HeadRow {
    /// The slot of the branch's last block.
    #[must_use]
    pub fn tip(&self) -> BlockSlot {
        BlockSlot(self.tip)
    }

    /// The sequence of that block. Only in damaged tables is there none: the slot is empty or out of
    /// range.
    #[must_use]
    pub fn sequence(&self) -> Option<Sequence> {
        found(self.sequence).map(Sequence)
    }

    /// Whether the head is connected or stored.
    #[must_use]
    pub fn kind(&self) -> HeadKind {
        if self.kind == 1 { HeadKind::Connected } else { HeadKind::Stored }
    }

    /// Where the tip's parent walk first meets the active chain, or else where it ends.
    #[must_use]
    pub fn anchor(&self) -> Option<BlockSlot> {
        found(self.anchor).map(BlockSlot)
    }
}

impl Default for HeadRow {
    fn default() -> HeadRow {
        HeadRow { tip: NONE_REF, sequence: NONE_REF, kind: 0, anchor: NONE_REF }
    }
}

impl fmt::Debug for HeadRow {
    fn fmt(&self, f: &mut fmt::Formatter) -> fmt::Result {
        f.debug_struct("HeadRow")
            .field("tip", &self.tip())
            .field("sequence", &self.sequence())
            .field("kind", &self.kind())
            .field("anchor", &self.anchor())
            .finish()
    }
}

/// What kind of head a branch has.
#[derive(Debug, Clone, Copy, PartialEq, Eq, Hash)]
pub enum HeadKind {
    /// The branch waits for a missing block.
    Stored,
    /// The branch meets the active chain.
    Connected,
}

/// Where a parent walk ends.
#[derive(Debug, Clone, Copy, PartialEq, Eq, Hash)]
pub enum Anchor {
    /// At the first block on the active chain.
    Connection(BlockSlot),
    /// At the last block of a walk that does not meet the active chain.
    Tail(BlockSlot),
}

/// How much hangs under a block.
#[derive(Debug, Clone, Copy, PartialEq, Eq, Hash)]
pub struct Under {
    /// How many blocks, itself among them.
    pub blocks: usize,
    /// The highest sequence among them.
    pub highest: Sequence,
}

/// A missing block to ask for.
// In this order the hash is moved as a whole: nothing of another answer lies over its first byte.
#[derive(Clone, Copy, PartialEq, Eq, Hash)]
#[repr(C)]
pub struct Request {
    /// The stored head that waits for it.
    pub head: HeadSlot,
    /// The sequence that it should have.
    pub sequence: Sequence,
    /// Its hash.
    pub hash: Hash,
}

impl fmt::Debug for Request {
    fn fmt(&self, f: &mut fmt::Formatter) -> fmt::Result {
        f.debug_struct("Request")
            .field("head", &self.head)
            .field("sequence", &self.sequence)
            .field("hash", &Digits(&self.hash))
            .finish()
    }
}

/// The weight of a branch. The greater goes before the lesser, so the heaviest is the `max`.
///
/// ```
/// use station::Rank;
///
/// let heavy = Rank { value: 9, length: 3, hash: [2; 32] };
/// let light = Rank { value: 8, length: 7, hash: [1; 32] };
/// assert!(heavy.outranks(&light));
/// assert_eq!([light, heavy].into_iter().max(), Some(heavy));
/// ```
#[derive(Clone, Copy, PartialEq, Eq, Hash)]
pub struct Rank {
    /// The value of the branch.
    pub value: u64,
    /// Its length, which settles equal values.
    pub length: u16,
    /// The hash of its tip, which settles equal lengths.
    pub hash: Hash,
}

impl Rank {
    /// Whether this branch goes before the other: by higher value, then greater length, then lower
    /// hash.
    #[must_use]
    pub fn outranks(&self, other: &Rank) -> bool {
        let &Rank { value, length, ref hash } = self;
        raw::station_outranks(value, length, hash, other.value, other.length, &other.hash) == 1
    }
}

impl Ord for Rank {
    fn cmp(&self, other: &Rank) -> Ordering {
        self.outranks(other).cmp(&other.outranks(self))
    }
}

impl PartialOrd for Rank {
    fn partial_cmp(&self, other: &Rank) -> Option<Ordering> {
        Some(self.cmp(other))
    }
}

impl fmt::Debug for Rank {
    fn fmt(&self, f: &mut fmt::Formatter) -> fmt::Result {
        f.debug_struct("Rank")
            .field("value", &self.value)
            .field("length", &self.length)
            .field("hash", &Digits(&self.hash))
            .finish()
    }
}
