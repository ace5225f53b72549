use core::error::Error;
use core::fmt;

/// Why a call was refused. A refused call has changed nothing.
///
/// Where several of the refusals 1 to 10 apply, the one with the lowest number is given. Those from 100
/// on are given to what was loaded, and by no call.
///
/// ```
/// use station::{Refusal, Tables};
///
/// let refusal = Tables::new(1024, 65).unwrap_err();
/// assert_eq!(refusal, Refusal::Shape);
/// assert_eq!(refusal.number(), 1);
/// ```
#[derive(Debug, Clone, Copy, PartialEq, Eq, Hash)]
#[non_exhaustive]
pub enum Refusal {
    /// 1, every call of the archive, and so [`Tables::new`](crate::Tables::new) and
    /// [`from_parts`](crate::Tables::from_parts): the block slots are not 1 to 1,024, the head slots are
    /// not 2 to 64, or a buffer's length does not fit them.
    Shape = 1,
    /// 2, admit: the block's hash or its previous hash is not exactly 32 bytes.
    HashLength = 2,
    /// 3, promote, remove and under: the slot is out of range, or empty.
    NoBlock = 3,
    /// 4, admit: the sequence is 4,294,967,295, the reserved mark.
    ReservedSequence = 4,
    /// 5, admit: the block's own hash is 32 zero bytes. A zero previous hash is allowed.
    ZeroHash = 5,
    /// 6, admit: an occupied slot has this sequence and hash.
    Known = 6,
    /// 7, admit: no block slot is empty, even if an eviction would empty one.
    Full = 7,
    /// 8, promote: there is an active head, and it is not the block's parent.
    NotNext = 8,
    /// 9, remove: the slot's subtree has a block on the active chain.
    HoldsActive = 9,
    /// 10, [`Tables::fill_screen`](crate::Tables::fill_screen): the list has fewer records than there are
    /// head slots, however many heads are in use.
    ShortList = 10,
    /// 100, [`Tables::from_bytes`](crate::Tables::from_bytes): the bytes are not those of tables of this
    /// layout, or not as many as their slots need.
    Store = 100,
    /// 101, [`Tables::from_bytes`](crate::Tables::from_bytes) and
    /// [`from_parts`](crate::Tables::from_parts): the record does not name the last block of the active
    /// chain, or names a block where none is active.
    Record = 101,
}

impl Refusal {
    /// All refusals, in the order of their numbers.
    pub const ALL: [Refusal; 12] = [
        Refusal::Shape,
        Refusal::HashLength,
        Refusal::NoBlock,
        Refusal::ReservedSequence,
        Refusal::ZeroHash,
        Refusal::Known,
        Refusal::Full,
        Refusal::NotNext,
        Refusal::HoldsActive,
        Refusal::ShortList,
        Refusal::Store,
        Refusal::Record,
    ];

    /// The refusal's number.
    #[must_use]
    pub fn number(self) -> u32 {
        self as u32
    }

    /// The refusal of this number.
    #[must_use]
    pub fn from_number(number: u32) -> Option<Refusal> {
        Refusal::ALL.into_iter().find(|refusal| refusal.number() == number)
    }
}

impl fmt::Display for Refusal {
    fn fmt(&self, f: &mut fmt::Formatter) -> fmt::Result {
        f.write_str(match self {
            Refusal::Shape => {
                "the tables are not of 1 to 1,024 block slots and 2 to 64 head slots, \
                 or a buffer's length does not fit them"
            }
            Refusal::HashLength => "the block's hash or its previous hash is not 32 bytes long",
            Refusal::NoBlock => "the slot is out of range or empty",
            Refusal::ReservedSequence => "the sequence 4,294,967,295 is reserved",
            Refusal::ZeroHash => "the block's hash is all zeros",
            Refusal::Known => "a block with this sequence and hash is already there",
            Refusal::Full => "no block slot is empty",
            Refusal::NotNext => "the block's parent is not the active head",
            Refusal::HoldsActive => "the slot's subtree has a block on the active chain",
            Refusal::ShortList => "the list has fewer records than there are head slots",
            Refusal::Store => "what was loaded is no store of this layout and of this many slots",
            Refusal::Record => "the record is not the last block of the active chain",
        })
    }
}

impl Error for Refusal {}

/// The lower half of an answer, or the refusal in its upper half.
// Left out of line it costs each call a nanosecond.
#[inline]
pub(crate) fn accepted(answer: u64) -> Result<u32, Refusal> {
    match (answer >> 32) as u32 {
        0 => Ok(answer as u32),
        number => Err(Refusal::from_number(number).expect("the calls refuse by 1 to 10")),
    }
}
