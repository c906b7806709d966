use std::fmt;

/// Why a call was refused, by the numbers of docs/REFUSALS.md. A refused call has changed nothing.
///
/// ```
/// # use marlbrace::{IpNet, Refusal};
/// let no = "10.0.0.0/33".parse::<IpNet>().unwrap_err();
/// assert_eq!((no, no.number(), no.to_string()), (Refusal::BadText, 4, "the line is not a network".to_string()));
/// let error: Box<dyn std::error::Error> = no.into();
/// # assert_eq!(error.downcast_ref(), Some(&no));
/// ```
#[derive(Clone, Copy, Debug, PartialEq, Eq, Hash)]
#[repr(u8)]
pub enum Refusal {
    /// The family, the sets, the nodes, a share or a limit is outside the rules.
    BadSetup = 1,
    /// The words are no sound pool.
    Damaged = 2,
    /// There is no set of that number.
    NoSet = 3,
    /// The line is not a network.
    BadText = 4,
    /// The bytes are not a set file.
    BadFile = 5,
    /// The family is not the pool's; of two files, they have different ones.
    WrongFamily = 6,
    /// The length is outside the family's range.
    BadNetwork = 7,
    /// The destination is not empty.
    Occupied = 8,
    /// The result has more nodes than the set's limit.
    OverLimit = 9,
    /// The result has more nodes than the pool has room for.
    NoRoom = 10,
    /// The output does not fit.
    ShortBuffer = 11,
    /// The first address is above the last.
    BadRange = 12,
    /// The share and the limit do not fit the set and the pool.
    BadShare = 13,
    /// The set is public-only, and the result would overlap an inner network.
    NotPublic = 14,
}

use Refusal::*;

impl Refusal {
    /// All of them, in the order of their numbers.
    pub const ALL: [Refusal; 14] =
        [BadSetup, Damaged, NoSet, BadText, BadFile, WrongFamily, BadNetwork, Occupied, OverLimit, NoRoom, ShortBuffer, BadRange, BadShare, NotPublic];

    /// The number of the table.
    pub fn number(self) -> u8 {
        self as u8
    }

    pub(crate) fn of(number: u64) -> Refusal {
        Refusal::ALL[number as usize - 1]
    }
}

impl fmt::Display for Refusal {
    fn fmt(&self, f: &mut fmt::Formatter) -> fmt::Result {
        f.write_str(match self {
            BadSetup => "the family, the sets, the nodes, a share or a limit is outside the rules",
            Damaged => "the memory is no sound pool",
            NoSet => "there is no set of that number",
            BadText => "the line is not a network",
            BadFile => "the bytes are not a set file",
            WrongFamily => "the family is not the pool's",
            BadNetwork => "the length or the address is outside the family's range",
            Occupied => "the destination is not empty",
            OverLimit => "the result has more nodes than the set's limit",
            NoRoom => "the result has more nodes than the pool has room for",
            ShortBuffer => "the output does not fit",
            BadRange => "the first address is above the last",
            BadShare => "the share and the limit do not fit the set and the pool",
            NotPublic => "the result would overlap an inner network",
        })
    }
}

impl std::error::Error for Refusal {}
