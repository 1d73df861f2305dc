//! Refusals: their numbers, names and sentences, and where a build was refused.

use crate::{mapping_size, Rule};
use core::fmt;

/// Where a build was refused.
#[non_exhaustive]
#[derive(Debug, Clone, Copy, PartialEq, Eq, Hash, Default)]
pub struct Place {
    /// The first address that the entry maps; for 16 to 19 the moved leaf's new address.
    pub address: u64,
    /// The entry's level: 3 in the root table, 4 with five levels. One more for the root itself.
    pub level: u64,
    /// The offset that was asked for, in 12 and 13; else 0.
    pub offset: i64,
}

impl Place {
    /// The bytes that one entry of the level maps; none above level 4.
    pub fn mapping_size(&self) -> Option<u64> {
        mapping_size(self.level).ok()
    }
}

/// A refusal. Displayed it is the sentence, the number, the place and the rule.
#[non_exhaustive]
#[derive(Debug, Clone, Copy, PartialEq, Eq, Hash)]
pub struct Error {
    /// Which: 1 to 20 without 5, which is out of use, 34, or [`Error::NO_MEMORY`].
    pub number: u64,
    /// Where: of a build's 9 to 19, and of no other.
    pub place: Option<Place>,
    /// Of 1 and 8, which several rules share, the one that was broken.
    pub rule: Option<Rule>,
}

impl Error {
    /// The number where memory for the answer can't be had. What works on lent memory never gives it.
    pub const NO_MEMORY: u64 = u64::MAX;

    /// A refusal that has no place.
    pub(crate) fn plain(number: u64) -> Self {
        Error { number, place: None, rule: None }
    }

    /// What a call says that answers with a number alone.
    pub(crate) fn unless_ok(number: u64) -> Result<(), Self> {
        match number {
            0 => Ok(()),
            n => Err(Error::plain(n)),
        }
    }

    /// Of a build's refusal: whether it has a place.
    pub(crate) fn is_placed(number: u64) -> bool {
        (Self::FREE_TAIL..=Self::NO_FREE_TABLE).contains(&number)
    }
}

/// Each refusal once: its name, its number and its sentence.
macro_rules! refusals {
    ($($name:ident = $number:literal, $sentence:literal;)*) => {
        impl Error {
            $(#[doc = $sentence]
            pub const $name: u64 = $number;)*

            /// The refusal in words.
            pub fn sentence(&self) -> &'static str {
                match self.number {
                    $(Self::$name => $sentence,)*
                    Self::NO_MEMORY => "memory for the answer can't be had",
                    _ => "the number is not known",
                }
            }
        }
    };
}

// The names, numbers and sentences of include/archwend.h.
refusals! {
    REGION = 1, "the region is not whole pages, is empty, has more than 512 tables, ends past the bound, or uses more than its size";
    PAGE_LENGTH = 2, "the page data is not 4096 bytes long";
    PAGE_GPA = 3, "the page's address is outside the region, or not a multiple of 4096";
    LENGTHS = 4, "the image is not as long as the used part, or the output is shorter than the region";
    CR3 = 6, "cr3 is not in the region";
    TABLE_OFFSET = 7, "the table offset is not a multiple of 4096, or moves the region out of 0 to the bound";
    RANGES = 8, "the ranges are more than 1024, not words in threes or not ascending, or one is empty, past the bound or over the region";
    FREE_TAIL = 9, "a table, or the page of a load, lies in the free tail of the region";
    SHARED_TABLE = 10, "a table is reached twice";
    INTO_MOVED = 11, "an entry points outside the old region but into the moved one";
    UNALIGNED_OFFSET = 12, "an offset is not a multiple of the size that the entry maps";
    OUT_OF_BOUNDS = 13, "a leaf would move out of 0 to the bound";
    SAME_ADDRESS = 14, "two leaves would move to one address";
    NO_ROOM = 15, "the scratch has no room for another moved leaf, or a list is too short";
    LARGE_IN_THE_WAY = 16, "a large leaf stands in the way of a moved leaf";
    WAY_OUTSIDE = 17, "the way to a moved leaf leaves the moved region";
    OCCUPIED = 18, "a different entry stands where a moved leaf goes";
    NO_FREE_TABLE = 19, "the region has no free table left";
    ENTRY = 20, "the address has a bit that the entry can't hold, the level is above 4, or above 2 for a leaf, or the kind of entry is unknown";
    NOT_COMPARABLE = 34, "two images differ in length, are not whole pages, or are longer than 2097152 bytes";
}

/// A number with its sign before the 0x.
struct SignedHex(i64);

impl fmt::Display for SignedHex {
    fn fmt(&self, f: &mut fmt::Formatter<'_>) -> fmt::Result {
        write!(f, "{}{:#x}", if self.0 < 0 { "-" } else { "" }, self.0.unsigned_abs())
    }
}

impl fmt::Display for Error {
    fn fmt(&self, f: &mut fmt::Formatter<'_>) -> fmt::Result {
        write!(f, "{} (refusal {}", self.sentence(), self.number)?;
        if let Some(place) = self.place {
            let whose = if self.number < Self::LARGE_IN_THE_WAY { "old" } else { "new" };
            write!(f, " at {whose} address {:#x}, level {}", place.address, place.level)?;
            if let Some(size) = place.mapping_size() {
                write!(f, ", which maps {size:#x}")?;
            }
            if let Self::UNALIGNED_OFFSET | Self::OUT_OF_BOUNDS = self.number {
                write!(f, ", offset {}", SignedHex(place.offset))?;
            }
        }
        write!(f, ")")?;
        match self.rule {
            Some(rule) => write!(f, ": {rule}"),
            None => Ok(()),
        }
    }
}

#[cfg(feature = "std")]
impl std::error::Error for Error {}
