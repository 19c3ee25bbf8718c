//! A delega's number as its records carry it.

use crate::layout::{Record, TYPE};
use crate::words::{bytes, word};

/// Eight digits, as a word of a record has them from position 3 on: the types
/// of all records of a delega end in a zero.
#[derive(Clone, Copy)]
pub struct Number(u64);

/// Type 40 or 50, and the number's first two digits, which are zeros since no
/// flow has room for 100,000 deleghe.
pub const FORTY: &[u8; 4] = b"4000";
pub const FIFTY: &[u8; 4] = b"5000";

impl Number {
    pub const ZERO: Number = Number(u64::from_le_bytes(*b"00000000"));

    /// One more; the last digit is in the highest byte.
    #[inline(always)]
    pub fn next(self) -> Number {
        let mut place = 56;
        let mut digits = self.0 + (1 << place);
        while (digits >> place) as u8 > b'9' {
            digits -= 10 << place;
            place -= 8;
            digits += 1 << place;
        }
        Number(digits)
    }

    /// Whether the record is this delega's 10 or 20, by its type's first digit.
    #[inline(always)]
    pub fn is_in(self, record: &Record, first: u8) -> bool {
        word(record, TYPE + 1) == self.0 && record[TYPE - 1] == first
    }

    /// Whether the record is this delega's 40 or 50 with this subtype.
    #[inline(always)]
    pub fn is_in_part(self, record: &Record, kind: &[u8; 4], subtype: [u8; 2]) -> bool {
        let subtype = u64::from(u16::from_le_bytes(subtype));
        bytes(record, TYPE) == *kind && word(record, TYPE + 3) == (self.0 >> 16 | subtype << 48)
    }
}
