//! Fields read by whole words: eight bytes at once, the first in the lowest.
//!
//! Every record read here has passed the character test, so no byte is above
//! 126. A numeric field is first turned to digits, '0' to 0, and those of
//! several lines are added column by column, with no carry from one column to
//! the next: a byte holds what 28 lines can bring it to, 28 times 9. What the
//! columns are worth is worked out once, after the last line.

use crate::layout::{Record, AMOUNT};

/// The bytes from `position` on, of which the record must have as many.
#[inline(always)]
pub fn bytes<const WIDTH: usize>(record: &Record, position: usize) -> [u8; WIDTH] {
    let mut bytes = [0; WIDTH];
    bytes.copy_from_slice(&record[position - 1..position - 1 + WIDTH]);
    bytes
}

/// Eight bytes from `position` on.
#[inline(always)]
pub fn word(record: &Record, position: usize) -> u64 {
    u64::from_le_bytes(bytes(record, position))
}

/// '0' to '9' become 0 to 9; any other character becomes 10 to 127.
#[inline(always)]
fn digits(record: &Record, position: usize) -> u64 {
    word(record, position) ^ each(b'0')
}

/// This byte eight times.
pub const fn each(byte: u8) -> u64 {
    byte as u64 * 0x0101_0101_0101_0101
}

/// Has the top bit of each byte that is 10 or more; none is above 127.
#[inline(always)]
fn above_nine(digits: u64) -> u64 {
    digits.wrapping_add(each(128 - 10))
}

/// Whether all these words are digits.
#[inline(always)]
pub fn all_digits<const WORDS: usize>(words: [u64; WORDS]) -> bool {
    words.iter().fold(0, |beyond, &word| beyond | above_nine(word)) & each(128) == 0
}

/// What eight digits are worth: neighbours join, eight digits to four pairs,
/// two fours, one eight. The multiplication adds 10, 100, 10000 times a part
/// to the part after it.
#[inline(always)]
fn value(digits: u64) -> u64 {
    let pairs = (digits.wrapping_mul((10 << 8) + 1) >> 8) & 0x00FF_00FF_00FF_00FF;
    let fours = (pairs.wrapping_mul((100 << 16) + 1) >> 16) & 0x0000_FFFF_0000_FFFF;
    fours.wrapping_mul((10_000 << 32) + 1) >> 32
}

/// The same of eight columns up to 255, whose pairs need two bytes.
#[inline(always)]
fn worth(columns: u64) -> u64 {
    const BYTES: u64 = 0x00FF_00FF_00FF_00FF;
    const PAIRS: u64 = 0x0000_FFFF_0000_FFFF;
    let pairs = (columns & BYTES) * 10 + (columns >> 8 & BYTES);
    let fours = (pairs & PAIRS) * 100 + (pairs >> 16 & PAIRS);
    (fours & 0xFFFF_FFFF) * 10_000 + (fours >> 32)
}

/// The count of seven digits that starts at `position`, which is 2 or more.
#[inline(always)]
pub fn count(record: &Record, position: usize) -> Option<u64> {
    // The byte before it counts as a zero.
    let digits = digits(record, position - 1) >> 8 << 8;
    all_digits([digits]).then(|| value(digits))
}

/// The amount that starts at `position`, or `None` at a non-digit.
#[inline(always)]
pub fn amount(record: &Record, position: usize) -> Option<u64> {
    let amount = Amount::read(record, position);
    all_digits([amount.high, amount.low]).then(|| amount.joined(value))
}

/// Fifteen columns: the first eight and the last eight, so that the middle one
/// is in both words.
#[derive(Clone, Copy)]
struct Amount {
    high: u64,
    low: u64,
}

impl Amount {
    const ZERO: Amount = Amount { high: 0, low: 0 };

    #[inline(always)]
    fn read(record: &Record, position: usize) -> Amount {
        Amount { high: digits(record, position), low: digits(record, position + AMOUNT - 8) }
    }

    #[inline(always)]
    fn plus(self, other: Amount) -> Amount {
        Amount { high: self.high + other.high, low: self.low + other.low }
    }

    /// What the columns are worth, by what eight are; below a million euros
    /// the last eight are all.
    #[inline(always)]
    fn joined(self, eight: impl Fn(u64) -> u64) -> u64 {
        match self.high << 8 {
            0 => eight(self.low),
            first_seven => eight(first_seven) * 100_000_000 + eight(self.low),
        }
    }
}

/// A debit and the credit that follows it: those of a line, or the totals of a
/// balance record.
#[derive(Clone, Copy)]
pub struct Amounts {
    debit: Amount,
    credit: Amount,
}

impl Amounts {
    /// `None` at a non-digit.
    #[inline(always)]
    pub fn read(record: &Record, position: usize) -> Option<Amounts> {
        let debit = Amount::read(record, position);
        let credit = Amount::read(record, position + AMOUNT);
        let digits = all_digits([debit.high, debit.low, credit.high, credit.low]);
        digits.then_some(Amounts { debit, credit })
    }

    #[inline(always)]
    pub fn both_zero(self) -> bool {
        self.debit.high | self.debit.low | self.credit.high | self.credit.low == 0
    }

    #[inline(always)]
    pub fn credit_zero(self) -> bool {
        self.credit.high | self.credit.low == 0
    }

    /// The debit and the credit.
    #[inline(always)]
    pub fn values(self) -> (u64, u64) {
        (self.debit.joined(value), self.credit.joined(value))
    }
}

/// The debits and credits of several lines, added column by column.
#[derive(Clone, Copy)]
pub struct Columns {
    debits: Amount,
    credits: Amount,
}

impl Columns {
    pub const ZERO: Columns = Columns { debits: Amount::ZERO, credits: Amount::ZERO };

    #[inline(always)]
    pub fn plus(self, line: Amounts) -> Columns {
        Columns { debits: self.debits.plus(line.debit), credits: self.credits.plus(line.credit) }
    }

    /// The sum of the debits and that of the credits.
    #[inline(always)]
    pub fn sums(self) -> (u64, u64) {
        (self.debits.joined(worth), self.credits.joined(worth))
    }
}
