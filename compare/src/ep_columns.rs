//! The columns of the F24 EP form's records M and V, copied from the tables of
//! document 001. Nothing here is shared with the library or the reference.

pub const RECORD: usize = 1900;
pub const MOST_RECORDS: usize = 10_000;

/// The most that a debit or a final balance can be, and a total's text.
pub const MOST_DEBIT: u64 = 999_999_999_999_999;
pub const MOST_TOTAL: u64 = 99_999_999_999_999;

pub const ROWS: usize = 28;

/// Where each row has its type and its debit.
#[rustfmt::skip]
pub const TYPE_AT: [usize; ROWS] = [
    100, 156, 212, 268, 324, 380, 436, 492, 548, 604, 660, 716, 772, 828, 884, 940, 996, 1052, 1108, 1164, 1220, 1276,
    1332, 1388, 1444, 1500, 1556, 1612,
];
#[rustfmt::skip]
pub const DEBIT_AT: [usize; ROWS] = [
    141, 197, 253, 309, 365, 421, 477, 533, 589, 645, 701, 757, 813, 869, 925, 981, 1037, 1093, 1149, 1205, 1261, 1317,
    1373, 1429, 1485, 1541, 1597, 1653,
];

/// In V: the section's debits and balance, which nobody reads, and the final balance.
pub const SECTION_DEBITS: usize = 1738;
pub const SECTION_BALANCE: usize = 1769;
pub const FINAL_BALANCE: usize = 1788;

/// In M: the total's text.
pub const TOTAL: usize = 1873;

/// How wide a debit, a balance and the text are.
pub const WIDTH: usize = 15;

/// So many bytes of a record from a position on, which counts from 1.
pub fn field(record: &[u8], position: usize) -> &[u8] {
    &record[position - 1..position - 1 + WIDTH]
}

pub fn put(record: &mut [u8], position: usize, bytes: &[u8]) {
    record[position - 1..position - 1 + bytes.len()].copy_from_slice(bytes);
}

/// Writes an amount of at most fifteen digits.
pub fn put_amount(record: &mut [u8], position: usize, amount: u64) {
    put(record, position, format!("{amount:015}").as_bytes());
}
