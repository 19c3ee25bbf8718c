//! Head and tail.

use crate::faults::{ensure, seven, unexpected, Fault, Kind};
use crate::layout::*;
use crate::walk::Walk;
use crate::words::{amount, bytes, count};

/// "F4: creation date at 14-19" and the name, in the order 7, 16, 17.
pub fn judge_head(record: &Record) -> Result<(), Fault> {
    if bytes(record, TYPE) != *b"F4" {
        return Err(unexpected(record, None, false));
    }
    let date: [u8; DAY] = bytes(record, DATE);
    if !date.iter().all(u8::is_ascii_digit) {
        return Err(seven(record, Kind::Head));
    }
    let breaks_rule = |broken, &byte: &u8| broken | (byte == b'/') | (byte == b':');
    ensure(!name(record).iter().fold(false, breaks_rule), 16, NAME)?;
    let two = |at: usize| 10 * (date[at] - b'0') + (date[at + 1] - b'0');
    ensure(exists(two(0), two(2), two(4)), 17, DATE)
}

/// "A date is valid only if the day exists in that month", as document 02
/// amends the rule. Most days exist in every month.
#[inline(always)]
fn exists(day: u8, month: u8, year: u8) -> bool {
    let last = if day <= 28 { 28 } else { last_day(month, year) };
    (1..=12).contains(&month) && (1..=last).contains(&day)
}

/// Months of 31 days and of 30 take turns, and begin anew with August; "with a
/// leap year each fourth", of which 00 is the first.
#[inline(always)]
fn last_day(month: u8, year: u8) -> u8 {
    match month {
        2 => 28 + u8::from(year % 4 == 0),
        _ => 30 + (month + month / 8) % 2,
    }
}

#[inline(always)]
fn name(record: &Record) -> [u8; NAME_WIDTH] {
    bytes(record, NAME)
}

impl Walk<'_> {
    /// "number of deleghe, number of records with head and tail (EF's own
    /// record number), and the sum of all final balances"
    #[inline(always)]
    pub fn tail(&self, head: &Record, tail: &Record) -> Result<(), Fault> {
        let fields = (count(tail, TAIL_DELEGHE), amount(tail, TAIL_SUM), count(tail, TAIL_RECORDS));
        let (deleghe, sum, records) = match fields {
            (Some(deleghe), Some(sum), Some(records)) => (deleghe, sum, records),
            _ => return Err(seven(tail, Kind::Tail)),
        };
        ensure(name(head) == name(tail), 16, NAME)?;
        ensure(deleghe == self.deleghe, 18, TAIL_DELEGHE)?;
        ensure(records == (self.passed() / RECORD + 1) as u64, 19, TAIL_RECORDS)?;
        ensure(sum == self.total, 20, TAIL_SUM)
    }
}
