//! Records that are lent to a call: right ones, and wrong ones of many sorts. What
//! a sort comes to may be right by luck.

use crate::calls::{Record, SUMS_ROOM};
use crate::columns::{COUNT, DELEGA, RECORD};
use crate::kept;
use crate::rng::Rng;
use crate::sound::{self, get, Size};

/// What a record is made from.
pub struct Around<'a> {
    pub flow: &'a [u8],
    /// The sums of its lines.
    pub right: Record,
    /// What the call before handed back, and what it was before the last one that
    /// was done.
    pub handed: Record,
    pub before: Record,
    /// What the call would leave.
    pub after: Record,
}

type Make = fn(&mut Rng, &Around) -> Record;

/// The sorts of records. The first is drawn most, the last never: what was handed back
/// is of this sort where it is not right any more.
pub const SORTS: [(Make, &str); 31] = [
    (|_, around| around.handed, "handed back"),
    (|_, around| around.right, "made anew"),
    (cent_more, "one sum a cent more"),
    (cent_less, "one sum a cent less"),
    (largest_by_cent, "the largest sum by a cent"),
    (one_zero, "one sum zero"),
    (one_other, "one sum another"),
    (one_digit, "one digit another"),
    (one_bit, "one bit another"),
    (two_bits, "the same bit of two sums"),
    (more_and_less, "one more, another less"),
    (both_more, "both of a section one more"),
    (section_exchanged, "debit and credit exchanged"),
    (all_exchanged, "all debits and credits exchanged"),
    (sections_exchanged, "two sections exchanged"),
    (moved, "moved on"),
    (debits_first, "five debits, then five credits"),
    (|_, _| [0; SUMS_ROOM], "zeros"),
    (debits_alone, "debits alone"),
    (credits_alone, "credits alone"),
    (balances, "balances for sums"),
    (fewer_bits, "right in fewer bits"),
    (fifteen_digits, "right in fifteen digits"),
    (largest, "the largest numbers"),
    (|_, around| around.before, "that of before the last call"),
    (|_, around| around.after, "as the call would leave it"),
    (another_flow, "that of another flow"),
    (without_delega, "without one delega"),
    (|_, around| kept::stored(around.flow), "of the stored totals"),
    (any, "any numbers"),
    (|_, around| around.handed, "stale"),
];

pub const HANDED: usize = 0;
pub const ANEW: usize = 1;
pub const STALE: usize = SORTS.len() - 1;

/// The place of a sort. What was handed back and is not right any more is made anew
/// half of the time.
pub fn any_sort(rng: &mut Rng, is_right: bool) -> usize {
    match rng.below(100) {
        0..=54 if is_right || rng.one_in(2) => HANDED,
        0..=61 => ANEW,
        _ => ANEW + 1 + rng.place(STALE - ANEW - 1),
    }
}

/// The right record with one number changed by something.
fn one(rng: &mut Rng, around: &Around, change: impl FnOnce(&mut Rng, u64) -> u64) -> Record {
    let mut record = around.right;
    let sum = &mut record[rng.place(SUMS_ROOM)];
    *sum = change(rng, *sum);
    record
}

/// Two places that are not the same.
fn two(rng: &mut Rng, among: usize) -> (usize, usize) {
    let first = rng.place(among);
    (first, (first + 1 + rng.place(among - 1)) % among)
}

fn cent_more(rng: &mut Rng, around: &Around) -> Record {
    one(rng, around, |_, sum| sum + 1)
}

fn cent_less(rng: &mut Rng, around: &Around) -> Record {
    one(rng, around, |_, sum| sum.wrapping_sub(1))
}

/// By the cent, if any, that is lost where a large sum is taken for a floating number.
fn largest_by_cent(rng: &mut Rng, around: &Around) -> Record {
    let mut record = around.right;
    if let Some(sum) = record.iter_mut().max() {
        let lost = (*sum + 1) as f64 == *sum as f64;
        *sum = if lost || rng.one_in(2) { *sum + 1 } else { sum.wrapping_sub(1) };
    }
    record
}

fn one_zero(rng: &mut Rng, around: &Around) -> Record {
    let mut record = around.right;
    let used: Vec<usize> = (0..SUMS_ROOM).filter(|&at| record[at] > 0).collect();
    if !used.is_empty() {
        record[rng.pick(&used)] = 0;
    }
    record
}

fn one_other(rng: &mut Rng, around: &Around) -> Record {
    one(rng, around, |rng, sum| match rng.below(3) {
        0 => sum + 1 + rng.wide(1 << 50),
        1 => rng.wide(sum),
        _ => rng.next(),
    })
}

fn one_digit(rng: &mut Rng, around: &Around) -> Record {
    one(rng, around, |rng, sum| sum + 10_u64.pow(rng.below(18) as u32))
}

fn one_bit(rng: &mut Rng, around: &Around) -> Record {
    one(rng, around, |rng, sum| sum ^ 1 << rng.below(64))
}

fn two_bits(rng: &mut Rng, around: &Around) -> Record {
    let mut record = around.right;
    let (first, second) = two(rng, SUMS_ROOM);
    let bit = 1 << rng.below(64);
    record[first] ^= bit;
    record[second] ^= bit;
    record
}

/// All together they are the same.
fn more_and_less(rng: &mut Rng, around: &Around) -> Record {
    let mut record = around.right;
    let (more, less) = two(rng, SUMS_ROOM);
    let by = if rng.one_in(2) { 1 } else { rng.wide(record[less]) };
    record[more] = record[more].wrapping_add(by);
    record[less] = record[less].wrapping_sub(by);
    record
}

/// The balance is the same.
fn both_more(rng: &mut Rng, around: &Around) -> Record {
    let mut record = around.right;
    let (section, by) = (rng.place(5), if rng.one_in(2) { 1 } else { 1 + rng.wide(1 << 50) });
    record[2 * section] += by;
    record[2 * section + 1] += by;
    record
}

fn section_exchanged(rng: &mut Rng, around: &Around) -> Record {
    let mut record = around.right;
    let used: Vec<usize> = (0..5).filter(|at| record[2 * at] != record[2 * at + 1]).collect();
    if !used.is_empty() {
        let section = rng.pick(&used);
        record.swap(2 * section, 2 * section + 1);
    }
    record
}

fn all_exchanged(_: &mut Rng, around: &Around) -> Record {
    let mut record = around.right;
    record.chunks_exact_mut(2).for_each(|pair| pair.swap(0, 1));
    record
}

fn sections_exchanged(rng: &mut Rng, around: &Around) -> Record {
    let mut record = around.right;
    let (first, second) = two(rng, 5);
    record.swap(2 * first, 2 * second);
    record.swap(2 * first + 1, 2 * second + 1);
    record
}

fn moved(rng: &mut Rng, around: &Around) -> Record {
    let mut record = around.right;
    record.rotate_left(rng.between(1, 9) as usize);
    record
}

fn debits_first(_: &mut Rng, around: &Around) -> Record {
    let mut record = around.right;
    for (at, pair) in around.right.chunks_exact(2).enumerate() {
        record[at] = pair[0];
        record[5 + at] = pair[1];
    }
    record
}

fn debits_alone(_: &mut Rng, around: &Around) -> Record {
    let mut record = around.right;
    record.chunks_exact_mut(2).for_each(|pair| pair[1] = 0);
    record
}

fn credits_alone(_: &mut Rng, around: &Around) -> Record {
    let mut record = around.right;
    record.chunks_exact_mut(2).for_each(|pair| pair[0] = 0);
    record
}

/// The difference of a section, as the one sum or as the other.
fn balances(_: &mut Rng, around: &Around) -> Record {
    let mut record = around.right;
    for pair in record.chunks_exact_mut(2) {
        let less = pair[0].min(pair[1]);
        pair.iter_mut().for_each(|sum| *sum -= less);
    }
    record
}

fn fewer_bits(rng: &mut Rng, around: &Around) -> Record {
    let more = 1 << rng.pick(&[8, 16, 31, 32, 48, 52, 53, 62, 63]);
    match rng.below(3) {
        0 => around.right.map(|sum| sum.wrapping_add(more)),
        1 => one(rng, around, |_, sum| sum & (more - 1)),
        _ => one(rng, around, |_, sum| sum.wrapping_add(more)),
    }
}

fn fifteen_digits(rng: &mut Rng, around: &Around) -> Record {
    const NEXT: u64 = 1_000_000_000_000_000;
    match rng.below(3) {
        0 => around.right.map(|sum| sum % NEXT),
        1 => around.right.map(|sum| sum + NEXT),
        _ => one(rng, around, |rng, sum| sum + NEXT * rng.between(1, 546)),
    }
}

fn largest(rng: &mut Rng, around: &Around) -> Record {
    let most = u64::MAX - if rng.one_in(2) { 0 } else { rng.below(3) };
    match rng.below(3) {
        0 => [most; SUMS_ROOM],
        1 => one(rng, around, |_, _| most),
        _ => around.right.map(|sum| !sum),
    }
}

fn another_flow(rng: &mut Rng, _: &Around) -> Record {
    sound::plan(rng, Size::Small).sums()
}

fn without_delega(rng: &mut Rng, around: &Around) -> Record {
    let deleghe = around.flow.chunks_exact(RECORD).map(|record| get(record, DELEGA, COUNT));
    let number = rng.between(1, deleghe.filter(|&number| number < 1000).max().unwrap_or(1).max(1));
    kept::sums_of(around.flow.chunks_exact(RECORD).filter(|record| get(record, DELEGA, COUNT) != number))
}

fn any(rng: &mut Rng, _: &Around) -> Record {
    [(); SUMS_ROOM].map(|()| if rng.one_in(3) { 0 } else { rng.wide(u64::MAX - 1) })
}
