//! Sound records of the F24 EP form: some M, each with its V's, planned by their sums
//! and written among random bytes, so that nothing counts but what is read.

use crate::ep_columns::*;
use crate::rng::Rng;

/// The debits of a V's rows; an unused one has none.
#[derive(Clone)]
pub struct Form {
    pub rows: [Option<u64>; ROWS],
}

impl Form {
    pub fn sum(&self) -> u64 {
        self.rows.iter().flatten().sum()
    }

    /// The rows that are used, or those that are not, counted from 0.
    pub fn places(&self, used: bool) -> Vec<usize> {
        (0..ROWS).filter(|&row| self.rows[row].is_some() == used).collect()
    }
}

/// An M with its V's. It stands behind so many records.
#[derive(Clone)]
pub struct Payment {
    pub at: usize,
    pub forms: Vec<Form>,
}

impl Payment {
    pub fn sum(&self) -> u64 {
        self.forms.iter().map(Form::sum).sum()
    }
}

/// Records and what they were made from.
pub struct Set {
    pub bytes: Vec<u8>,
    pub payments: Vec<Payment>,
    /// The place of its rows' pattern in the table.
    pub pattern: usize,
}

impl Set {
    pub fn records(&self) -> usize {
        self.bytes.len() / RECORD
    }

    /// A record, counted from 0.
    pub fn record(&mut self, at: usize) -> &mut [u8] {
        &mut self.bytes[at * RECORD..(at + 1) * RECORD]
    }

    /// Puts a record in; M's that stand behind it move on.
    pub fn insert(&mut self, at: usize, record: &[u8]) {
        let place = at * RECORD;
        self.bytes.splice(place..place, record.iter().copied());
        self.payments.iter_mut().filter(|payment| payment.at >= at).for_each(|payment| payment.at += 1);
    }

    /// The whole sum.
    pub fn sum(&self) -> u64 {
        self.payments.iter().map(Payment::sum).sum()
    }
}

/// How many M and V there are.
#[derive(Clone, Copy, PartialEq)]
pub enum Size {
    /// Mostly one V and at most two M.
    Least,
    Any,
    /// Some hundred records, now and then more than 256 M.
    Many,
}

type Pattern = fn(&mut Rng, usize) -> bool;

/// Which rows of a V are used.
pub const PATTERNS: [(Option<Pattern>, &str); 10] = [
    (Some(|_, _| false), "no row"),
    (Some(|_, _| true), "all rows"),
    (Some(|_, row| row == 0), "the first row"),
    (Some(|_, row| row == ROWS - 1), "the last row"),
    (Some(|_, row| row == 0 || row == ROWS - 1), "the first and the last row"),
    (Some(|_, row| row != ROWS - 1), "all but the last row"),
    (Some(|_, row| row != 0), "all but the first row"),
    (Some(|rng, _| rng.one_in(2)), "half of the rows"),
    (Some(|rng, _| rng.one_in(8)), "few rows"),
    (None, "another in each V"),
];

type Sum = fn(&mut Rng) -> u64;

/// The sum of an M's V's.
pub const SUMS: [(Option<Sum>, &str); 11] = [
    (Some(|_| 0), "0,00"),
    (Some(|rng| rng.between(1, 99)), "below 1,00"),
    (Some(|rng| near(rng, 100_000)), "about 1.000,00"),
    (Some(|rng| near(rng, 100_000_000)), "about 1.000.000,00"),
    (Some(|rng| near(rng, 100_000_000_000)), "about 1000000000,00"),
    (Some(|rng| MOST_TOTAL - rng.below(3)), "about 999999999999,99"),
    (Some(|rng| rng.between(100, 99_999)), "no dot"),
    (Some(|rng| rng.between(100_000, 99_999_999)), "one dot"),
    (Some(|rng| rng.between(100_000_000, 99_999_999_999)), "two dots"),
    (Some(|rng| rng.between(100_000_000_000, MOST_TOTAL)), "ten digits and more"),
    (None, "another for each M"),
];

/// Sums that no text can tell.
#[rustfmt::skip]
pub const TOO_LARGE: [(Sum, &str); 4] = [
    (|rng| MOST_TOTAL + 1 + rng.below(3), "about 1000000000000,00"),
    (|rng| rng.between(MOST_TOTAL + 1, MOST_DEBIT), "fifteen digits"),
    (|rng| MOST_DEBIT - rng.below(2), "fifteen nines"),
    (|rng| rng.between(MOST_DEBIT + 1, 4 * MOST_DEBIT), "sixteen digits"),
];

/// A number at an edge or a few cents beside it.
fn near(rng: &mut Rng, edge: u64) -> u64 {
    edge - 2 + rng.below(4)
}

/// A sound set.
pub fn any_set(rng: &mut Rng, size: Size) -> Set {
    let sums = rng.place(SUMS.len());
    let of = |rng: &mut Rng| {
        let one = SUMS[sums].0.or_else(|| SUMS[rng.place(SUMS.len() - 1)].0);
        one.map_or(0, |sum| sum(rng))
    };
    let payments = match size {
        Size::Least => 1 + usize::from(rng.one_in(4)),
        Size::Any => rng.pick(&[1, 1, 2, 2, 3, 5]),
        Size::Many if rng.one_in(2) => rng.between(1, 60) as usize,
        Size::Many => rng.between(250, 320) as usize,
    };
    set_of(rng, size, payments, of)
}

/// A set of one M or two whose first or last sum has no text, of this sort.
pub fn too_large(rng: &mut Rng, size: Size, sort: usize) -> Set {
    let payments = 1 + rng.place(2);
    let wrong = rng.place(payments);
    let mut nth = 0;
    let of = move |rng: &mut Rng| {
        nth += 1;
        if nth == wrong + 1 {
            TOO_LARGE[sort].0(rng)
        } else {
            rng.between(1, 500_000)
        }
    };
    set_of(rng, size, payments, of)
}

/// A set of so many M with the sums that `of` gives.
pub fn set_of(rng: &mut Rng, size: Size, payments: usize, mut of: impl FnMut(&mut Rng) -> u64) -> Set {
    let pattern = rng.place(PATTERNS.len());
    let mut set = Set { bytes: Vec::new(), payments: Vec::new(), pattern };
    let mut at = 0;
    for _ in 0..payments {
        let sum = of(rng);
        let forms = match size {
            Size::Least => 1 + usize::from(rng.one_in(5)),
            Size::Any => rng.pick(&[1, 1, 1, 2, 2, 3, 4, 7]),
            Size::Many => rng.between(1, 2 + 600 / payments as u64) as usize,
        };
        let forms = forms.max((sum / MOST_DEBIT) as usize + 1);
        let payment = Payment { at, forms: split(rng, sum, forms, pattern) };
        at += 1 + payment.forms.len();
        set.payments.push(payment);
    }
    set.bytes = write(rng, &set.payments);
    set
}

/// So many V's with this pattern of rows that come to a sum, none of them to more than
/// its balance can be. Where no row is used the sum is 0.
fn split(rng: &mut Rng, sum: u64, forms: usize, pattern: usize) -> Vec<Form> {
    let mut forms: Vec<Form> = (0..forms)
        .map(|_| {
            let uses = PATTERNS[pattern].0.or_else(|| PATTERNS[rng.place(PATTERNS.len() - 1)].0);
            let mut rows = [None; ROWS];
            rows.iter_mut().enumerate().for_each(|(row, debit)| {
                *debit = uses.filter(|uses| uses(rng, row)).map(|_| 0);
            });
            Form { rows }
        })
        .collect();
    let mut left = sum;
    let used: Vec<usize> = (0..forms.len()).filter(|&form| !forms[form].places(true).is_empty()).collect();
    for (nth, &form) in used.iter().enumerate() {
        let behind = (used.len() - nth - 1) as u64 * MOST_DEBIT;
        let most = left.min(MOST_DEBIT);
        let least = left.saturating_sub(behind).min(most);
        let share = if nth + 1 == used.len() { most } else { share(rng, least, most) };
        left -= share;
        share_rows(rng, &mut forms[form], share);
    }
    forms
}

/// A part of what is left, often all or nothing.
fn share(rng: &mut Rng, least: u64, most: u64) -> u64 {
    match rng.below(6) {
        0 => least,
        1 => most,
        2 | 3 => least + rng.wide(most - least),
        _ => rng.between(least, most),
    }
}

/// Shares a sum out among the used rows.
fn share_rows(rng: &mut Rng, form: &mut Form, sum: u64) {
    let mut places = form.places(true);
    let mut left = sum;
    while let Some(&last) = places.last() {
        let row = if rng.one_in(2) { places.remove(rng.place(places.len())) } else { last };
        places.retain(|&place| place != row);
        let debit = if places.is_empty() { left } else { share(rng, 0, left) };
        form.rows[row] = Some(debit);
        left -= debit;
    }
}

/// What stands where nobody reads.
#[derive(Clone, Copy)]
enum Filling {
    Bytes,
    Digits,
    One(u8),
}

fn filling(rng: &mut Rng) -> Filling {
    match rng.below(8) {
        0 => Filling::One(rng.pick(b" 0MV\0\xff,.")),
        1 => Filling::Digits,
        _ => Filling::Bytes,
    }
}

fn fill(rng: &mut Rng, bytes: &mut [u8], filling: Filling) {
    match filling {
        Filling::One(byte) => bytes.fill(byte),
        Filling::Digits => bytes.iter_mut().for_each(|byte| *byte = b'0' + rng.below(10) as u8),
        Filling::Bytes => {
            for part in bytes.chunks_mut(8) {
                part.copy_from_slice(&rng.next().to_le_bytes()[..part.len()]);
            }
        }
    }
}

/// A record of a type with nothing in it.
pub fn record(rng: &mut Rng, kind: u8) -> Vec<u8> {
    let mut record = vec![0; RECORD];
    let filling = filling(rng);
    fill(rng, &mut record, filling);
    record[0] = kind;
    record
}

/// The records of these M and V's.
fn write(rng: &mut Rng, payments: &[Payment]) -> Vec<u8> {
    let mut bytes = Vec::new();
    for payment in payments {
        bytes.extend(m(rng, payment.sum()));
        for form in &payment.forms {
            bytes.extend(v(rng, form));
        }
    }
    bytes
}

/// An M with the text of a sum, or with none where it has none.
pub fn m(rng: &mut Rng, sum: u64) -> Vec<u8> {
    let mut payment = record(rng, b'M');
    if let Some(text) = text_of(sum) {
        put(&mut payment, TOTAL, &text);
    }
    payment
}

/// A V with its rows and its balance.
pub fn v(rng: &mut Rng, form: &Form) -> Vec<u8> {
    let mut bytes = record(rng, b'V');
    for (row, debit) in form.rows.iter().enumerate() {
        match *debit {
            Some(debit) => {
                bytes[TYPE_AT[row] - 1] = used_type(rng);
                put_amount(&mut bytes, DEBIT_AT[row], debit);
            }
            None => {
                bytes[TYPE_AT[row] - 1] = b' ';
                if rng.one_in(4) {
                    put_amount(&mut bytes, DEBIT_AT[row], rng.wide(MOST_DEBIT));
                }
            }
        }
    }
    for at in [SECTION_DEBITS, SECTION_BALANCE] {
        match rng.below(8) {
            0 => put_amount(&mut bytes, at, form.sum()),
            1 => put_amount(&mut bytes, at, rng.wide(MOST_DEBIT)),
            _ => (),
        }
    }
    put_amount(&mut bytes, FINAL_BALANCE, form.sum());
    bytes
}

/// The type of a used row: one of 001's letters, or anything but a blank.
pub fn used_type(rng: &mut Rng) -> u8 {
    match rng.below(4) {
        0 => rng.pick(b"FIRSNQWGP"),
        1 => rng.pick(&[0, 255, 31, 33, 9, 10, 13, 160, 127, b'0', b'M', b'V', b'_', 96]),
        _ => Some(rng.below(256) as u8).filter(|&byte| byte != b' ').unwrap_or(0),
    }
}

/// The one text of a sum, with spaces behind it, or none where it would be too long.
pub fn text_of(sum: u64) -> Option<[u8; WIDTH]> {
    let digits = sum.to_string();
    text_of_digits(digits.as_bytes())
}

/// The same of a number's digits.
pub fn text_of_digits(digits: &[u8]) -> Option<[u8; WIDTH]> {
    let zeros = digits.iter().take_while(|&&digit| digit == b'0').count();
    let digits = &digits[zeros..];
    let mut euros = [&b"000"[..3 - digits.len().min(3)], digits].concat();
    let cents = euros.split_off(euros.len() - 2);
    let groups: Vec<&[u8]> = euros.rchunks(3).rev().collect();
    let dotted = groups.join(&b'.');
    let whole = if dotted.len() + 3 > WIDTH { euros } else { dotted };
    let text = [&whole[..], b",", &cents].concat();
    if text.len() > WIDTH {
        return None;
    }
    let mut field = [b' '; WIDTH];
    field[..text.len()].copy_from_slice(&text);
    Some(field)
}
