//! What the generator says of any bytes as records of the F24 EP form. All faults of
//! all records are listed, each with when it is judged, and the first one counts. Sums
//! are added up column by column, digits are never made a number, and the text of a
//! sum is written and not read.

use crate::ep_columns::*;
use crate::ep_sound::text_of_digits;

/// The number of a refusal with its record and position, or 0 with the number of M
/// and their sum.
pub type Told = [u64; 3];

/// When a fault is judged: in the turn of a record, counted from 0, its type, its
/// digits and its sum, and after a last V the total of its M.
type When = (usize, u8);
const TYPE: u8 = 0;
const DIGITS: u8 = 1;
const SUM: u8 = 2;
const AFTER: u8 = 3;

/// The sum of many fields, a number for each of their fifteen places.
type Columns = [u64; WIDTH];

pub fn told(bytes: &[u8]) -> Told {
    if bytes.len() % RECORD != 0 || !(1..=MOST_RECORDS).contains(&(bytes.len() / RECORD)) {
        return [30, 0, 0];
    }
    let records: Vec<&[u8]> = bytes.chunks(RECORD).collect();
    let mut faults: Vec<(When, u64, usize)> = Vec::new();
    let kinds: Vec<u8> = records.iter().map(|record| record[0]).collect();
    for at in 0..=kinds.len() {
        if !may_stand(&kinds, at) {
            faults.push(((at, TYPE), 31, at + 1));
        }
    }
    let mut sums = Vec::new();
    for (at, record) in records.iter().enumerate().filter(|(at, _)| kinds[*at] == b'V') {
        if !fields(record).chain([FINAL_BALANCE]).all(|at| field(record, at).iter().all(u8::is_ascii_digit)) {
            faults.push(((at, DIGITS), 32, at + 1));
        }
        let columns = columns(record);
        if digits(&columns) != padded(field(record, FINAL_BALANCE)) {
            faults.push(((at, SUM), 33, at + 1));
        }
        sums.push((at, columns));
    }
    let mut all = [0; WIDTH];
    let ms: Vec<usize> = (0..kinds.len()).filter(|&at| kinds[at] == b'M').collect();
    for &at in &ms {
        let behind = kinds[at + 1..].iter().take_while(|&&kind| kind == b'V').count();
        let mut total = [0; WIDTH];
        let first = sums.partition_point(|&(place, _)| place < at);
        for (_, columns) in &sums[first..first + behind] {
            add(&mut total, columns);
        }
        let text = text_of_digits(&digits(&total));
        if behind > 0 && text.as_ref().map_or(true, |text| text[..] != *field(records[at], TOTAL)) {
            faults.push(((at + behind, AFTER), 33, at + 1));
        }
        add(&mut all, &total);
    }
    match faults.iter().min() {
        Some(&(_, number, record)) => [number, record as u64, 0],
        None => [0, ms.len() as u64, number(&all)],
    }
}

/// Whether what stands at a place, or nothing at the end, may stand there, so long as
/// all before it may.
fn may_stand(kinds: &[u8], at: usize) -> bool {
    let before = at.checked_sub(1).map(|at| kinds[at]);
    match (before, kinds.get(at)) {
        (None, kind) => kind == Some(&b'M'),
        (Some(b'M'), kind) => kind == Some(&b'V'),
        (_, None) => true,
        (_, Some(kind)) => matches!(kind, b'M' | b'V'),
    }
}

/// Where the debits of the used rows stand.
fn fields(record: &[u8]) -> impl Iterator<Item = usize> + '_ {
    TYPE_AT.iter().zip(DEBIT_AT).filter(move |(at, _)| record[**at - 1] != 32).map(|(_, debit)| debit)
}

fn columns(record: &[u8]) -> Columns {
    let mut columns = [0; WIDTH];
    for at in fields(record) {
        for (column, byte) in columns.iter_mut().zip(field(record, at)) {
            *column += u64::from(byte & 15);
        }
    }
    columns
}

fn add(to: &mut Columns, columns: &Columns) {
    to.iter_mut().zip(columns).for_each(|(to, column)| *to += column);
}

/// The digits of such a sum, 24 of them.
fn digits(columns: &Columns) -> Vec<u8> {
    let mut digits = Vec::with_capacity(24);
    let mut carry = 0;
    for column in columns.iter().rev().chain(&[0; 9]) {
        let value = column + carry;
        digits.push(b'0' + (value % 10) as u8);
        carry = value / 10;
    }
    digits.reverse();
    digits
}

/// A field as 24 digits.
fn padded(field: &[u8]) -> Vec<u8> {
    [&[b'0'; 9], field].concat()
}

fn number(columns: &Columns) -> u64 {
    digits(columns).iter().fold(0, |value, digit| 10 * value + u64::from(digit - b'0'))
}
