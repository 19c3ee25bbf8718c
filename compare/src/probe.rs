//! An accepted flow with one thing changed, at the places where a judge that
//! reads whole words goes wrong: the characters beside the digits, the ends of
//! fields, single digits, bytes at the edge of what is allowed; with another
//! date close to its own, which may be none; or with one other character in a
//! tax code. Probes are made from random numbers of their own, so that the flows
//! beside them are what they are without them, and are not tallied.

use crate::codes;
use crate::columns::{Kind::*, *};
use crate::dates;
use crate::payers;
use crate::rng::Rng;

/// The flow, which was accepted, with one change, and the number that the
/// generator says, where it knows it.
pub fn probe(rng: &mut Rng, accepted: &[u8]) -> (Vec<u8>, Option<u64>) {
    let mut flow = accepted.to_vec();
    let records = flow.len() / RECORD;
    let at = rng.place(records);
    let record = &mut flow[at * RECORD..(at + 1) * RECORD];
    let mut known = None;
    match rng.below(6) {
        0 => known = beside_digits(rng, record),
        1 => record[edge(rng, RECORD)] = rng.pick(&[0, 31, 127, 128, 160, 255]),
        2 => wrong_number(rng, record),
        3 => one_digit(rng, &mut flow),
        4 => known = Some(if dates::change(rng, &mut flow) { 0 } else { 17 }),
        _ => {
            // One record too many, which may have a bad byte besides.
            flow.extend_from_slice(&[b' '; RECORD]);
            if rng.one_in(2) {
                flow[records * RECORD + edge(rng, RECORD)] = rng.pick(&[31, 127]);
            }
        }
    }
    (flow, known)
}

/// The flow, which was accepted, with another character in one place of a tax
/// code, and the number that the generator says.
pub fn code_probe(rng: &mut Rng, accepted: &[u8]) -> (Vec<u8>, Option<u64>) {
    let mut flow = accepted.to_vec();
    let is_payer = |&at: &usize| Kind::of(&accepted[at..at + RECORD]) == Some(Payer);
    let payers: Vec<usize> = (0..accepted.len()).step_by(RECORD).filter(is_payer).collect();
    let at = rng.pick(&payers);
    codes::change(rng, &mut flow[at..at + RECORD]);
    let known = payers::fault(&payers::in_flow(&flow)).map_or(0, |(_, number)| number);
    (flow, Some(known))
}

/// A place of so many: the first, the last, or any.
fn edge(rng: &mut Rng, places: usize) -> usize {
    match rng.below(3) {
        0 => 0,
        1 => places - 1,
        _ => rng.place(places),
    }
}

/// A character that is no digit in a numeric field, one that is beside them or
/// shares bits with them; often more, in this field and in others.
fn beside_digits(rng: &mut Rng, record: &mut [u8]) -> Option<u64> {
    let fields = Kind::of(record)?.numeric();
    for _ in 0..rng.pick(&[1, 1, 2, 3]) {
        let (start, width) = rng.pick(&fields);
        record[start - 1 + edge(rng, width)] = rng.pick(b"//::;? @p~");
    }
    Some(7)
}

/// Another digit in one place of the delega number.
fn wrong_number(rng: &mut Rng, record: &mut [u8]) {
    if !matches!(Kind::of(record), Some(Head | Tail) | None) {
        let digit = &mut record[DELEGA - 1 + rng.place(COUNT)];
        *digit = b'0' + (*digit - b'0' + rng.between(1, 9) as u8) % 10;
    }
}

/// A line of zeros but for one digit, or with none.
fn one_digit(rng: &mut Rng, flow: &mut [u8]) {
    let lines: Vec<(usize, usize)> = flow
        .chunks_exact(RECORD)
        .enumerate()
        .filter_map(|(at, record)| match Kind::of(record) {
            Some(Line(section)) => Some((at, section)),
            _ => None,
        })
        .collect();
    let (at, section) = rng.pick(&lines);
    let start = at * RECORD + SECTIONS[section].debit - 1;
    let amounts = &mut flow[start..start + 2 * AMOUNT];
    amounts.fill(b'0');
    if !rng.one_in(8) {
        amounts[rng.place(2 * AMOUNT)] = b'0' + rng.between(1, 9) as u8;
    }
}
