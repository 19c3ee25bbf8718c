//! What the generator says of every record 10, from columns and an account of
//! tax codes of its own: 3, 4, 7, 8 and then 26, or that it is sound. It is
//! asked at every answer to a flow or a sheet, whatever the answer is, as it is
//! of the head. A record 10 has no other faults: one that is refused is refused
//! with this, and one that stands before the refusal has none.

use crate::calls::is_of_records;
use crate::columns::{Kind::*, *};
use crate::sorts;
use crate::sound::get;
use crate::taxcodes::{self, SORTS};

/// A record 10 of a flow, or what was keyed in the slot of one.
pub struct Taxpayer<'a> {
    /// Its number in the flow, counted from 1.
    at: usize,
    record: &'a [u8],
    /// Whether a record 10 may stand here.
    may_stand: bool,
    /// The number of its delega; none in a sheet, where that is filled.
    number: Option<u64>,
}

/// Those of a flow.
pub fn in_flow(flow: &[u8]) -> Vec<Taxpayer<'_>> {
    let record = |at: usize| &flow[at * RECORD..(at + 1) * RECORD];
    let payers = (0..flow.len() / RECORD).filter(|&at| record(at)[TYPE - 1..=TYPE] == Payer.type_bytes());
    let taxpayer = |(at, number): (usize, u64)| {
        let last = if at == 0 { None } else { Kind::of(record(at - 1)) };
        let may_stand = matches!(last, Some(Head | Payment | Receipt | Addressee));
        Taxpayer { at: at + 1, record: record(at), may_stand, number: Some(number) }
    };
    payers.zip(1..).map(taxpayer).collect()
}

/// What stands in their slots, where these are known and every one of them is
/// where it may be; in a sheet the number is filled.
pub fn in_slots<'a>(slots: impl Iterator<Item = (Kind, &'a [u8])>, filled: bool) -> Vec<Taxpayer<'a>> {
    let payers = slots.zip(1..).filter(|((slot, _), _)| *slot == Payer).zip(1..);
    let number = |number: u64| Some(number).filter(|_| !filled);
    payers.map(|(((_, record), at), nth)| Taxpayer { at, record, may_stand: true, number: number(nth) }).collect()
}

impl Taxpayer<'_> {
    fn code(&self) -> &[u8] {
        &self.record[CODE - 1..CODE - 1 + CODE_WIDTH]
    }

    /// Its first fault: number and position.
    fn fault(&self) -> Option<(u64, usize)> {
        let number = &self.record[DELEGA - 1..DELEGA - 1 + COUNT];
        let read = |position: usize| self.number.is_some() || !(DELEGA..DELEGA + COUNT).contains(&position);
        let bad = |&position: &usize| read(position) && !(32..=126).contains(&self.record[position - 1]);
        if let Some(position) = (1..=RECORD).find(bad) {
            return Some((3, position));
        }
        if !self.may_stand || self.record[TYPE - 1..=TYPE] != Payer.type_bytes() {
            return Some((4, TYPE));
        }
        if let Some(expected) = self.number {
            if let Some(place) = number.iter().position(|byte| !byte.is_ascii_digit()) {
                return Some((7, DELEGA + place));
            }
            if get(self.record, DELEGA, COUNT) != expected {
                return Some((8, DELEGA));
            }
        }
        Some((26, CODE)).filter(|_| !taxcodes::can_be(self.code()))
    }
}

/// The record of the first fault that one of these has, counted from 1, and the
/// fault's number.
pub fn fault(taxpayers: &[Taxpayer]) -> Option<(usize, u64)> {
    taxpayers.iter().find_map(|taxpayer| Some((taxpayer.at, taxpayer.fault()?.0)))
}

/// Why the answer to a flow or a sheet with these can't be right.
pub fn unlike<'a>(taxpayers: impl FnOnce() -> Vec<Taxpayer<'a>>, code: u64, answer: &[u64]) -> Option<String> {
    if !is_of_records(code) {
        return None;
    }
    let taxpayers = taxpayers();
    // What has no place in the flow comes after all records.
    let refused = match code {
        0 | 21..=23 => usize::MAX,
        _ if answer[0] == 0 => usize::MAX,
        _ => answer[0] as usize,
    };
    for taxpayer in taxpayers.iter().take_while(|taxpayer| taxpayer.at <= refused) {
        let at = taxpayer.at;
        let told = Some((code, answer[1] as usize)).filter(|_| at == refused);
        match taxpayer.fault() {
            fault if fault == told => (),
            Some((number, position)) => {
                return Some(format!("the generator says {number} at record {at} position {position}"));
            }
            None => return Some(format!("the generator says that record {at} is sound")),
        }
    }
    let elsewhere = code == 26 && taxpayers.iter().all(|taxpayer| taxpayer.at != refused);
    Some("the generator says that no record 10 is there".to_string()).filter(|_| elsewhere)
}

/// Which codes were taken and how 26 was come by.
#[derive(Default)]
pub struct Codes {
    counts: [u64; SORTS.len()],
}

impl Codes {
    /// Counts the codes of a flow or a sheet that was answered 0, each sort once,
    /// or the code that was answered 26.
    pub fn count<'a>(&mut self, taxpayers: impl FnOnce() -> Vec<Taxpayer<'a>>, code: u64, answer: &[u64]) {
        if !matches!(code, 0 | 26) {
            return;
        }
        let counted = |taxpayer: &&Taxpayer| code == 0 || taxpayer.at as u64 == answer[0];
        let mut seen = [false; SORTS.len()];
        for taxpayer in taxpayers().iter().filter(counted) {
            seen[taxcodes::sort(taxpayer.code()) as usize] = true;
        }
        self.counts.iter_mut().zip(seen).for_each(|(count, seen)| *count += u64::from(seen));
    }

    pub fn rarest(&self, call: &str) -> Option<(u64, String)> {
        sorts::rarest(&self.counts, &SORTS, call)
    }

    pub fn print(&self, call: &str) {
        sorts::print("tax code", &self.counts, &SORTS, call);
    }
}
