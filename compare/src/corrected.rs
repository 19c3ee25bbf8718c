//! What the generator says of any correction of a flow that is accepted. It looks for
//! the line by the number and the kind that each record has, writes the new amounts
//! over the old, and then goes by what a rebalancing of that comes to: a correction
//! leaves the bytes that a rebalancing would.

use crate::columns::{Kind::*, *};
use crate::mended;
use crate::sound::{get, put};

/// What a correction comes to.
pub struct Account {
    /// The number of the refusal, 0 where there is none; it has no place.
    pub number: u64,
    pub after: Vec<u8>,
}

impl Account {
    pub fn of(flow: &[u8], [delega, subtype, place, debit, credit]: [u64; 5]) -> Self {
        let refused = |number| Account { number, after: flow.to_vec() };
        let (at, section) = match line(flow, delega, subtype, place) {
            Some(found) => found,
            None => return refused(21),
        };
        if debit > MOST_AMOUNT || credit > MOST_AMOUNT {
            return refused(22);
        }
        if (debit == 0 && credit == 0) || (section == IDENTIFYING && credit > 0) {
            return refused(9);
        }
        let mut typed = flow.to_vec();
        type_over(&mut typed, at, section, (debit, credit));
        let mended = mended::Account::of(&typed);
        match mended.says[0] {
            0 => Account { number: 0, after: mended.after },
            number => refused(number),
        }
    }
}

/// The place of a line's record, counted from 0, and its section.
pub fn line(flow: &[u8], delega: u64, subtype: u64, place: u64) -> Option<(usize, usize)> {
    let section = SECTIONS.iter().position(|section| section.line == subtype)?;
    let of_delega = |record: &[u8]| Kind::of(record) == Some(Line(section)) && get(record, DELEGA, COUNT) == delega;
    let mut lines = flow.chunks_exact(RECORD).enumerate().filter(|(_, record)| of_delega(record));
    let nth = usize::try_from(place.checked_sub(1)?).ok()?;
    lines.nth(nth).map(|(at, _)| (at, section))
}

/// Puts amounts into a line, and changes nothing else.
pub fn type_over(flow: &mut [u8], at: usize, section: usize, (debit, credit): (u64, u64)) {
    let record = &mut flow[at * RECORD..(at + 1) * RECORD];
    put(record, SECTIONS[section].debit, AMOUNT, debit);
    put(record, SECTIONS[section].credit, AMOUNT, credit);
}
