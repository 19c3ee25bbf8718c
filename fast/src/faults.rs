//! What is wrong with a record that is not the one looked for: refusals 4, 6,
//! 7 and 8. Once in a flow at most, so nothing here is written for speed.

use crate::layout::*;

/// A refusal's number and position; the record is known to the caller.
#[derive(Clone, Copy, PartialEq, Eq, Debug)]
pub struct Fault {
    pub number: u8,
    pub position: u8,
}

#[inline(always)]
pub fn fault(number: u8, position: usize) -> Fault {
    Fault { number, position: position as u8 }
}

/// The fault, unless this holds.
#[inline(always)]
pub fn ensure(holds: bool, number: u8, position: usize) -> Result<(), Fault> {
    if holds {
        Ok(())
    } else {
        Err(fault(number, position))
    }
}

/// "records end before EF"
pub const END: Fault = Fault { number: 5, position: 0 };

/// The seventeen kinds of record.
#[derive(Clone, Copy, PartialEq, Eq, Debug)]
pub enum Kind {
    Head,
    Taxpayer,
    Domicile,
    Line(usize),
    Balance(usize),
    Payment,
    Receipt,
    Addressee,
    Tail,
}

use Kind::*;

#[rustfmt::skip]
const KINDS: [Kind; 17] = [
    Head, Taxpayer, Domicile,
    Line(0), Balance(0), Line(1), Balance(1), Line(2), Balance(2), Line(3), Balance(3), Line(4), Balance(4),
    Payment, Receipt, Addressee, Tail,
];

impl Kind {
    fn type_bytes(self) -> [u8; 2] {
        *match self {
            Head => b"F4",
            Taxpayer => b"10",
            Domicile => b"20",
            Line(_) | Balance(_) => b"40",
            Payment | Receipt | Addressee => b"50",
            Tail => b"EF",
        }
    }

    fn subtype(self) -> Option<[u8; 2]> {
        match self {
            Head | Taxpayer | Domicile | Tail => None,
            Line(section) => Some(SECTIONS[section].line),
            Balance(section) => Some(SECTIONS[section].balance),
            Payment => Some(*b"01"),
            Receipt => Some(*b"02"),
            Addressee => Some(*b"03"),
        }
    }

    fn is_of(self, record: &Record) -> bool {
        let same = |bytes: [u8; 2], position: usize| record[position - 1..=position] == bytes;
        same(self.type_bytes(), TYPE) && self.subtype().map_or(true, |subtype| same(subtype, SUBTYPE))
    }

    /// Whether it may stand after this one, or at the start after `None`.
    fn may_follow(self, last: Option<Kind>) -> bool {
        match (last, self) {
            (None, Head) => true,
            (Some(Head | Payment | Receipt | Addressee), Taxpayer) => true,
            (Some(Payment | Receipt | Addressee), Tail) => true,
            (Some(Taxpayer), Domicile) => true,
            (Some(Domicile), Line(_)) => true,
            (Some(Line(open)), Line(section) | Balance(section)) => section == open,
            (Some(Balance(done)), Line(section)) => done < section && section < IDENTIFYING,
            (Some(Balance(_)), Payment) => true,
            (Some(Payment), Receipt) => true,
            (Some(Receipt), Addressee) => true,
            _ => false,
        }
    }

    /// The numeric fields in the order of their positions, start and width,
    /// with none of no width for the rest.
    fn fields(self) -> [(usize, usize); 4] {
        const NONE: (usize, usize) = (1, 0);
        let number = (DELEGA, COUNT);
        match self {
            Head => [(DATE, DAY), NONE, NONE, NONE],
            Taxpayer | Domicile | Receipt | Addressee => [number, NONE, NONE, NONE],
            Line(section) => {
                let debit_at = SECTIONS[section].debit_at;
                [number, (debit_at, AMOUNT), (debit_at + AMOUNT, AMOUNT), NONE]
            }
            Balance(section) => {
                let balance = (SECTIONS[section].sign_at + 1, AMOUNT);
                match SECTIONS[section].totals_at {
                    Some(totals_at) => [number, (totals_at, AMOUNT), (totals_at + AMOUNT, AMOUNT), balance],
                    None => [number, balance, NONE, NONE],
                }
            }
            Payment => [number, (FINAL_BALANCE, AMOUNT), NONE, NONE],
            Tail => [(TAIL_DELEGHE, COUNT), (TAIL_SUM, AMOUNT), (TAIL_RECORDS, COUNT), NONE],
        }
    }
}

/// The fault of a record of which type, subtype or delega number is not the
/// one looked for after `last`; `full` where the open section has no room left.
#[cold]
#[inline(never)]
pub fn unexpected(record: &Record, last: Option<Kind>, full: bool) -> Fault {
    let may_stand = || KINDS.iter().filter(|kind| kind.may_follow(last));
    let kind = match may_stand().find(|kind| kind.is_of(record)) {
        Some(&kind) => kind,
        // "2 if no record that may stand here has its type, else 11"
        None => {
            let its_type = [record[TYPE - 1], record[TYPE]];
            let stands = may_stand().any(|kind| kind.type_bytes() == its_type);
            return fault(4, if stands { SUBTYPE } else { TYPE });
        }
    };
    // "line beyond the section's most"
    if full && matches!(kind, Line(_)) {
        return fault(6, SUBTYPE);
    }
    non_digit(record, kind).unwrap_or(fault(8, DELEGA))
}

/// "non-digit in a numeric field", at "the first non-digit's own position", as
/// document 02 amends it: the first in the first such field.
#[cold]
#[inline(never)]
pub fn non_digit(record: &Record, kind: Kind) -> Option<Fault> {
    let mut positions = kind.fields().into_iter().flat_map(|(start, width)| start..start + width);
    let position = positions.find(|&position| !record[position - 1].is_ascii_digit())?;
    Some(fault(7, position))
}

/// The same of a record that has such a field.
#[cold]
pub fn seven(record: &Record, kind: Kind) -> Fault {
    non_digit(record, kind).unwrap_or(fault(7, DELEGA))
}
