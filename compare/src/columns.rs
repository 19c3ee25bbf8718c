//! The columns that the generator writes and the damager changes, copied from
//! docs/COLUMNS.md. Nothing here is shared with the library or the reference.

pub const RECORD: usize = 120;
pub const MOST_RECORDS: usize = 546;
pub const MOST_BYTES: usize = MOST_RECORDS * RECORD;
pub const MOST_AMOUNT: u64 = 999_999_999_999_999;

pub const TYPE: usize = 2;
pub const DELEGA: usize = 4;
pub const SUBTYPE: usize = 11;
pub const CODE: usize = 11;
pub const CODE_WIDTH: usize = 16;
pub const DATE: usize = 14;
pub const NAME: usize = 20;
pub const NAME_WIDTH: usize = 20;
pub const FINAL_BALANCE: usize = 36;
pub const TAIL_DELEGHE: usize = 46;
pub const TAIL_SUM: usize = 53;
pub const TAIL_RECORDS: usize = 83;

/// Widths of the numeric fields.
pub const AMOUNT: usize = 15;
pub const COUNT: usize = 7;
pub const DAY: usize = 6;

pub struct Section {
    pub line: u64,
    pub most: usize,
    pub debit: usize,
    pub credit: usize,
    pub totals: Option<(usize, usize)>,
    pub sign: usize,
    pub balance: usize,
}

#[rustfmt::skip]
pub static SECTIONS: [Section; 5] = [
    Section { line: 1, most: 6, debit: 27, credit: 42, totals: Some((13, 28)), sign: 43, balance: 44 },
    Section { line: 3, most: 4, debit: 52, credit: 67, totals: Some((13, 28)), sign: 43, balance: 44 },
    Section { line: 5, most: 4, debit: 29, credit: 44, totals: Some((15, 30)), sign: 45, balance: 46 },
    Section { line: 7, most: 4, debit: 31, credit: 46, totals: Some((17, 32)), sign: 47, balance: 48 },
    Section { line: 17, most: 28, debit: 41, credit: 56, totals: None, sign: 43, balance: 44 },
];

/// The section of payments with identifying elements.
pub const IDENTIFYING: usize = 4;

/// The seventeen kinds of record.
#[derive(Clone, Copy, PartialEq, Eq, Debug)]
pub enum Kind {
    Head,
    Payer,
    Domicile,
    Line(usize),
    Balance(usize),
    Payment,
    Receipt,
    Addressee,
    Tail,
}

use Kind::*;

pub const KINDS: [Kind; 17] = [
    Head,
    Payer,
    Domicile,
    Line(0),
    Balance(0),
    Line(1),
    Balance(1),
    Line(2),
    Balance(2),
    Line(3),
    Balance(3),
    Line(4),
    Balance(4),
    Payment,
    Receipt,
    Addressee,
    Tail,
];

/// What a numeric field holds.
#[derive(Clone, Copy, PartialEq, Eq, Debug)]
pub enum Holds {
    Number,
    Date,
    /// A line's debit or credit.
    Amount,
    /// A total, a balance or a final balance.
    Sum,
    /// A count or the sum of the tail.
    Tail,
}

pub const HOLDS: [Holds; 5] = [Holds::Number, Holds::Date, Holds::Amount, Holds::Sum, Holds::Tail];

impl Kind {
    /// The kind of a record by its type and subtype.
    pub fn of(record: &[u8]) -> Option<Kind> {
        let same = |kind: &Kind| {
            let named = kind.subtype().map_or(true, |number| {
                record[SUBTYPE - 1..=SUBTYPE] == [b'0' + (number / 10) as u8, b'0' + (number % 10) as u8]
            });
            record[TYPE - 1..=TYPE] == kind.type_bytes() && named
        };
        KINDS.iter().copied().find(same)
    }

    /// The section whose line or balance record this is.
    pub fn section(self) -> Option<usize> {
        match self {
            Line(section) | Balance(section) => Some(section),
            _ => None,
        }
    }

    pub fn type_bytes(self) -> [u8; 2] {
        *match self {
            Head => b"F4",
            Payer => b"10",
            Domicile => b"20",
            Line(_) | Balance(_) => b"40",
            Payment | Receipt | Addressee => b"50",
            Tail => b"EF",
        }
    }

    pub fn subtype(self) -> Option<u64> {
        match self {
            Line(section) => Some(SECTIONS[section].line),
            Balance(section) => Some(SECTIONS[section].line + 1),
            Payment => Some(1),
            Receipt => Some(2),
            Addressee => Some(3),
            _ => None,
        }
    }

    /// The numeric fields, start and width, in the order of their positions.
    pub fn numeric(self) -> Vec<(usize, usize)> {
        let delega = (DELEGA, COUNT);
        match self {
            Head => vec![(DATE, DAY)],
            Payer | Domicile | Receipt | Addressee => vec![delega],
            Line(section) => {
                let s = &SECTIONS[section];
                vec![delega, (s.debit, AMOUNT), (s.credit, AMOUNT)]
            }
            Balance(section) => {
                let s = &SECTIONS[section];
                match s.totals {
                    Some((debit, credit)) => {
                        vec![delega, (debit, AMOUNT), (credit, AMOUNT), (s.balance, AMOUNT)]
                    }
                    None => vec![delega, (s.balance, AMOUNT)],
                }
            }
            Payment => vec![delega, (FINAL_BALANCE, AMOUNT)],
            Tail => vec![(TAIL_DELEGHE, COUNT), (TAIL_SUM, AMOUNT), (TAIL_RECORDS, COUNT)],
        }
    }

    /// The fields that are worked out from the lines, start and width, in the order
    /// of their positions.
    #[rustfmt::skip]
    pub fn stored(self) -> &'static [(usize, usize)] {
        match self {
            Balance(0) | Balance(1) => &[(13, 15), (28, 15), (43, 1), (44, 15)],
            Balance(2) => &[(15, 15), (30, 15), (45, 1), (46, 15)],
            Balance(3) => &[(17, 15), (32, 15), (47, 1), (48, 15)],
            Balance(_) => &[(43, 1), (44, 15)],
            Payment => &[(36, 15)],
            Tail => &[(46, 7), (53, 15), (83, 7)],
            Head | Payer | Domicile | Line(_) | Receipt | Addressee => &[],
        }
    }

    /// What the numeric field that starts here holds.
    pub fn holds(self, start: usize) -> Holds {
        match self {
            Head => Holds::Date,
            Tail => Holds::Tail,
            _ if start == DELEGA => Holds::Number,
            Line(_) => Holds::Amount,
            _ => Holds::Sum,
        }
    }
}
