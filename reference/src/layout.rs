//! Where the judged fields stand.
//!
//! Every position is counted from 1 within a record, as CBI-F24-001 prints it
//! (section 7.1), and every amount and balance is fifteen digits wide there.

/// "Each record has 120 characters."
pub const RECORD: usize = 120;

/// One record of a flow.
pub type Record = [u8; RECORD];

/// "At most 546 records, that is 65,520 bytes."
pub const MOST_BYTES: usize = 546 * RECORD;

/// "with fifteen: above 999,999,999,999,999" is more than a field holds.
pub const MOST_AMOUNT: u64 = 999_999_999_999_999;

/// All records: type at 2-3.
pub const TYPE: usize = 2;
/// Records 10, 20, 40, 50: delega number at 4-10.
pub const DELEGA: usize = 4;
/// Records 40 and 50: subtype at 11-12.
pub const SUBTYPE: usize = 11;

/// 10: the taxpayer's code at 11-26, "in the columns 000 gives" (7.1.3).
pub const CODE: usize = 11;
pub const CODE_WIDTH: usize = 16;

/// F4: creation date at 14-19, day, month, two-digit year.
pub const DATE: usize = 14;
/// F4 and EF: support name at 20-39.
pub const NAME: usize = 20;
pub const NAME_WIDTH: usize = 20;

/// A support name.
pub type Name = [u8; NAME_WIDTH];

/// 50-01: final balance at 36-50; no sign is printed there.
pub const FINAL_BALANCE: usize = 36;

/// EF: number of deleghe at 46-52.
pub const TAIL_DELEGHE: usize = 46;
/// EF: sum of all final balances at 53-67.
pub const TAIL_SUM: usize = 53;
/// EF: number of records, head and tail included, at 83-89.
pub const TAIL_RECORDS: usize = 83;

/// A debit and a credit for each of the five sections, in the table's order.
pub type Sums = [(u64, u64); 5];

/// One of the five sections: its two subtypes and the columns of its records.
pub struct Section {
    /// The line's subtype as a number, by which a caller names the section.
    pub number: u64,
    pub line: [u8; 2],
    pub balance: [u8; 2],
    /// "no more lines than rows on the paper form"
    pub most_lines: u64,
    /// "In section 17 the credit must be zero."
    pub credit_allowed: bool,
    pub debit_at: usize,
    pub credit_at: usize,
    /// Total debit and total credit; 40-18 "has no totals".
    pub totals_at: Option<(usize, usize)>,
    pub sign_at: usize,
    pub balance_at: usize,
}

/// "Sections stand in the order of the table, each at most once."
pub static SECTIONS: [Section; 5] = [
    // Erario: 7.1.5 and 7.1.6.
    Section {
        number: 1,
        line: *b"01",
        balance: *b"02",
        most_lines: 6,
        credit_allowed: true,
        debit_at: 27,
        credit_at: 42,
        totals_at: Some((13, 28)),
        sign_at: 43,
        balance_at: 44,
    },
    // INPS: 7.1.7 and 7.1.8.
    Section {
        number: 3,
        line: *b"03",
        balance: *b"04",
        most_lines: 4,
        credit_allowed: true,
        debit_at: 52,
        credit_at: 67,
        totals_at: Some((13, 28)),
        sign_at: 43,
        balance_at: 44,
    },
    // Regioni: 7.1.9 and 7.1.10.
    Section {
        number: 5,
        line: *b"05",
        balance: *b"06",
        most_lines: 4,
        credit_allowed: true,
        debit_at: 29,
        credit_at: 44,
        totals_at: Some((15, 30)),
        sign_at: 45,
        balance_at: 46,
    },
    // IMU and local taxes: 7.1.11 and 7.1.12.
    Section {
        number: 7,
        line: *b"07",
        balance: *b"08",
        most_lines: 4,
        credit_allowed: true,
        debit_at: 31,
        credit_at: 46,
        totals_at: Some((17, 32)),
        sign_at: 47,
        balance_at: 48,
    },
    // Identifying elements: 7.1.19 and 7.1.20.
    Section {
        number: 17,
        line: *b"17",
        balance: *b"18",
        most_lines: 28,
        credit_allowed: false,
        debit_at: 41,
        credit_at: 56,
        totals_at: None,
        sign_at: 43,
        balance_at: 44,
    },
];

/// "A delega has section 17 alone or any of the other four": its index here.
pub const IDENTIFYING: usize = 4;

impl Section {
    /// The position at which line amounts break the line rule, if they do:
    /// "start of debit if both are zero, else of credit".
    ///
    /// "Both above zero is allowed", save where no credit is.
    pub fn wrong_amount(&self, debit: u64, credit: u64) -> Option<usize> {
        match (debit, credit) {
            (0, 0) => Some(self.debit_at),
            (_, 0) => None,
            _ if self.credit_allowed => None,
            _ => Some(self.credit_at),
        }
    }
}

/// "The sign is N when debits are below credits, P in all other cases, zero included."
pub fn sign(debits: u64, credits: u64) -> u8 {
    if debits < credits {
        b'N'
    } else {
        b'P'
    }
}

/// "The final balance is all its debits less all its credits. Zero is allowed, negative is not."
pub fn final_balance(delega: &Sums) -> Option<u64> {
    let debits: u64 = delega.iter().map(|sums| sums.0).sum();
    let credits: u64 = delega.iter().map(|sums| sums.1).sum();
    debits.checked_sub(credits)
}
