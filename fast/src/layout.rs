//! Where the judged fields stand. Positions count from 1 within a record.

pub const RECORD: usize = 120;

/// One record of a flow.
pub type Record = [u8; RECORD];

/// "At most 546 records, that is 65,520 bytes."
pub const MOST_BYTES: usize = 546 * RECORD;

pub const TYPE: usize = 2;
pub const DELEGA: usize = 4;
pub const SUBTYPE: usize = 11;
pub const CODE: usize = 11;
pub const CODE_WIDTH: usize = 16;
pub const DATE: usize = 14;
pub const NAME: usize = 20;
pub const NAME_WIDTH: usize = 20;
pub const FINAL_BALANCE: usize = 36;
pub const TAIL_DELEGHE: usize = 46;
pub const TAIL_SUM: usize = 53;
pub const TAIL_RECORDS: usize = 83;

/// Widths of the numeric fields.
pub const AMOUNT: usize = 15;
pub const COUNT: usize = 7;
pub const DAY: usize = 6;

/// One of the five sections. In its lines the credit follows the debit, in its
/// balance record the total credit follows the total debit, and the balance
/// follows the sign.
pub struct Section {
    pub line: [u8; 2],
    pub balance: [u8; 2],
    /// "no more lines than rows on the paper form"
    pub most_lines: usize,
    pub debit_at: usize,
    /// Start of the total debit; 40-18 "has no totals".
    pub totals_at: Option<usize>,
    pub sign_at: usize,
    /// "In section 17 the credit must be zero."
    pub credit_allowed: bool,
}

const fn section(lines: [&[u8; 2]; 2], most_lines: usize, debit_at: usize, totals: bool, sign_at: usize) -> Section {
    Section {
        line: *lines[0],
        balance: *lines[1],
        most_lines,
        debit_at,
        totals_at: if totals { Some(sign_at - 2 * AMOUNT) } else { None },
        sign_at,
        credit_allowed: totals,
    }
}

/// Erario, INPS, Regioni, IMU and local taxes, identifying elements.
pub const SECTIONS: [Section; 5] = [
    section([b"01", b"02"], 6, 27, true, 43),
    section([b"03", b"04"], 4, 52, true, 43),
    section([b"05", b"06"], 4, 29, true, 45),
    section([b"07", b"08"], 4, 31, true, 47),
    section([b"17", b"18"], 28, 41, false, 43),
];

/// The section that stands alone in its delega.
pub const IDENTIFYING: usize = 4;
