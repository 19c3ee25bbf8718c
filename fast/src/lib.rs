//! A judge for CBI F24 payment flows, written for speed, after the rules of
//! document 01 with the columns of CBI-F24-001. Words in quotation marks are
//! those rules'. Refusal 7 points where document 02 has it point, a date is
//! what 02 says that it is, and so is the taxpayer's code; the answer has 02's
//! line count.
//!
//! The records are gone through as the grammar says: head, deleghe with
//! sections of lines, tail. Each is compared with the few that may stand
//! there, and only one that is none of them is looked at closely. Characters
//! are tested many records at a time, shortly before these are judged.

#![forbid(unsafe_code)]

mod characters;
mod codes;
mod ends;
mod faults;
mod layout;
mod number;
mod section;
#[cfg(test)]
mod tests;
mod walk;
mod words;

use faults::{fault, Fault};
use layout::{MOST_BYTES, RECORD};

/// "A refusal is a number, a record counted from 1, and a position."
#[derive(Clone, Copy, PartialEq, Eq, Debug)]
pub struct Refusal {
    pub number: u8,
    pub record: usize,
    pub position: usize,
}

/// What an accepted flow answers.
#[derive(Clone, Copy, PartialEq, Eq, Debug)]
pub struct Summary {
    pub deleghe: u64,
    pub records: usize,
    /// Sum of the final balances.
    pub total: u64,
    /// Line records.
    pub lines: u64,
    /// Debit and credit, in the order 01, 03, 05, 07, 17.
    pub sums: [(u64, u64); 5],
}

/// Judges a flow.
pub fn judge(flow: &[u8]) -> Result<Summary, Refusal> {
    // "Refusals 1 and 2 come first."
    if flow.len() > MOST_BYTES {
        return Err(refusal(fault(1, 0), 0));
    }
    if flow.is_empty() || flow.len() % RECORD != 0 {
        return Err(refusal(fault(2, 0), 0));
    }
    walk::judge(flow)
}

fn refusal(fault: Fault, record: usize) -> Refusal {
    Refusal { number: fault.number, record, position: usize::from(fault.position) }
}
