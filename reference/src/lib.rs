//! A judge for CBI F24 payment flows, after the rules of document 01, with
//! the columns of CBI-F24-001. Words in quotation marks are those rules'. The
//! writer of flows from working sheets is after document 02, and so are the
//! position of refusal 7 and the date rule, which 02 amends, refusal 26, the
//! lines and sections of a summary, the judge by portions, the rebalancing, the
//! dropping of deleghe, the sums that are kept beside a flow, and the F24 EP form
//! of public bodies, which is a part of its own.
//!
//! Every input is taken, of every length and value. Sums can't overflow: a
//! flow has at most 546 records with amounts below 10^15.

mod codes;
mod dates;
mod digits;
mod dropping;
#[cfg(test)]
mod dropping_tests;
mod ep;
#[cfg(test)]
mod ep_tests;
mod ep_total;
#[cfg(test)]
mod foreign_tests;
mod judgement;
mod keeping;
#[cfg(test)]
mod keeping_tests;
mod layout;
#[cfg(test)]
mod portion_tests;
mod portions;
mod rebalancing;
#[cfg(test)]
mod rebalancing_tests;
#[cfg(test)]
mod sheet_tests;
mod sheets;
#[cfg(test)]
mod tests;

use digits::{non_digit, write_fifteen};
pub use dropping::drop_deleghe;
pub use ep::{judge_ep, EpSummary, MOST_EP_BYTES};
use judgement::{Fault, Judgement, Step, Usage};
pub use keeping::{Kept, KEPT_NUMBERS};
use layout::*;
pub use portions::{judge_portion, Answer, Answered, State, STATE_NUMBERS};
pub use rebalancing::rebalance;
pub use sheets::write;
// The comparison asks for more of a refusal than the command line.
#[allow(unused_imports)]
pub use sheets::write_or_tell;
use std::fmt;

/// "A refusal is a number, a record counted from 1, and a position."
#[derive(Clone, Copy, PartialEq, Eq, Debug)]
pub struct Refusal {
    pub number: u8,
    pub record: usize,
    pub position: usize,
}

impl Refusal {
    /// A refusal with record 0 and position 0.
    fn nowhere(number: u8) -> Self {
        Refusal {
            number,
            record: 0,
            position: 0,
        }
    }

    /// The refusal of the record with this number, counted from 1.
    ///
    /// Document 02: "7 names the first non-digit's own position in every kind
    /// of record and in the sheets". It is looked for here, where the judgement
    /// has ended, so that a record that passes costs no more.
    #[cold]
    fn of(fault: Fault, number: usize, record: &Record) -> Self {
        Refusal {
            number: fault.number,
            record: number,
            position: match fault.number {
                7 => non_digit(record, fault.position),
                _ => fault.position,
            },
        }
    }
}

/// "A refusal prints one line: REFUSED, number, record, position."
impl fmt::Display for Refusal {
    fn fmt(&self, f: &mut fmt::Formatter<'_>) -> fmt::Result {
        write!(
            f,
            "REFUSED {} {} {}",
            self.number, self.record, self.position
        )
    }
}

impl std::error::Error for Refusal {}

/// "An accepted flow answers the number of deleghe, the number of records, the
/// sum of final balances, and the debit and credit sums for each of the five
/// sections over the flow." Document 02: "The summary of a flow, and of one
/// delega, gains the line count".
#[derive(Clone, Copy, PartialEq, Eq, Debug)]
pub struct Summary {
    pub deleghe: u64,
    pub records: usize,
    pub total: u64,
    /// Line records over the flow.
    pub lines: u64,
    /// Debit and credit, in the order 01, 03, 05, 07, 17.
    pub sums: [(u64, u64); 5],
}

/// "For one delega its final balance and its ten section sums are given".
/// Document 02 adds the line count, and "which" of the sections it uses, "that
/// set as one number (1, 2, 4, 8, 16 added, in 01's order) and its size".
#[derive(Clone, Copy, PartialEq, Eq, Debug)]
pub struct DelegaSummary {
    pub final_balance: u64,
    /// Its line records.
    pub lines: u64,
    /// The sections that it has lines of: Erario 1, INPS 2, Regioni 4, IMU 8,
    /// identifying elements 16, added.
    pub set: u64,
    /// How many they are.
    pub size: u64,
    /// Debit and credit, in the order 01, 03, 05, 07, 17.
    pub sums: [(u64, u64); 5],
}

/// Judges a flow.
pub fn judge(flow: &[u8]) -> Result<Summary, Refusal> {
    judge_watched(flow, |_| ())
}

/// The summary of one delega: "a number that is 0 or above the count is refused
/// 21".
pub fn delega(flow: &[u8], number: u64) -> Result<DelegaSummary, Refusal> {
    let mut found = None;
    judge_watched(flow, |judgement| {
        if judgement.step == Step::Payment && judgement.deleghe == number {
            found = delega_summary(judgement);
        }
    })?;
    found.ok_or(Refusal::nowhere(21))
}

/// The record, counted from 1, of a line "named by delega number, line subtype
/// and its place in the section, counted from 1".
pub fn find(flow: &[u8], delega: u64, subtype: u64, place: u64) -> Result<usize, Refusal> {
    let (_, found) = locate(flow, delega, subtype, place)?;
    Ok(found.line)
}

/// Gives one line new amounts, in place. "A correction then tries 21, 22, 9,
/// 14, 23 in this order"; a refusal leaves the flow as it came.
pub fn correct(
    flow: &mut [u8],
    delega: u64,
    subtype: u64,
    place: u64,
    debit: u64,
    credit: u64,
) -> Result<(), Refusal> {
    let (summary, found) = locate(flow, delega, subtype, place)?;
    let section = &SECTIONS[found.section];
    if debit > MOST_AMOUNT || credit > MOST_AMOUNT {
        return Err(Refusal::nowhere(22));
    }
    if section.wrong_amount(debit, credit).is_some() {
        return Err(Refusal::nowhere(9));
    }

    // Sums change "by new less old".
    let (old_debit, old_credit) = found.amounts;
    let mut sums = found.delega.sums;
    let (debits, credits) = &mut sums[found.section];
    *debits = *debits - old_debit + debit;
    *credits = *credits - old_credit + credit;
    let (debits, credits) = (*debits, *credits);

    let due = final_balance(&sums).ok_or(Refusal::nowhere(14))?;
    let balance = debits.abs_diff(credits);
    let total = summary.total - found.delega.final_balance + due;

    let totals_fit = section.totals_at.is_none() || debits.max(credits) <= MOST_AMOUNT;
    let others_fit = [balance, due, total]
        .iter()
        .all(|&value| value <= MOST_AMOUNT);
    if !totals_fit || !others_fit {
        return Err(Refusal::nowhere(23));
    }

    // "The line's debit and credit; totals, sign and balance of that section's
    // balance record; the final balance of that delega; the sum in EF. Nothing
    // else".
    let line = record_mut(flow, found.line);
    write_fifteen(line, section.debit_at, debit);
    write_fifteen(line, section.credit_at, credit);

    let closing = record_mut(flow, found.balance);
    if let Some((debit_at, credit_at)) = section.totals_at {
        write_fifteen(closing, debit_at, debits);
        write_fifteen(closing, credit_at, credits);
    }
    closing[section.sign_at - 1] = sign(debits, credits);
    write_fifteen(closing, section.balance_at, balance);

    write_fifteen(record_mut(flow, found.payment), FINAL_BALANCE, due);
    write_fifteen(record_mut(flow, summary.records), TAIL_SUM, total);
    Ok(())
}

/// Judges a flow in one pass and lets `watch` see the state after each record.
fn judge_watched(flow: &[u8], watch: impl FnMut(&Judgement)) -> Result<Summary, Refusal> {
    length(flow)?;
    let mut judgement = Judgement::new();
    take_all(&mut judgement, flow, watch)?;
    ended(&judgement)
}

/// "Refusals 1 and 2 come first."
fn length(flow: &[u8]) -> Result<(), Refusal> {
    if flow.len() > MOST_BYTES {
        return Err(Refusal::nowhere(1));
    }
    if flow.is_empty() || flow.len() % RECORD != 0 {
        return Err(Refusal::nowhere(2));
    }
    Ok(())
}

/// Goes on with the judgement over these whole records, up to the first that is
/// refused, and lets `watch` see the state after each that passes.
#[inline]
fn take_all(
    judgement: &mut Judgement,
    records: &[u8],
    mut watch: impl FnMut(&Judgement),
) -> Result<(), Refusal> {
    for record in records.chunks_exact(RECORD) {
        let record: &Record = record.try_into().expect("a chunk is a record long");
        judgement
            .take(record)
            .map_err(|fault| Refusal::of(fault, judgement.records, record))?;
        watch(judgement);
    }
    Ok(())
}

/// The answer once the last record has passed.
fn ended(judgement: &Judgement) -> Result<Summary, Refusal> {
    // "Refusal 5 comes after all records have passed."
    if judgement.step != Step::Tail {
        return Err(Refusal {
            number: 5,
            record: judgement.records + 1,
            position: 0,
        });
    }
    Ok(Summary {
        deleghe: judgement.deleghe,
        records: judgement.records,
        total: judgement.total,
        lines: judgement.flow_lines,
        sums: judgement.flow,
    })
}

/// A line and all that hangs on it; records are counted from 1.
struct Located {
    section: usize,
    line: usize,
    amounts: (u64, u64),
    balance: usize,
    payment: usize,
    delega: DelegaSummary,
}

/// "Every call on a flow judges it first and gives that refusal if there is
/// one", then 21 for "no such delega, section or line".
fn locate(
    flow: &[u8],
    delega: u64,
    subtype: u64,
    place: u64,
) -> Result<(Summary, Located), Refusal> {
    let section = SECTIONS
        .iter()
        .position(|section| section.number == subtype);
    let mut line = None;
    let mut balance = None;
    let mut payment = None;
    let summary = judge_watched(flow, |judgement| {
        if judgement.deleghe != delega {
            return;
        }
        match judgement.step {
            Step::Line(index) if Some(index) == section && judgement.lines == place => {
                line = Some((index, judgement.records, judgement.amounts));
            }
            Step::Balance(index) if Some(index) == section => balance = Some(judgement.records),
            Step::Payment => payment = Some((judgement.records, delega_summary(judgement))),
            _ => (),
        }
    })?;
    let located = || {
        let (section, line, amounts) = line?;
        let (payment, delega) = payment?;
        Some(Located {
            section,
            line,
            amounts,
            balance: balance?,
            payment,
            delega: delega?,
        })
    };
    let located = located().ok_or(Refusal::nowhere(21))?;
    Ok((summary, located))
}

/// The summary of the delega whose 50-01 has just passed.
fn delega_summary(judgement: &Judgement) -> Option<DelegaSummary> {
    let Usage { lines, set, size } = judgement.usage;
    debug_assert_eq!(u64::from(set.count_ones()), size);
    Some(DelegaSummary {
        final_balance: final_balance(&judgement.paid)?,
        lines,
        set,
        size,
        sums: judgement.paid,
    })
}

/// The record with this number, counted from 1.
fn record_mut(flow: &mut [u8], number: usize) -> &mut [u8] {
    &mut flow[(number - 1) * RECORD..number * RECORD]
}
