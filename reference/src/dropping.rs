//! Dropping deleghe, after document 02. Words in quotation marks without another
//! source are its own.
//!
//! "Given an accepted flow and a list of delega numbers, close the flow up over
//! them, renumber the rest from 1, and set the tail."

use super::judgement::Step;
use super::layout::*;
use super::{judge_watched, Refusal};
use std::collections::BTreeSet;

/// Digits of a delega's number and of the tail's two counts.
const COUNT: usize = 7;
/// Digits of the tail's sum.
const AMOUNT: usize = 15;

/// A delega taken out of its flow: its records, and what it comes to.
struct Delega {
    records: Vec<Record>,
    due: u64,
}

/// Drops the deleghe with these numbers, in place; the answer is the length of
/// what is left. "The room set free at the end of the lent buffer is filled with
/// spaces". A refusal leaves the flow as it came.
pub fn drop_deleghe(flow: &mut [u8], numbers: &[u64]) -> Result<usize, Refusal> {
    // "Refusals, with nothing written, after 01's"
    let all = taken_apart(flow)?;

    // "21 for a number not in the flow or named twice"
    let dropped: BTreeSet<u64> = numbers.iter().copied().collect();
    let there = 1..=all.len() as u64;
    if dropped.len() < numbers.len() || !dropped.iter().all(|number| there.contains(number)) {
        return Err(Refusal::nowhere(21));
    }

    // "then 28 when none would be left"
    if dropped.len() == all.len() {
        return Err(Refusal::nowhere(28));
    }

    let kept: Vec<Delega> = there
        .zip(all)
        .filter(|(number, _)| !dropped.contains(number))
        .map(|(_, delega)| delega)
        .collect();
    let mut left = put_together(flow, &kept);
    let length = left.len();
    left.resize(flow.len(), b' ');
    flow.copy_from_slice(&left);
    Ok(length)
}

/// The deleghe of an accepted flow.
fn taken_apart(flow: &[u8]) -> Result<Vec<Delega>, Refusal> {
    let mut deleghe: Vec<Delega> = Vec::new();
    let mut records = flow.chunks_exact(RECORD);
    judge_watched(flow, |judgement| {
        let record = records.next().expect("a record passed");
        match judgement.step {
            Step::Start | Step::Head | Step::Tail => return,
            Step::Taxpayer => deleghe.push(Delega {
                records: Vec::new(),
                due: 0,
            }),
            _ => (),
        }
        let delega = deleghe.last_mut().expect("a delega begins with its 10");
        delega.records.push(record.try_into().expect("a record"));
        if judgement.step == Step::Payment {
            delega.due = final_balance(&judgement.paid).unwrap_or(0);
        }
    })?;
    Ok(deleghe)
}

/// A flow of these deleghe, numbered from 1, with the head and the tail of another;
/// the tail's counts and sum are theirs. "Kept deleghe differ only in their number."
fn put_together(flow: &[u8], deleghe: &[Delega]) -> Vec<u8> {
    let mut left = flow[..RECORD].to_vec();
    for (number, delega) in (1..).zip(deleghe) {
        for record in &delega.records {
            left.extend(with_number(record, DELEGA, COUNT, number));
        }
    }
    let due = deleghe.iter().map(|delega| delega.due).sum();
    let records = left.len() / RECORD + 1;
    let tail: &[u8] = &flow[flow.len() - RECORD..];
    let tail: Record = tail.try_into().expect("a record");
    let tail = with_number(&tail, TAIL_DELEGHE, COUNT, deleghe.len() as u64);
    let tail = with_number(&tail, TAIL_SUM, AMOUNT, due);
    let tail = with_number(&tail, TAIL_RECORDS, COUNT, records as u64);
    left.extend(tail);
    left
}

/// The record with a number at this position, of so many digits.
fn with_number(record: &Record, position: usize, width: usize, number: u64) -> Record {
    let mut record = *record;
    let text = format!("{number:0width$}");
    record[position - 1..position - 1 + width].copy_from_slice(text.as_bytes());
    record
}
