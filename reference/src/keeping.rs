//! Sums kept beside the flow, after document 02. Words in quotation marks without
//! another source are its own.
//!
//! "Keep the ten section sums of the flow in a small record beside it, made when
//! the flow is accepted and handed back by each correction, rebalancing and
//! dropping."

use super::digits::fifteen;
use super::layout::*;
use super::rebalancing::{judge_remaining, rebalance};
use super::{correct, drop_deleghe, judge, Refusal};

/// How many numbers the record is.
pub const KEPT_NUMBERS: usize = 10;

/// The record: a debit and a credit for each section, in the order 01, 03, 05, 07,
/// 17. A call that succeeds leaves the sums of the flow as it is then, and a refusal
/// the record as it came.
#[derive(Clone, Copy, PartialEq, Eq, Debug)]
pub struct Kept {
    sums: Sums,
}

impl Kept {
    /// "made when the flow is accepted"
    pub fn made(flow: &[u8]) -> Result<Self, Refusal> {
        judge(flow)?;
        Ok(Kept {
            sums: added_up(flow),
        })
    }

    /// The record of these numbers, whatever flow they stand for.
    pub fn of(numbers: &[u64; KEPT_NUMBERS]) -> Self {
        let mut sums = Sums::default();
        for (sums, pair) in sums.iter_mut().zip(numbers.chunks_exact(2)) {
            *sums = (pair[0], pair[1]);
        }
        Kept { sums }
    }

    /// Debit and credit in turn.
    pub fn numbers(&self) -> [u64; KEPT_NUMBERS] {
        let mut numbers = [0; KEPT_NUMBERS];
        for (pair, &(debits, credits)) in numbers.chunks_exact_mut(2).zip(&self.sums) {
            pair.copy_from_slice(&[debits, credits]);
        }
        numbers
    }

    /// A correction.
    pub fn correct(
        &mut self,
        flow: &mut [u8],
        delega: u64,
        subtype: u64,
        place: u64,
        debit: u64,
        credit: u64,
    ) -> Result<(), Refusal> {
        judge(flow)?;
        self.stands_for(flow)?;
        correct(flow, delega, subtype, place, debit, credit)?;
        self.sums = added_up(flow);
        Ok(())
    }

    /// A rebalancing. The judgement's own refusals are here those that stop it: "the
    /// first remaining fault of 01's checks".
    pub fn rebalance(&mut self, flow: &mut [u8], changed: &mut [u64]) -> Result<usize, Refusal> {
        judge_remaining(flow)?;
        self.stands_for(flow)?;
        let listed = rebalance(flow, changed)?;
        self.sums = added_up(flow);
        Ok(listed)
    }

    /// A dropping; the sums afterwards are those of what is left.
    pub fn drop_deleghe(&mut self, flow: &mut [u8], numbers: &[u64]) -> Result<usize, Refusal> {
        judge(flow)?;
        self.stands_for(flow)?;
        let length = drop_deleghe(flow, numbers)?;
        self.sums = added_up(&flow[..length]);
        Ok(length)
    }

    /// "29 for such a call, after the judgement's own refusals and before all
    /// others": "The record stands only for a flow whose lines have those ten sums".
    fn stands_for(&self, flow: &[u8]) -> Result<(), Refusal> {
        if self.sums == added_up(flow) {
            Ok(())
        } else {
            Err(Refusal::nowhere(29))
        }
    }
}

/// The ten sums over the line records of a flow whose lines have passed, whatever
/// its stored totals are.
fn added_up(flow: &[u8]) -> Sums {
    let mut all = Sums::default();
    for record in flow.chunks_exact(RECORD) {
        let record: &Record = record.try_into().expect("a chunk is a record long");
        if record[TYPE - 1..=TYPE] != *b"40" {
            continue;
        }
        let subtype = &record[SUBTYPE - 1..=SUBTYPE];
        let section = SECTIONS.iter().position(|section| section.line == subtype);
        if let Some(index) = section {
            let amount = |at| fifteen(record, at).expect("a line that has passed has digits");
            let (debits, credits) = &mut all[index];
            *debits += amount(SECTIONS[index].debit_at);
            *credits += amount(SECTIONS[index].credit_at);
        }
    }
    all
}
