//! The flows that are measured.

use crate::columns::*;
use crate::rng::Rng;
use crate::sound::{self, one_by_one, Amounts, Flow, Plan, Pool, SectionPlan};

pub const CASES: [&str; 9] = ["8", "80", "546", "wide", "large", "deleghe", "last-byte", "tail", "early"];

/// The most deleghe that a flow can hold: five records each.
const MOST_DELEGHE: usize = (MOST_RECORDS - 2) / 5;

/// The flow of a case.
pub fn flow(case: &str) -> Option<Vec<u8>> {
    let mut rng = Rng::new(24, 0, 0);
    let plan = match case {
        "8" => sound::printed(),
        "80" => sound::plan_of(&mut rng, 80, Amounts::Middle),
        "546" | "last-byte" | "tail" | "early" => sound::plan_of(&mut rng, MOST_RECORDS, Amounts::Middle),
        "wide" => sound::plan_of(&mut rng, MOST_RECORDS, Amounts::Wide),
        "large" => large(),
        "deleghe" => most_deleghe(&mut rng),
        _ => return None,
    };
    let mut flow = sound::write(&mut rng, &Pool::new(24), &plan);
    match case {
        "last-byte" => last_record(&mut flow)[RECORD - 1] = 127,
        "tail" => {
            let tail = last_record(&mut flow);
            let sum = sound::get(tail, TAIL_SUM, AMOUNT);
            sound::put(tail, TAIL_SUM, AMOUNT, sum + 1);
        }
        "early" => sound::put(flow.record(1), DELEGA, COUNT, 2),
        _ => (),
    }
    Some(flow.bytes)
}

fn last_record(flow: &mut Flow) -> &mut [u8] {
    let last = flow.kinds.len() - 1;
    flow.record(last)
}

/// As many deleghe as a flow can hold, each with one line in one section, the
/// five sections in turn; the last has as many lines as make up 546 records.
fn most_deleghe(rng: &mut Rng) -> Plan {
    let mut deleghe: Vec<Vec<SectionPlan>> = (0..MOST_DELEGHE)
        .map(|number| {
            let section = number % SECTIONS.len();
            let debit = rng.between(100, 10_000_000);
            let credit = if section == IDENTIFYING { 0 } else { debit / 4 };
            vec![SectionPlan { section, lines: vec![(debit, credit)] }]
        })
        .collect();
    let left = MOST_RECORDS - 2 - 5 * MOST_DELEGHE;
    deleghe[MOST_DELEGHE - 1] = vec![SectionPlan { section: 0, lines: vec![(2500, 0); 1 + left] }];
    one_by_one(deleghe)
}

/// Sixty deleghe of five or six Erario lines each, every one with a debit and a
/// credit above a million euros.
fn large() -> Plan {
    let lines = |number: u64| -> Vec<(u64, u64)> {
        let count = if number < 4 { 6 } else { 5 };
        (0..count).map(|line| (12_345_678_901 + 7 * number + line, 2_345_678_901 + number + line)).collect()
    };
    one_by_one((0..60).map(|number| vec![SectionPlan { section: 0, lines: lines(number) }]).collect())
}

/// A line and its amounts.
pub struct Spot {
    pub delega: u64,
    pub subtype: u64,
    pub place: u64,
    pub amounts: (u64, u64),
}

/// The flow of 546 records, and the first line in its second half.
pub fn middle() -> (Vec<u8>, Spot) {
    let mut rng = Rng::new(24, 0, 0);
    let plan = sound::plan_of(&mut rng, MOST_RECORDS, Amounts::Middle);
    let mut flow = sound::write(&mut rng, &Pool::new(24), &plan);
    let is_line = |&at: &usize| matches!(flow.kinds[at], Kind::Line(_));
    let at = (MOST_RECORDS / 2..MOST_RECORDS).find(is_line).expect("the second half has a line");
    let section = flow.kinds[at].section().expect("a line is in a section");
    let first = (0..at).rev().find(|&before| flow.kinds[before] != flow.kinds[at]).map_or(0, |before| before + 1);
    let Section { line, debit, credit, .. } = SECTIONS[section];
    let record = flow.record(at);
    let spot = Spot {
        delega: sound::get(record, DELEGA, COUNT),
        subtype: line,
        place: (at - first + 1) as u64,
        amounts: (sound::get(record, debit, AMOUNT), sound::get(record, credit, AMOUNT)),
    };
    (flow.bytes, spot)
}

/// The numbers of every other delega of a flow, from the second on.
pub fn every_other(flow: &[u8]) -> Vec<u64> {
    let tail = &flow[flow.len() - RECORD..];
    (2..=sound::get(tail, TAIL_DELEGHE, COUNT)).step_by(2).collect()
}

/// The flow of 546 records with blanks in every stored field.
pub fn blanked() -> Vec<u8> {
    let mut flow = middle().0;
    for record in flow.chunks_exact_mut(RECORD) {
        let fields = Kind::of(record).map_or(&[][..], Kind::stored);
        fields.iter().for_each(|&(start, width)| record[start - 1..start - 1 + width].fill(b' '));
    }
    flow
}
