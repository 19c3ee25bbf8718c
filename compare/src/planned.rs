//! What the plan alone says of calls on its flow: no record is read here. It knows the
//! lines and their amounts, and so which correction is made and which is refused, and
//! what a judgement and a delega are answered with.

use crate::calls::{Call, SUMS};
use crate::columns::*;
use crate::correction::{self, Place};
use crate::sound::{DelegaPlan, Plan};

/// What has more digits than its field, by the first of them that has.
#[derive(Clone, Copy, PartialEq, Eq, Debug)]
pub enum Unfit {
    /// The section's total debit, and nothing else.
    DebitAlone,
    /// It, and others behind it.
    Debit,
    Credit,
    /// That of section 17, which stores no totals.
    Balance,
    Final,
    /// The sum in the tail, and nothing else.
    Tail,
}

/// How a correction ends.
#[derive(Clone, Copy, PartialEq, Eq, Debug)]
pub struct Says {
    /// The number of the refusal, 0 where there is none.
    pub number: u64,
    /// What is too large where that is 23.
    pub unfit: Option<Unfit>,
}

impl Says {
    fn refused(number: u64) -> Self {
        Says { number, unfit: None }
    }

    /// What is said of a correction with these numbers.
    pub fn of(plan: &Plan, numbers: [u64; 5]) -> Self {
        let [_, subtype, _, debit, credit] = numbers;
        let place = match place(plan, numbers) {
            Some(place) => place,
            None => return Says::refused(21),
        };
        let identifying = subtype == SECTIONS[IDENTIFYING].line;
        if debit.max(credit) > MOST_AMOUNT {
            return Says::refused(22);
        }
        if debit + credit == 0 || identifying && credit > 0 {
            return Says::refused(9);
        }
        let after = after(plan, numbers);
        if after.deleghe[place.delega].balance() < 0 {
            return Says::refused(14);
        }
        let unfit = unfit(&after, place);
        Says { number: if unfit.is_some() { 23 } else { 0 }, unfit }
    }
}

/// Where the line that these numbers name first stands in the plan.
pub fn place(plan: &Plan, [delega, subtype, place, ..]: [u64; 5]) -> Option<Place> {
    let (delega, line) = (delega.checked_sub(1)?, place.checked_sub(1)?);
    let sections = &plan.deleghe.get(usize::try_from(delega).ok()?)?.sections;
    let section = sections.iter().position(|section| SECTIONS[section.section].line == subtype)?;
    let line = usize::try_from(line).ok()?;
    sections[section].lines.get(line)?;
    Some(Place { delega: delega as usize, section, line })
}

/// The plan after a correction of a line that is there.
pub fn after(plan: &Plan, numbers: [u64; 5]) -> Plan {
    let mut after = plan.clone();
    correction::apply(&mut after, &Call::correction(numbers));
    after
}

/// What is too large in the section, the delega and the tail around a line.
fn unfit(plan: &Plan, place: Place) -> Option<Unfit> {
    let delega = &plan.deleghe[place.delega];
    let section = &delega.sections[place.section];
    let (debit, credit) = section.sums();
    let is_large = |sum: u64| sum > MOST_AMOUNT;
    let stores_totals = SECTIONS[section.section].totals.is_some();
    let sum = total(plan);
    match (stores_totals && is_large(debit), stores_totals && is_large(credit)) {
        (true, false) if !is_large(debit.abs_diff(credit)) && !is_large(sum) => Some(Unfit::DebitAlone),
        (true, _) => Some(Unfit::Debit),
        (_, true) => Some(Unfit::Credit),
        _ if is_large(debit.abs_diff(credit)) => Some(Unfit::Balance),
        _ if is_large(delega.balance().unsigned_abs()) => Some(Unfit::Final),
        _ if is_large(sum) => Some(Unfit::Tail),
        _ => None,
    }
}

/// The sum of the final balances, none of which is negative.
pub fn total(plan: &Plan) -> u64 {
    plan.deleghe.iter().map(|delega| delega.balance().unsigned_abs()).sum()
}

/// How a judgement of the plan's flow is answered.
pub fn judged(plan: &Plan) -> Vec<u64> {
    let records: usize = plan.deleghe.iter().map(DelegaPlan::records).sum();
    let lines: usize = plan.deleghe.iter().map(lines).sum();
    let mut answer = vec![plan.deleghe.len() as u64, records as u64 + 2, total(plan), lines as u64];
    answer.extend(plan.sums());
    answer
}

/// How a call for a delega is answered: its number and what it tells.
pub fn delega(plan: &Plan, number: u64) -> (u64, Vec<u64>) {
    let at = number.checked_sub(1).filter(|&at| at < plan.deleghe.len() as u64);
    let delega = match at {
        Some(at) => &plan.deleghe[at as usize],
        None => return (21, vec![0, 0]),
    };
    let mut answer = vec![delega.balance().unsigned_abs(), lines(delega) as u64, 0, delega.sections.len() as u64];
    answer.resize(SUMS + 2 * SECTIONS.len(), 0);
    for section in &delega.sections {
        let (debit, credit) = section.sums();
        answer[2] += 1 << section.section;
        answer[SUMS + 2 * section.section] = debit;
        answer[SUMS + 2 * section.section + 1] = credit;
    }
    (0, answer)
}

fn lines(delega: &DelegaPlan) -> usize {
    delega.sections.iter().map(|section| section.lines.len()).sum()
}
