//! Which correction to try on a sound flow whose plan is known.

use crate::calls::Call;
use crate::columns::*;
use crate::rng::Rng;
use crate::sound::{DelegaPlan, Plan};
use std::ops::RangeInclusive;

pub const MOST: i64 = MOST_AMOUNT as i64;

/// The places of a delega, of one of its sections and of a line there, all counted
/// from 0.
#[derive(Clone, Copy, PartialEq, Eq, Debug)]
pub struct Place {
    pub delega: usize,
    pub section: usize,
    pub line: usize,
}

/// A line of a plan, and what is around it.
pub struct Spot {
    place: Place,
    pub old: (i64, i64),
    /// The section's sums and the delega's balance without this line, and the
    /// sum of final balances without this delega.
    pub debits: i64,
    pub credits: i64,
    pub balance: i64,
    others: i64,
    pub identifying: bool,
}

impl Spot {
    pub fn at(plan: &Plan, place: Place) -> Self {
        let d = &plan.deleghe[place.delega];
        let s = &d.sections[place.section];
        let (debit, credit) = s.lines[place.line];
        let (debit, credit) = (debit as i64, credit as i64);
        let sums = s.sums();
        let sum: i64 = plan.deleghe.iter().map(DelegaPlan::balance).sum();
        Spot {
            place,
            old: (debit, credit),
            debits: sums.0 as i64 - debit,
            credits: sums.1 as i64 - credit,
            balance: d.balance() - debit + credit,
            others: sum - d.balance(),
            identifying: s.section == IDENTIFYING,
        }
    }

    /// The largest debit beside this credit with which every sum fits.
    pub fn highest(&self, credit: i64) -> i64 {
        (MOST - self.debits).min(MOST - self.balance + credit).min(MOST - self.others - self.balance + credit)
    }

    /// The smallest debit beside this credit with no negative delega.
    pub fn lowest(&self, credit: i64) -> i64 {
        (credit - self.balance).max(0)
    }
}

fn spot(rng: &mut Rng, plan: &Plan) -> Spot {
    let delega = rng.place(plan.deleghe.len());
    let section = rng.place(plan.deleghe[delega].sections.len());
    let line = rng.place(plan.deleghe[delega].sections[section].lines.len());
    Spot::at(plan, Place { delega, section, line })
}

pub fn up_to(rng: &mut Rng, most: i64) -> i64 {
    rng.wide(most.max(0) as u64) as i64
}

/// A correction for this plan; each way it may end comes up often.
pub fn choose(rng: &mut Rng, plan: &Plan) -> Call {
    let mut spot = self::spot(rng, plan);
    let aim = rng.below(16);
    if aim >= 12 {
        // Negative deleghe and sums that do not fit: not every line can be
        // given such amounts, so look at a few.
        for _ in 0..4 {
            let fit = if aim < 14 { !spot.identifying } else { spot.highest(0) < MOST };
            if fit {
                break;
            }
            spot = self::spot(rng, plan);
        }
    }
    aimed(rng, plan, &spot, aim)
}

/// A correction of this line, or of one that is not there in its place.
pub fn choose_at(rng: &mut Rng, plan: &Plan, place: Place) -> Call {
    let aim = rng.below(16);
    aimed(rng, plan, &Spot::at(plan, place), aim)
}

/// The aims that are refused whatever the other lines have: 21, 22 and 9.
pub const REFUSED: RangeInclusive<u64> = 1..=6;
/// Those that are refused 14 or 23 by what the other lines have.
pub const UNFIT: RangeInclusive<u64> = 12..=15;

/// A correction of this line with one of the sixteen aims.
pub fn aimed(rng: &mut Rng, plan: &Plan, spot: &Spot, aim: u64) -> Call {
    let (debit, credit) = match aim {
        0 => spot.old,
        1 | 2 => {
            return nowhere(rng, plan, spot);
        }
        3 | 4 => {
            let large = rng.pick(&[MOST + 1, MOST + 2, 10 * MOST, i64::MAX]);
            match rng.below(4) {
                0 => (large, 0),
                1 => (0, large),
                2 => (large, large),
                _ => return amounts(plan, spot, u64::MAX - rng.below(3), rng.below(3)),
            }
        }
        5 | 6 => match (spot.identifying, rng.below(3)) {
            (true, 0) => (0, 1 + up_to(rng, MOST - 1)),
            (true, 1) => (spot.old.0, 1),
            _ => (0, 0),
        },
        12 | 13 => {
            let debit = if rng.one_in(2) { 0 } else { up_to(rng, MOST - spot.debits) };
            let below = if rng.one_in(2) { 1 } else { 1 + up_to(rng, 100_000) };
            (debit, (spot.balance + debit + below).clamp(1, MOST))
        }
        14 => {
            let credit = if spot.identifying || rng.one_in(2) { 0 } else { up_to(rng, MOST - spot.credits) };
            let over = if rng.one_in(2) { 1 } else { 1 + up_to(rng, MOST) };
            ((spot.highest(credit) + over).clamp(1, MOST), credit)
        }
        15 if !spot.identifying => {
            let over = if rng.one_in(2) { 1 } else { 1 + up_to(rng, MOST) };
            let credit = (MOST - spot.credits + over).min(MOST);
            (spot.lowest(credit).min(MOST), credit)
        }
        _ => fitting(rng, spot),
    };
    amounts(plan, spot, debit as u64, credit as u64)
}

/// New amounts that can be made, at the very edge now and then.
pub fn fitting(rng: &mut Rng, spot: &Spot) -> (i64, i64) {
    // None is left where the plan's sums do not fit.
    let most_credit = (MOST - spot.credits).max(0);
    let mut credit = match rng.below(8) {
        _ if spot.identifying => 0,
        0 => most_credit,
        1 => spot.balance.clamp(0, most_credit),
        2 | 3 => up_to(rng, most_credit),
        4 => spot.old.1,
        _ => 0,
    };
    if spot.lowest(credit) > spot.highest(credit) {
        credit = 0;
    }
    let (low, high) = (spot.lowest(credit), spot.highest(credit));
    if low > high {
        return spot.old;
    }
    let debit = match rng.below(8) {
        0 | 1 => low,
        2 => high,
        3 => spot.old.0.clamp(low, high),
        _ => low + up_to(rng, high - low),
    };
    if (debit, credit) == (0, 0) {
        return (1.min(high), 0);
    }
    (debit, credit)
}

/// The correction of this line to these amounts.
pub fn amounts(plan: &Plan, spot: &Spot, debit: u64, credit: u64) -> Call {
    let Place { delega, section, line } = spot.place;
    Call::Correct {
        delega: delega as u64 + 1,
        subtype: SECTIONS[plan.deleghe[delega].sections[section].section].line,
        place: line as u64 + 1,
        debit,
        credit,
    }
}

/// A line that is not there; its amounts may be wrong besides.
fn nowhere(rng: &mut Rng, plan: &Plan, spot: &Spot) -> Call {
    let deleghe = plan.deleghe.len() as u64;
    let lines = plan.deleghe[spot.place.delega].sections[spot.place.section].lines.len() as u64;
    let call = match rng.below(3) {
        0 => amounts(plan, spot, 5, 0),
        1 => amounts(plan, spot, 0, 0),
        _ => amounts(plan, spot, MOST_AMOUNT + 1, 1),
    };
    let (mut delega, mut subtype, mut place) = match call {
        Call::Correct { delega, subtype, place, .. } => (delega, subtype, place),
        _ => (0, 0, 0),
    };
    match rng.below(8) {
        0 => delega = 0,
        1 => delega = deleghe + 1,
        2 => delega = rng.pick(&[u64::MAX, 1 << 32, 10_000_000, delega + (1 << 32), delega + (1 << 56)]),
        3 => subtype = rng.pick(&[1, 3, 5, 7, 17]),
        4 => subtype = rng.pick(&[0, 2, 4, 6, 8, 9, 11, 16, 18, 255, u64::MAX, subtype + 256, subtype + (1 << 32)]),
        5 => place = 0,
        6 => place = lines + 1,
        _ => place = rng.pick(&[7, 29, 256, u64::MAX, place + 256, place + (1 << 32)]),
    }
    match call {
        Call::Correct { debit, credit, .. } => Call::Correct { delega, subtype, place, debit, credit },
        other => other,
    }
}

/// A call with arguments of every kind, for a flow that is not known.
pub fn anything(rng: &mut Rng) -> Call {
    let delega = rng.pick(&[0, 1, 1, 1, 1, 2, 2, 3, u64::MAX]);
    let subtype = rng.pick(&[1, 1, 3, 5, 7, 17, 17, 2, 0]);
    let place = rng.pick(&[0, 1, 1, 1, 1, 2, 2, 3, 5, u64::MAX]);
    match rng.below(3) {
        0 => Call::Delega { number: delega },
        1 => Call::Find { delega, subtype, place },
        _ => {
            let (debit, credit) = (rng.wide(2 * MOST_AMOUNT), rng.wide(MOST_AMOUNT));
            Call::Correct { delega, subtype, place, debit, credit }
        }
    }
}

/// The plan after a correction was made.
pub fn apply(plan: &mut Plan, call: &Call) {
    if let Call::Correct { delega, subtype, place, debit, credit } = *call {
        let delega = &mut plan.deleghe[delega as usize - 1];
        for section in delega.sections.iter_mut() {
            if SECTIONS[section.section].line == subtype {
                section.lines[place as usize - 1] = (debit, credit);
            }
        }
    }
}
