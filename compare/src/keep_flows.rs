//! A flow and the record beside it, as a series of calls goes on, and what the next
//! call is lent. Of most flows the generator knows the plan, and keeps it true.

use crate::calls::{Call, Record, SUMS_ROOM, WRONG_RECORD};
use crate::columns::MOST_AMOUNT;
use crate::correction;
use crate::drop_flows::{self, drawn, MakePlan};
use crate::keep_calls::{self, Ask};
use crate::keep_meddling::{MEDDLINGS, STARTS};
use crate::keep_records::{self, Around, HANDED, STALE};
use crate::kept::Account;
use crate::rng::Rng;
use crate::sound::{self, Plan, Pool, SectionPlan};

pub struct Held {
    pub flow: Vec<u8>,
    /// The record that the last call handed back, and what it was before the last
    /// call that was done.
    pub record: Record,
    before: Record,
    /// The deleghe, and the place of each in the plan that the series began with.
    pub plan: Plan,
    places: Vec<usize>,
    pub fillers: u64,
    /// Whether the lines are those of the plan.
    pub sure: bool,
}

/// A call, and what it is lent.
pub struct Next {
    pub flow: Vec<u8>,
    pub ask: Ask,
    pub account: Account,
    pub record: Record,
    /// The place of the record's sort, and of what was done to the flow before.
    pub sort: usize,
    pub meddled: usize,
    /// The flow is another for this call alone.
    once: bool,
}

/// The sorts of plans, each with how many of 1,060 it is.
pub const PLANS: [((u64, MakePlan), &str); 7] = [
    drop_flows::PLANS[0],
    drop_flows::PLANS[1],
    drop_flows::PLANS[2],
    drop_flows::PLANS[3],
    drop_flows::PLANS[4],
    drop_flows::PLANS[5],
    ((60, large_sums), "sums of seventeen digits"),
];

/// Deleghe of one line with as much credit as debit, or a cent less, mostly in one section:
/// its sums over the flow have more bits than a floating number holds.
fn large_sums(rng: &mut Rng) -> Plan {
    let (often, count) = (rng.place(4), rng.between(12, 19));
    let delega = |_| {
        let section = if rng.one_in(8) { rng.place(4) } else { often };
        let credit = MOST_AMOUNT - 1 - rng.below(1000);
        vec![SectionPlan { section, lines: vec![(credit + rng.below(2), credit)] }]
    };
    sound::one_by_one((0..count).map(delega).collect())
}

/// A flow, and the places of its plan and of what was done to it.
pub fn any_start(rng: &mut Rng, pool: &Pool) -> (Held, usize, usize) {
    let plan = drawn(rng, PLANS.iter().map(|plan| plan.0 .0));
    let (held, start) = start_of((PLANS[plan].0 .1)(rng), rng, pool);
    (held, plan, start)
}

/// The same with the plan given.
pub fn start_of(plan: Plan, rng: &mut Rng, pool: &Pool) -> (Held, usize) {
    let start = drawn(rng, STARTS.iter().map(|start| start.0 .0));
    let mut held = Held::of(plan, rng.next(), pool);
    (STARTS[start].0 .1)(&mut held, rng, pool);
    // Someone has kept the right one, or none, or anything, where none can be made.
    held.record = match rng.below(3) {
        0 => held.plan.sums(),
        1 => [0; SUMS_ROOM],
        _ => [(); SUMS_ROOM].map(|()| rng.next()),
    };
    held.before = held.record;
    (held, start)
}

impl Held {
    pub fn of(plan: Plan, fillers: u64, pool: &Pool) -> Self {
        let places = (0..plan.deleghe.len()).collect();
        let none = [0; SUMS_ROOM];
        let mut held = Held { flow: Vec::new(), record: none, before: none, plan, places, fillers, sure: true };
        held.flow = held.written(&held.plan, pool);
        held
    }

    /// The flow of the plan, or of one that is like it but for its lines, with every
    /// number worked out.
    pub fn written(&self, plan: &Plan, pool: &Pool) -> Vec<u8> {
        let deleghe = self.places.iter().copied().zip(&plan.deleghe);
        sound::write_placed(self.fillers, pool, plan, deleghe).bytes
    }

    /// What is lent to the next call. Others may have done something before.
    pub fn next(&mut self, rng: &mut Rng, pool: &Pool, alone: bool) -> Next {
        let mut meddled = if alone { 0 } else { drawn(rng, MEDDLINGS.iter().map(|meddling| meddling.0 .0)) };
        let old = self.flow.clone();
        let other = (MEDDLINGS[meddled].0 .1)(self, rng, pool);
        if other.as_ref().unwrap_or(&self.flow) == &old {
            meddled = 0;
        }
        let once = other.is_some();
        let flow = other.unwrap_or_else(|| self.flow.clone());
        let ask = keep_calls::any(rng, &flow, &self.plan);
        let account = Account::of(&flow, &ask);
        let mut sort = keep_records::any_sort(rng, self.record == account.before);
        let around = Around {
            flow: &flow,
            right: account.before,
            handed: self.record,
            before: self.before,
            after: account.sums,
        };
        let record = (keep_records::SORTS[sort].0)(rng, &around);
        if sort == HANDED && record != account.before {
            sort = STALE;
        }
        Next { flow, ask, account, record, sort, meddled, once }
    }

    /// Goes on from what a call that was done left: the whole lent flow and the
    /// record. Tells whether it did.
    pub fn goes_on(&mut self, next: &Next, after: &[u8], record: &[u64]) -> bool {
        if next.once {
            return false;
        }
        self.flow = after[..next.account.length].to_vec();
        self.before = self.record;
        self.record.copy_from_slice(&record[..SUMS_ROOM]);
        self.plan_done(&next.ask);
        true
    }

    /// The plan after a call was done.
    pub fn plan_done(&mut self, ask: &Ask) {
        if !self.sure {
            return;
        }
        match ask {
            Ask::Keep | Ask::Rebalance(_) => (),
            Ask::Correct(numbers) => correction::apply(&mut self.plan, &Call::correction(*numbers)),
            Ask::Drop(numbers) => {
                let kept = |at: usize| !numbers.contains(&(at as u64 + 1));
                let left = (0..self.places.len()).filter(|&at| kept(at));
                let (places, deleghe) = left.map(|at| (self.places[at], self.plan.deleghe[at].clone())).unzip();
                self.places = places;
                self.plan.deleghe = deleghe;
            }
        }
    }

    /// Whether the plan says which lines the call is lent.
    pub fn knows(&self, next: &Next) -> bool {
        self.sure && !next.once
    }

    /// Why the sums of the lines before a call are not those of the plan, or its answer is
    /// not the one that the plan says of the record.
    pub fn unlike_before(&self, next: &Next, code: u64) -> Option<String> {
        let sums = self.plan.sums();
        let is_wrong = next.ask != Ask::Keep && !next.account.own && next.record != sums;
        if next.account.before != sums {
            Some(format!("by the plan the lines have {sums:?}"))
        } else if is_wrong != (code == WRONG_RECORD) {
            Some(format!("by the plan the record is {}", if is_wrong { "wrong" } else { "right" }))
        } else {
            None
        }
    }

    /// Why the flow and the record after a call that was done are not those of the
    /// plan.
    pub fn unlike_after(&self, pool: &Pool) -> Option<String> {
        if self.flow != self.written(&self.plan, pool) {
            Some("not the flow of the plan".to_string())
        } else if self.record != self.plan.sums() {
            Some(format!("by the plan the record is {:?}", self.plan.sums()))
        } else {
            None
        }
    }
}
