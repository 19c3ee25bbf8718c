//! Makes the calls of a pair in both orders, on the library and on the reference. What
//! they leave is held to the claims, to the plan, to the answers for all deleghe before,
//! to the library's calls in a row on one flow, and to the calls with a record.

use crate::calls::{Call, Record, SUMS_ROOM};
use crate::columns::RECORD;
use crate::comparer::Comparer;
use crate::ffi;
use crate::keep_calls::Ask;
use crate::keeping::{Case, Keepings};
use crate::kept::Account;
use crate::list_call::Left;
use crate::pair_claims::{Ends, Step, ORDERS, ORDER_NAMES};
use crate::pair_flows::{written, Pair};
use crate::pair_report::{Difference, Of};
use crate::pair_tally::Tally;
use crate::planned::{self, Says};
use crate::rng::Rng;
use crate::sound::{Plan, Pool};

/// Of longer flows a few deleghe are asked for, and all in one case of so many.
const LONG: usize = 100 * RECORD;
const SELDOM: u64 = 8;

/// The number with which a call for a delega is answered, and what it tells.
type Told = (u64, Vec<u64>);

/// A pair on its way through one of its orders.
struct Course<'a> {
    pair: &'a Pair,
    pool: &'a Pool,
    order: usize,
    /// The lines as they are now.
    plan: Plan,
    /// The deleghe that are asked for, and what was told last.
    asked: &'a [u64],
    told: Vec<Told>,
}

impl Course<'_> {
    /// Why a call is not what the plan says: how it ends, and where it is made the whole
    /// flow, written anew. The plan goes on with it.
    fn unlike_plan(&mut self, numbers: [u64; 5], step: &Step) -> Option<String> {
        let says = Says::of(&self.plan, numbers);
        if says.number != step.code {
            return Some(format!("{} is answered, the plan says {}", step.code, says.number));
        }
        if says.number == 0 {
            self.plan = planned::after(&self.plan, numbers);
        }
        let flow = written(self.pair.fillers?, self.pool, &self.plan);
        Some("not the flow of the plan".to_string()).filter(|_| step.flow != flow)
    }

    /// Why what is told now is not what was told before for all deleghe but one, or not
    /// what the plan says of all.
    fn unlike_before(&self, corrected: u64, now: &[Told]) -> Option<String> {
        self.asked.iter().zip(self.told.iter().zip(now)).find_map(|(&number, (before, after))| {
            let says = planned::delega(&self.plan, number);
            if number != corrected && before != after {
                Some(format!("delega {number} is told {before:?} before and {after:?} after"))
            } else {
                Some(format!("delega {number} is told {after:?}, the plan says {says:?}")).filter(|_| *after != says)
            }
        })
    }
}

/// The two calls.
const NAMES: [&str; 2] = ["A", "B"];

pub struct Pairings {
    comparer: Comparer,
    keepings: Keepings,
    pub tally: Tally,
    step: String,
}

impl Pairings {
    pub fn new() -> Self {
        Pairings { comparer: Comparer::new(), keepings: Keepings::new(), tally: Tally::default(), step: String::new() }
    }

    /// Compares a pair.
    pub fn compare(&mut self, rng: &mut Rng, pool: &Pool, pair: &Pair) -> Result<(), Box<Difference>> {
        self.tried(rng, pool, pair).map_err(|of| {
            let (start, calls, step) = (pair.flow.clone(), pair.calls, self.step.clone());
            Box::new(Difference { start, calls, step, of })
        })
    }

    fn tried(&mut self, rng: &mut Rng, pool: &Pool, pair: &Pair) -> Result<(), Of> {
        let asked = asked(rng, pair);
        self.step = "the flow before".to_string();
        let told = self.deleghe(rng, &pair.flow, &asked)?;
        let same_line = pair.calls[0][..3] == pair.calls[1][..3];
        let [one, other] = [0, 1].map(|order| {
            let (asked, told, plan) = (&asked[..], told.clone(), pair.plan.clone());
            self.order(rng, Course { pair, pool, order, plan, asked, told })
        });
        let ends = Ends { orders: [one?, other?], same_line };
        self.step = "all four calls".to_string();
        if let Some(why) = ends.broken() {
            return Err(Of::Claim(why.to_string(), ends.end(0).to_vec(), ends.end(1).to_vec()));
        }
        (0..2).try_for_each(|order| self.in_a_row(pair, &ends, order))?;
        self.kept(rng, pair, &ends)?;
        self.tally.count(pair, &ends);
        Ok(())
    }

    /// The two calls of an order, each on what the one before left.
    fn order(&mut self, rng: &mut Rng, mut course: Course) -> Result<[Step; 2], Of> {
        let (pair, [first, second]) = (course.pair, ORDERS[course.order]);
        let one = self.call(rng, &mut course, first, &pair.flow)?;
        let other = self.call(rng, &mut course, second, &one.flow)?;
        self.step = format!("{}, the judgement", ORDER_NAMES[course.order]);
        let code = self.comparer.compare(rng, Call::Judge, &other.flow)?;
        let says = planned::judged(&course.plan);
        if code != 0 || self.comparer.room()[..says.len()] != says {
            let why = format!("{code} {:?} is judged, the plan says 0 {says:?}", self.comparer.room());
            return Err(Of::Claim(why, pair.flow.clone(), other.flow));
        }
        Ok([one, other])
    }

    /// One call, with the deleghe asked for after it.
    fn call(&mut self, rng: &mut Rng, course: &mut Course, which: usize, flow: &[u8]) -> Result<Step, Of> {
        let numbers = course.pair.calls[which];
        let call = Call::correction(numbers);
        self.step = format!("{}, call {}", ORDER_NAMES[course.order], NAMES[which]);
        if rng.one_in(32) {
            self.comparer.compare_short(rng, call, flow)?;
        }
        let code = self.comparer.compare(rng, call, flow)?;
        let refusal = if code == 0 { Vec::new() } else { self.comparer.room()[..2].to_vec() };
        let step = Step { code, told: refusal, flow: self.comparer.after().to_vec() };
        self.tally.answer(course.order, which, code);
        let now = self.deleghe(rng, &step.flow, course.asked)?;
        match course.unlike_plan(numbers, &step).or_else(|| course.unlike_before(numbers[0], &now)) {
            Some(why) => return Err(Of::Claim(why, flow.to_vec(), step.flow)),
            None => course.told = now,
        }
        self.tally.deleghe += course.asked.iter().filter(|&&number| number != numbers[0]).count() as u64;
        Ok(step)
    }

    /// What is told for each of these deleghe.
    fn deleghe(&mut self, rng: &mut Rng, flow: &[u8], asked: &[u64]) -> Result<Vec<Told>, Of> {
        let mut all = Vec::new();
        for &number in asked {
            let call = Call::Delega { number };
            let code = self.comparer.compare(rng, call, flow)?;
            let tells = if code == 0 { call.needs() } else { 2 };
            all.push((code, self.comparer.room()[..tells].to_vec()));
        }
        Ok(all)
    }

    /// The library's calls of an order in a row on one flow, and the first of them once
    /// more.
    fn in_a_row(&mut self, pair: &Pair, ends: &Ends, order: usize) -> Result<(), Of> {
        self.step = format!("{}, and the first once more", ORDER_NAMES[order]);
        let [first, second] = ORDERS[order];
        let (more, end) = ends.once_more(order);
        let steps = &ends.orders[order];
        let mut flow = pair.flow.clone();
        for (which, code, after) in
            [(first, steps[0].code, &steps[0].flow[..]), (second, steps[1].code, &steps[1].flow), (first, more, end)]
        {
            let mut room = [u64::MAX; 2];
            let answered = ffi::call(&Call::correction(pair.calls[which]), &mut flow, &mut room);
            let told = if code == 0 { [u64::MAX; 2] } else { [0; 2] };
            if answered != code || room != told || flow != after {
                let why = format!("call {} in a row is answered {answered} {room:?}", NAMES[which]);
                return Err(Of::Claim(format!("{why}, by itself {code}, or leaves other bytes"), flow, after.to_vec()));
            }
        }
        self.tally.once_more(&steps[0], more);
        Ok(())
    }

    /// The same calls with a record, which is made of the flow before.
    fn kept(&mut self, rng: &mut Rng, pair: &Pair, ends: &Ends) -> Result<(), Of> {
        self.step = "the record of the flow before".to_string();
        let start = self.record(rng, &pair.flow)?;
        let mut records = [start; 2];
        for order in 0..2 {
            records[order] = self.kept_order(rng, pair, ends, (order, start))?;
            let made = self.record(rng, ends.end(order))?;
            if made != records[order] {
                let why = format!("the record is {:?}, of the end {made:?} is made", records[order]);
                return Err(Of::Claim(why, pair.flow.clone(), ends.end(order).to_vec()));
            }
        }
        if ends.all_made() && !ends.same_line && records[0] != records[1] {
            let why = format!("the records in the end are {records:?}");
            return Err(Of::Claim(why, ends.end(0).to_vec(), ends.end(1).to_vec()));
        }
        Ok(())
    }

    /// The record that is made of a flow.
    fn record(&mut self, rng: &mut Rng, flow: &[u8]) -> Result<Record, Of> {
        let account = Account::of(flow, &Ask::Keep);
        let mut record = [0; SUMS_ROOM];
        let case = Case { flow, ask: &Ask::Keep, record: &record, account: &account };
        let left = self.keepings.compare(rng, &case)?;
        record.copy_from_slice(&left.kept[..SUMS_ROOM]);
        Ok(record)
    }

    /// The calls of an order with a record, and the record in the end. Now and then the
    /// second is made first with the record that the first was lent.
    fn kept_order(
        &mut self,
        rng: &mut Rng,
        pair: &Pair,
        ends: &Ends,
        (order, start): (usize, Record),
    ) -> Result<Record, Of> {
        let (mut flow, mut record) = (pair.flow.clone(), start);
        for (which, step) in ORDERS[order].into_iter().zip(&ends.orders[order]) {
            self.step = format!("{}, call {} with a record", ORDER_NAMES[order], NAMES[which]);
            let ask = Ask::Correct(pair.calls[which]);
            let account = Account::of(&flow, &ask);
            if record != start && rng.one_in(4) {
                let stale = Case { flow: &flow, ask: &ask, record: &start, account: &account };
                self.keepings.compare(rng, &stale)?;
                self.tally.stale += 1;
            }
            let case = Case { flow: &flow, ask: &ask, record: &record, account: &account };
            let left = self.keepings.compare(rng, &case)?;
            if !is_same(&left, step) {
                let why = "not what the call without a record left".to_string();
                return Err(Of::Kept(self.keepings.wrong(&case, why, &left)));
            }
            record.copy_from_slice(&left.kept[..SUMS_ROOM]);
            flow = left.flow;
            self.tally.kept += 1;
        }
        Ok(record)
    }
}

/// Which deleghe are asked for: all of them, the lines' own too, and numbers that are no
/// delega's.
fn asked(rng: &mut Rng, pair: &Pair) -> Vec<u64> {
    let count = pair.plan.deleghe.len() as u64;
    let mut asked: Vec<u64> = (0..=count + 1).collect();
    if pair.flow.len() > LONG && !rng.one_in(SELDOM) {
        let near = pair.calls.iter().map(|numbers| numbers[0].clamp(1, count));
        let mut few = vec![0, 1, count, count + 1, rng.between(1, count)];
        few.extend(near.flat_map(|number| [number - 1, number, number + 1]));
        asked.retain(|number| few.contains(number));
    }
    if rng.one_in(8) {
        asked.push(rng.pick(&[u64::MAX, 1 << 32, (1 << 32) + 1, 10_000_001]));
    }
    asked
}

/// Whether a call with a record has answered and left the same.
fn is_same(left: &Left, step: &Step) -> bool {
    left.code == step.code && left.flow == step.flow && (step.code == 0 || left.answer[..2] == step.told[..])
}
