//! Flows of which deleghe are dropped: sound ones of one delega up to the most that
//! there can be, and those that are refused whatever the list is. Of a sound flow
//! the generator knows what is left from the descriptions of the deleghe.

use crate::columns::{IDENTIFYING, MOST_RECORDS, RECORD, TYPE};
use crate::damage;
use crate::drop_lists::{self, List};
use crate::rng::Rng;
use crate::sound::{self, Amounts, DelegaPlan, Plan, Pool, Size, RECEIPTS};

/// What the plan says.
pub enum Known {
    /// The flow that is left.
    Flow(Vec<u8>),
    /// Number, record and position.
    Refused([u64; 3]),
}

/// The places of its plan, its fault, its list and the order of that.
#[derive(Clone, Copy)]
pub struct Sorts {
    pub plan: usize,
    pub fault: usize,
    pub list: usize,
    pub order: usize,
}

/// A flow and the numbers to be dropped from it.
pub struct Case {
    pub flow: Vec<u8>,
    pub numbers: Vec<u64>,
    pub known: Option<Known>,
    /// A flow from a file has none.
    pub sorts: Option<Sorts>,
}

pub type MakePlan = fn(&mut Rng) -> Plan;

/// The sorts of plans, each with how many of a thousand it is.
pub const PLANS: [((u64, MakePlan), &str); 6] = [
    ((120, one_delega), "one delega"),
    ((550, few_deleghe), "two to six deleghe"),
    ((290, |rng| sound::plan(rng, Size::Medium)), "20 to 90 records"),
    ((16, |rng| sound::plan(rng, Size::Large)), "90 to 546 records"),
    ((12, |rng| sound::plan(rng, Size::Full)), "546 records"),
    ((12, most_deleghe), "108 deleghe"),
];

/// The flow of a plan with a fault, and what is known of it; none of a sound one.
type Spoil = fn(&mut Rng, &Pool, Plan) -> (Vec<u8>, Option<Known>);

/// The sorts of faults, each with how many of a hundred it is.
pub const FAULTS: [((u64, Option<Spoil>), &str); 6] = [
    ((66, None), "sound"),
    ((14, Some(one_damage)), "one damage"),
    ((6, Some(some_damages)), "two to five damages"),
    ((5, Some(no_length)), "a length that is none"),
    ((5, Some(anything)), "any damages"),
    ((4, Some(spaces_behind)), "shortened, spaces behind"),
];

pub fn any_case(rng: &mut Rng, pool: &Pool) -> Case {
    let place = drawn(rng, PLANS.iter().map(|plan| plan.0 .0));
    let plan = (PLANS[place].0 .1)(rng);
    let mut case = case_of(rng, pool, plan);
    case.sorts.iter_mut().for_each(|sorts| sorts.plan = place);
    case
}

/// The same with the plan given.
pub fn case_of(rng: &mut Rng, pool: &Pool, plan: Plan) -> Case {
    let fault = drawn(rng, FAULTS.iter().map(|fault| fault.0 .0));
    let list = drop_lists::any_sort(rng);
    let (numbers, order) = drop_lists::list_of(rng, list, plan.deleghe.len() as u64);
    let sorts = Some(Sorts { plan: 0, fault, list, order });
    let (flow, known) = match FAULTS[fault].0 .1 {
        Some(spoil) => spoil(rng, pool, plan),
        None => sound_flow(rng, pool, &plan, &numbers),
    };
    Case { flow, numbers: numbers.numbers, known, sorts }
}

/// One of the places, by their weights.
pub fn drawn(rng: &mut Rng, weights: impl Iterator<Item = u64> + Clone) -> usize {
    let mut left = rng.below(weights.clone().sum());
    for (place, weight) in weights.enumerate() {
        if left < weight {
            return place;
        }
        left -= weight;
    }
    unreachable!("the weights add up")
}

/// The flow of a plan, and what comes of it: the flow of the deleghe that are not
/// in the list, written from their descriptions.
fn sound_flow(rng: &mut Rng, pool: &Pool, plan: &Plan, list: &List) -> (Vec<u8>, Option<Known>) {
    let fillers = rng.next();
    let flow = sound::write_kept(fillers, pool, plan, |_| true).bytes;
    let kept = |place: usize| !list.numbers.contains(&(place as u64 + 1));
    let known = list.says.map(|says| match says {
        0 => Known::Flow(sound::write_kept(fillers, pool, plan, kept).bytes),
        number => Known::Refused([number, 0, 0]),
    });
    (flow, known)
}

// ------------------------------------------------------------------- plans

fn amounts(rng: &mut Rng) -> Amounts {
    rng.pick(&[Amounts::Small, Amounts::Middle, Amounts::Wide, Amounts::Extreme])
}

fn one_delega(rng: &mut Rng) -> Plan {
    sound::plan(rng, Size::Tiny)
}

fn few_deleghe(rng: &mut Rng) -> Plan {
    let count = rng.between(2, 6);
    let deleghe = (0..count).map(|_| sound::shape(rng, true)).collect();
    let amounts = amounts(rng);
    sound::finish(rng, deleghe, amounts)
}

/// One to five deleghe, most of one section with one line.
pub fn small(rng: &mut Rng) -> Plan {
    let count = rng.pick(&[1, 2, 2, 2, 3, 3, 4, 5]);
    let mut deleghe: Vec<DelegaPlan> = (0..count).map(|_| sound::shape(rng, true)).collect();
    for delega in deleghe.iter_mut() {
        let (sections, lines) = (rng.pick(&[1, 1, 1, 2]), rng.pick(&[1, 1, 2]));
        delega.sections.truncate(sections);
        delega.sections.iter_mut().for_each(|section| section.lines.truncate(lines));
    }
    let amounts = amounts(rng);
    sound::finish(rng, deleghe, amounts)
}

/// Deleghe of one line each, with 50-02 and 50-03 here and there.
pub fn of_one_line(rng: &mut Rng, count: usize, receipts: &[usize]) -> Plan {
    let one = |_| DelegaPlan { sections: vec![sound::empty(rng.place(IDENTIFYING + 1), 1)], receipts: RECEIPTS[0] };
    let mut deleghe: Vec<DelegaPlan> = (0..count).map(one).collect();
    for &place in receipts {
        deleghe[place].receipts = RECEIPTS[2];
    }
    let amounts = amounts(rng);
    sound::finish(rng, deleghe, amounts)
}

/// As many deleghe as 546 records hold, two of them with 50-02 and 50-03.
fn most_deleghe(rng: &mut Rng) -> Plan {
    let most = (MOST_RECORDS - 2) / 5;
    let places = [rng.place(most / 2), most / 2 + rng.place(most / 2)];
    of_one_line(rng, most, &places)
}

// ------------------------------------------------------------------ faults

fn one_damage(rng: &mut Rng, pool: &Pool, plan: Plan) -> (Vec<u8>, Option<Known>) {
    (damage::damaged(rng, pool, plan, 1).flow, None)
}

fn some_damages(rng: &mut Rng, pool: &Pool, plan: Plan) -> (Vec<u8>, Option<Known>) {
    let damages = rng.between(2, 5);
    (damage::damaged(rng, pool, plan, damages).flow, None)
}

/// Empty, ragged or too long.
fn no_length(rng: &mut Rng, pool: &Pool, plan: Plan) -> (Vec<u8>, Option<Known>) {
    let mut flow = sound::write(rng, pool, &plan).bytes;
    let aim = rng.between(1, 2);
    damage::in_length(rng, pool, &mut flow, aim);
    (flow, None)
}

fn anything(rng: &mut Rng, pool: &Pool, _: Plan) -> (Vec<u8>, Option<Known>) {
    (damage::flow_of(rng, pool, Size::Small).flow, None)
}

/// What a dropping leaves, lent in its whole length again: the first record of
/// spaces may not stand behind EF.
fn spaces_behind(rng: &mut Rng, pool: &Pool, plan: Plan) -> (Vec<u8>, Option<Known>) {
    let flow = sound::write(rng, pool, &plan);
    let records = flow.kinds.len() as u64;
    let mut bytes = flow.bytes;
    let most = MOST_RECORDS as u64 - records;
    let behind = rng.wide(most.min(40)).max(1).min(most);
    bytes.resize(bytes.len() + RECORD * behind as usize, b' ');
    let known = (behind > 0).then_some(Known::Refused([4, records + 1, TYPE as u64]));
    (bytes, known)
}
