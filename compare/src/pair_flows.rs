//! The flows of pairs of corrections, from one line up to 546 records, and the plan of a
//! flow that is there already.

use crate::columns::{Kind::*, *};
use crate::drop_flows::{self, drawn, MakePlan};
use crate::keep_flows;
use crate::pair_lines::{self, NOT_THERE, RELATIONS};
use crate::pair_sorts::AIMS;
use crate::rng::Rng;
use crate::sound::{self, get, DelegaPlan, Filler, Plan, Pool, SectionPlan, Size, RECEIPTS};

/// The places of its plan and of its aim.
#[derive(Clone, Copy)]
pub struct Sorts {
    pub plan: usize,
    pub aim: usize,
}

/// A flow and two corrections.
pub struct Pair {
    pub flow: Vec<u8>,
    pub plan: Plan,
    /// What its fillers hang on; a flow from a file has none.
    pub fillers: Option<u64>,
    pub calls: [[u64; 5]; 2],
    pub sorts: Option<Sorts>,
}

/// The sorts of plans, each with how many of 1,043 it is.
pub const PLANS: [((u64, MakePlan), &str); 9] = [
    ((60, one_line), "one line"),
    ((220, |rng| sound::plan(rng, Size::Tiny)), "one delega of few lines"),
    ((310, |rng| sound::plan(rng, Size::Small)), "up to three deleghe"),
    ((320, drop_flows::PLANS[1].0 .1), "two to six deleghe"),
    ((100, |rng| sound::plan(rng, Size::Medium)), "20 to 90 records"),
    ((4, |rng| sound::plan(rng, Size::Large)), "90 to 546 records"),
    ((4, |rng| sound::plan(rng, Size::Full)), "546 records"),
    ((5, drop_flows::PLANS[5].0 .1), "108 deleghe"),
    ((20, keep_flows::PLANS[6].0 .1), "sums of seventeen digits"),
];

fn one_line(rng: &mut Rng) -> Plan {
    drop_flows::of_one_line(rng, 1, &[])
}

/// So many plans are drawn for lines that lie as they are to.
const PLANS_TRIED: usize = 40;

/// A pair. The aim is drawn first, then how its lines lie, then the plan.
pub fn any_pair(rng: &mut Rng, pool: &Pool) -> Pair {
    let aim = drawn(rng, AIMS.iter().map(|aim| aim.0 .0));
    let (_, relations, make) = &AIMS[aim].0;
    let relation = relations.start + drawn(rng, RELATIONS[relations.clone()].iter().map(|relation| relation.0));
    let (mut place, mut plan, mut lines) = (0, sound::printed(), None);
    for _ in 0..PLANS_TRIED {
        place = drawn(rng, PLANS.iter().map(|plan| plan.0 .0));
        plan = (PLANS[place].0 .1)(rng);
        lines = pair_lines::drawn(rng, &plan, relation);
        if lines.is_some() {
            break;
        }
    }
    let lines = lines.or_else(|| pair_lines::drawn(rng, &plan, NOT_THERE)).unwrap_or_else(|| unreachable!("a line"));
    let calls = make(rng, &plan, lines).map(|call| call.numbers());
    let calls = if rng.one_in(2) { calls } else { [calls[1], calls[0]] };
    let fillers = rng.next();
    let flow = written(fillers, pool, &plan);
    Pair { flow, plan, fillers: Some(fillers), calls, sorts: Some(Sorts { plan: place, aim }) }
}

/// The flow of a plan with these fillers.
pub fn written(fillers: u64, pool: &Pool, plan: &Plan) -> Vec<u8> {
    sound::write_kept(fillers, pool, plan, |_| true).bytes
}

/// The pairs of a flow that is accepted: some for every aim and every way in which two of
/// its lines lie to one another.
pub fn pairs_of(rng: &mut Rng, flow: &[u8]) -> Vec<Pair> {
    let plan = plan_of(flow);
    let mut pairs = Vec::new();
    for (aim, ((_, relations, make), _)) in AIMS.iter().enumerate() {
        for relation in relations.clone() {
            for _ in 0..2 {
                if let Some(lines) = pair_lines::drawn(rng, &plan, relation) {
                    let calls = make(rng, &plan, lines).map(|call| call.numbers());
                    let (flow, plan, sorts) = (flow.to_vec(), plan.clone(), Some(Sorts { plan: 0, aim }));
                    pairs.push(Pair { flow, plan, fillers: None, calls, sorts });
                }
            }
        }
    }
    pairs
}

/// The plan of a flow that is accepted, by the kinds of its records.
fn plan_of(flow: &[u8]) -> Plan {
    let mut deleghe: Vec<DelegaPlan> = Vec::new();
    for record in flow.chunks_exact(RECORD) {
        if Kind::of(record) == Some(Payer) {
            deleghe.push(DelegaPlan { sections: Vec::new(), receipts: RECEIPTS[0] });
        }
        if let Some(delega) = deleghe.last_mut() {
            match Kind::of(record) {
                Some(Line(section)) => add_line(delega, section, record),
                Some(Receipt) => delega.receipts = RECEIPTS[1],
                Some(Addressee) => delega.receipts = RECEIPTS[2],
                _ => (),
            }
        }
    }
    Plan { deleghe, date: *b"010100", name: [b' '; NAME_WIDTH], filler: Filler::Spaces }
}

fn add_line(delega: &mut DelegaPlan, section: usize, record: &[u8]) {
    let columns = &SECTIONS[section];
    let line = (get(record, columns.debit, AMOUNT), get(record, columns.credit, AMOUNT));
    match delega.sections.last_mut() {
        Some(last) if last.section == section => last.lines.push(line),
        _ => delega.sections.push(SectionPlan { section, lines: vec![line] }),
    }
}
