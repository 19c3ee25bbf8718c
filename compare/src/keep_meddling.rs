//! What is done to the flow of a series that keeps its sums: before the series starts,
//! and by others between its calls.

use crate::calls::{Call, CORRECT_ROOM, DROP_ROOM, REBALANCE_ROOM};
use crate::columns::{Kind, Kind::*, RECORD};
use crate::corrected;
use crate::damage;
use crate::ffi;
use crate::keep_calls::{self, Ask};
use crate::keep_flows::Held;
use crate::rebalance_damage as wrong;
use crate::rng::Rng;
use crate::sound::{Flow, Pool, SectionPlan, Size};

/// Does something to a sound flow.
type Spoil = fn(&mut Held, &mut Rng, &Pool);

/// What a series may start from, each with how many of a hundred it is.
pub const STARTS: [((u64, Spoil), &str); 7] = [
    ((62, |_, _, _| ()), "sound"),
    ((13, |held, rng, _| drop(held.spoil_fields(rng))), "stored fields wrong"),
    ((7, |held, rng, _| held.type_over(rng)), "lines typed over"),
    ((4, too_large), "sums that do not fit"),
    ((8, |held, rng, pool| held.damage(rng, pool, 1)), "one damage"),
    ((3, |held, rng, pool| held.damage(rng, pool, 3)), "three damages"),
    ((3, no_length), "a length that is none"),
];

fn too_large(held: &mut Held, rng: &mut Rng, pool: &Pool) {
    let size = rng.pick(&[Size::Least, Size::Tiny, Size::Small]);
    let plan = wrong::large_plan(rng, size);
    *held = Held::of(plan, held.fillers, pool);
}

fn no_length(held: &mut Held, rng: &mut Rng, pool: &Pool) {
    held.sure = false;
    let aim = rng.between(1, 2);
    damage::in_length(rng, pool, &mut held.flow, aim);
}

/// Whether a series may well go on from what this start comes to.
pub fn goes_on(start: usize) -> bool {
    start < 3
}

/// Does something to the flow, or hands back another for the next call alone.
type Meddle = fn(&mut Held, &mut Rng, &Pool) -> Option<Vec<u8>>;

/// What may be done before a call, each with how many of a hundred it is.
pub const MEDDLINGS: [((u64, Meddle), &str); 7] = [
    ((70, |_, _, _| None), "nothing"),
    ((6, |held, rng, _| held.plainly(rng, 1)), "a plain correction"),
    ((2, |held, rng, _| held.plainly(rng, 2)), "a plain rebalancing"),
    ((4, |held, rng, _| held.plainly(rng, 3)), "a plain dropping"),
    ((5, |held, rng, _| held.spoil_fields(rng)), "stored fields spoiled"),
    (
        (3, |held, rng, _| {
            held.type_over(rng);
            None
        }),
        "a line typed over",
    ),
    ((10, |held, rng, pool| held.damaged_once(rng, pool)), "damaged for one call"),
];

impl Held {
    /// The flow with the kinds of its records, where all have one.
    fn records(&self) -> Option<Flow> {
        let kinds: Option<Vec<Kind>> = self.flow.chunks_exact(RECORD).map(Kind::of).collect();
        kinds.filter(|_| self.sure).map(|kinds| Flow { bytes: self.flow.clone(), kinds })
    }

    /// Puts something else into some stored fields: the lines stay.
    fn spoil_fields(&mut self, rng: &mut Rng) -> Option<Vec<u8>> {
        let most = rng.pick(&[1, 1, 3, 8, 20]);
        if let Some(mut flow) = self.records() {
            wrong::spoil_some(rng, &mut flow, most);
            self.flow = flow.bytes;
        }
        None
    }

    /// Types other amounts over a line, and changes nothing else.
    fn type_over(&mut self, rng: &mut Rng) {
        if !self.sure {
            return;
        }
        let at = rng.place(self.plan.deleghe.len());
        let sections = &mut self.plan.deleghe[at].sections;
        let section = rng.place(sections.len());
        let SectionPlan { section, lines } = &mut sections[section];
        let place = rng.place(lines.len());
        lines[place] = wrong::other_amounts(rng, *section, lines[place]);
        let subtype = Line(*section).subtype().unwrap_or(0);
        if let Some((record, _)) = corrected::line(&self.flow, at as u64 + 1, subtype, place as u64 + 1) {
            corrected::type_over(&mut self.flow, record, *section, lines[place]);
        }
    }

    /// Damages the flow in so many places, of any refusal.
    fn damage(&mut self, rng: &mut Rng, pool: &Pool, damages: u64) {
        self.sure = false;
        self.flow = damage::damaged(rng, pool, self.plan.clone(), damages).flow;
    }

    /// A copy that is damaged in its lines, its records or its length.
    fn damaged_once(&mut self, rng: &mut Rng, pool: &Pool) -> Option<Vec<u8>> {
        let mut flow = self.records()?;
        match rng.pick(&damage::AIMS) {
            14 => {
                let mut plan = self.plan.clone();
                damage::negative(rng, &mut plan);
                flow.bytes = self.written(&plan, pool);
            }
            // Long ones are dear.
            1 if !rng.one_in(3) => wrong::spoil_some(rng, &mut flow, 3),
            aim @ (1 | 2) => damage::in_length(rng, pool, &mut flow.bytes, aim),
            aim => damage::in_records(rng, &mut flow, aim),
        }
        Some(flow.bytes)
    }

    /// Someone makes a call without a record. It is for another comparison to say
    /// that it is right; where it is done the record may not stand for the flow any
    /// more.
    fn plainly(&mut self, rng: &mut Rng, column: usize) -> Option<Vec<u8>> {
        let asked = (0..8).map(|_| keep_calls::any(rng, &self.flow, &self.plan));
        let ask = asked.filter(|_| self.sure).find(|ask| ask.index() == column)?;
        let mut list = ask.list(rng);
        let mut length = self.flow.len();
        let code = match &ask {
            Ask::Keep => 0,
            Ask::Correct(numbers) => ffi::call(&Call::correction(*numbers), &mut self.flow, &mut [0; CORRECT_ROOM]),
            Ask::Rebalance(_) => ffi::rebalance(&mut self.flow, &mut list, &mut [0; REBALANCE_ROOM]),
            Ask::Drop(numbers) => {
                let mut answer = [length as u64; DROP_ROOM];
                let code = ffi::drop_deleghe(&mut self.flow, numbers, &mut answer);
                length = if code == 0 { answer[0] as usize } else { length };
                code
            }
        };
        if code == 0 {
            self.flow.truncate(length);
            self.plan_done(&ask);
        }
        None
    }
}
