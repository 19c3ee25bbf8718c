//! How often what came up in pairs of corrections.

use crate::columns::MOST_AMOUNT;
use crate::correction::Place;
use crate::pair_claims::{Ends, Step};
use crate::pair_flows::{Pair, PLANS};
use crate::pair_lines::{self, RELATIONS};
use crate::pair_sorts::AIMS;
use crate::planned::{self, Says, Unfit};
use crate::sorts;
use crate::sound::Plan;

/// The answers of a correction of an accepted flow.
const ANSWERS: [u64; 6] = [0, 9, 14, 21, 22, 23];

/// The four calls.
const CALLS: [&str; 4] = ["A first", "B after A", "B first", "A after B"];

/// How a pair ends.
#[derive(Clone, Copy, PartialEq)]
enum End {
    Made,
    /// One is made after the other alone, and refused so before.
    Waits(u64, Option<Unfit>),
    /// Each is made by itself, and refused so after the other.
    Either(u64, Option<Unfit>),
    /// One is made, and the other refused so in both orders.
    One(u64),
    /// One is made, and the other refused in both orders with two numbers.
    OneOtherwise,
    Neither,
    /// One line twice: both made to the same amounts, to others, one made, none.
    Same,
    Last,
    LastOfOne,
    LastOfNone,
}

use End::*;

#[rustfmt::skip]
const ENDS: [(End, &str); 26] = [
    (Made, "all four made"),
    (Waits(14, None), "one waits, 14 before"),
    (Waits(23, Some(Unfit::DebitAlone)), "one waits, 23 total debit alone"),
    (Waits(23, Some(Unfit::Debit)), "one waits, 23 total debit too"),
    (Waits(23, Some(Unfit::Credit)), "one waits, 23 total credit"),
    (Waits(23, Some(Unfit::Balance)), "one waits, 23 section's balance"),
    (Waits(23, Some(Unfit::Final)), "one waits, 23 final balance"),
    (Waits(23, Some(Unfit::Tail)), "one waits, 23 tail's sum"),
    (Either(14, None), "either, together 14"),
    (Either(23, Some(Unfit::DebitAlone)), "either, 23 total debit alone"),
    (Either(23, Some(Unfit::Debit)), "either, 23 total debit too"),
    (Either(23, Some(Unfit::Credit)), "either, 23 total credit"),
    (Either(23, Some(Unfit::Balance)), "either, 23 section's balance"),
    (Either(23, Some(Unfit::Final)), "either, 23 final balance"),
    (Either(23, Some(Unfit::Tail)), "either, 23 tail's sum"),
    (One(9), "one alone, the other 9"), (One(14), "one alone, the other 14"), (One(21), "one alone, the other 21"),
    (One(22), "one alone, the other 22"), (One(23), "one alone, the other 23"),
    (OneOtherwise, "one alone, the other 14 and 23"), (Neither, "neither"),
    (Same, "one line, the same amounts"), (Last, "one line, the last amounts"),
    (LastOfOne, "one line, one refused"), (LastOfNone, "one line, both refused"),
];

/// What is so in the end where both are made, of two lines: from the plan before, that
/// after the first, and that in the end.
type Edge = fn(&[Plan; 3], [Place; 2]) -> bool;

#[rustfmt::skip]
const EDGES: [(Edge, &str); 14] = [
    (|[.., end], places| places.iter().any(|place| end.deleghe[place.delega].balance() == 0), "a delega of zero"),
    (|[.., end], places| places.iter().any(|&place| totals(end, place).map_or(false, |sums| sums.0 == MOST_AMOUNT)), "total debit of nines"),
    (|[.., end], places| places.iter().any(|&place| totals(end, place).map_or(false, |sums| sums.1 == MOST_AMOUNT)), "total credit of nines"),
    (|[.., end], places| places.iter().any(|&place| totals(end, place).is_none() && sums(end, place).0 == MOST_AMOUNT), "section 17's balance of nines"),
    (|[.., end], places| places.iter().any(|&place| balance(end, place) == MOST_AMOUNT as i64), "final balance of nines"),
    (|[.., end], _| planned::total(end) == MOST_AMOUNT, "tail's sum of nines"),
    (|plans, places| signs(plans, places) == [false, true, false], "sign P, N and P again"),
    (|plans, places| signs(plans, places) == [true, false, true], "sign N, P and N again"),
    (|plans, places| signs(plans, places) == [false, false, true], "sign P, P and N"),
    (|plans, places| signs(plans, places) == [true, true, false], "sign N, N and P"),
    (|plans, [one, _]| is_back(plans, |plan| sums(plan, one)), "a section's totals back"),
    (|plans, [one, _]| is_back(plans, |plan| balance(plan, one)), "a final balance back"),
    (|plans, _| is_back(plans, planned::total), "the tail's sum back"),
    (|[start, middle, end], places| lines(start, places) == lines(middle, places) || lines(middle, places) == lines(end, places), "the amounts that were there"),
];

fn sums(plan: &Plan, place: Place) -> (u64, u64) {
    plan.deleghe[place.delega].sections[place.section].sums()
}

/// The totals that the section of a line stores, none in section 17.
fn totals(plan: &Plan, place: Place) -> Option<(u64, u64)> {
    Some(sums(plan, place)).filter(|_| !plan.deleghe[place.delega].identifying())
}

fn balance(plan: &Plan, place: Place) -> i64 {
    plan.deleghe[place.delega].balance()
}

/// Whether the sign of the first line's section is N, in each plan; both lines are of it.
fn signs(plans: &[Plan; 3], [one, other]: [Place; 2]) -> [bool; 3] {
    if (one.delega, one.section) != (other.delega, other.section) {
        return [false; 3];
    }
    let is_negative = |plan: &Plan| {
        let (debit, credit) = sums(plan, one);
        debit < credit
    };
    [is_negative(&plans[0]), is_negative(&plans[1]), is_negative(&plans[2])]
}

/// Whether something is others in between and in the end as it was.
fn is_back<T: PartialEq>([start, middle, end]: &[Plan; 3], of: impl Fn(&Plan) -> T) -> bool {
    of(start) != of(middle) && of(start) == of(end)
}

fn lines(plan: &Plan, places: [Place; 2]) -> [(u64, u64); 2] {
    places.map(|place| plan.deleghe[place.delega].sections[place.section].lines[place.line])
}

#[derive(Default)]
pub struct Tally {
    answers: [[u64; ANSWERS.len()]; 4],
    plans: [u64; PLANS.len()],
    aims: [u64; AIMS.len()],
    relations: [u64; RELATIONS.len()],
    ends: [u64; ENDS.len()],
    edges: [u64; EDGES.len()],
    /// Calls in a row: the first made once more to what the line has, made where it was
    /// refused, refused again.
    more: [u64; 3],
    /// Answers for another delega that stayed, calls with a record, and those with the
    /// record of before the other's call.
    pub deleghe: u64,
    pub kept: u64,
    pub stale: u64,
}

impl Tally {
    pub fn answer(&mut self, order: usize, which: usize, code: u64) {
        let way = ANSWERS.iter().position(|&answer| answer == code);
        let call = 2 * order + usize::from(which != order);
        self.answers[call][way.unwrap_or_else(|| panic!("{code} answers no correction of an accepted flow"))] += 1;
    }

    /// Counts three calls in a row, of which the first was this, and the third is answered
    /// so.
    pub fn once_more(&mut self, first: &Step, code: u64) {
        self.more[match (first.code, code) {
            (0, _) => 0,
            (_, 0) => 1,
            _ => 2,
        }] += 1;
    }

    pub fn count(&mut self, pair: &Pair, ends: &Ends) {
        if let Some(sorts) = pair.sorts {
            self.plans[sorts.plan] += 1;
            self.aims[sorts.aim] += 1;
        }
        self.relations[pair_lines::relation(&pair.plan, pair.calls)] += 1;
        let end = end(pair, ends);
        let way = ENDS.iter().position(|&(way, _)| way == end);
        self.ends[way.unwrap_or_else(|| panic!("{:?} end in no known way", pair.calls))] += 1;
        if !ends.same_line {
            self.count_edges(pair, ends);
        }
    }

    /// Counts what is so in the end of an order in which both are made.
    fn count_edges(&mut self, pair: &Pair, ends: &Ends) {
        let order = match (0..2).find(|&order| ends.is_made(order)) {
            Some(order) => order,
            None => return,
        };
        let [one, other] = [pair.calls[order], pair.calls[1 - order]];
        if let [Some(first), Some(second)] = [one, other].map(|numbers| planned::place(&pair.plan, numbers)) {
            let middle = planned::after(&pair.plan, one);
            let end = planned::after(&middle, other);
            let plans = [pair.plan.clone(), middle, end];
            for (count, (edge, _)) in self.edges.iter_mut().zip(&EDGES) {
                *count += u64::from(edge(&plans, [first, second]));
            }
        }
    }

    /// What comes up least: an answer of each call, a plan, an aim, how the lines lie, an
    /// end, what is so in it.
    pub fn rarest(&self) -> Vec<Option<(u64, String)>> {
        let answers = |call: usize| {
            let all = ANSWERS.iter().zip(self.answers[call]);
            all.map(|(code, times)| (times, format!("pair, {} {code}", CALLS[call]))).min()
        };
        let mut all: Vec<_> = (0..4).map(answers).collect();
        all.extend([
            sorts::rarest(&self.plans, &PLANS, "pair, flow:"),
            sorts::rarest(&self.aims, &AIMS, "pair, aim:"),
            sorts::rarest(&self.relations, &RELATIONS, "pair, lines:"),
            sorts::rarest(&self.ends, &ENDS, "pair, end:"),
            sorts::rarest(&self.edges, &EDGES, "pair, in the end:"),
        ]);
        all
    }

    pub fn print_answers(&self) {
        let [one, other, third, fourth] = CALLS;
        println!("{:<10} {one:>10} {other:>10} {third:>10} {fourth:>10}", "answer");
        for (way, code) in ANSWERS.iter().enumerate() {
            let name = if *code == 0 { "0 made".to_string() } else { code.to_string() };
            let counts = self.answers.map(|counts| format!("{:>10}", counts[way]));
            println!("{name:<10} {}", counts.join(" "));
        }
    }

    pub fn print(&self) {
        self.print_answers();
        sorts::print("flow by its plan", &self.plans, &PLANS, "pairs");
        sorts::print("what the two are to come to", &self.aims, &AIMS, "pairs");
        sorts::print("how the two lines lie", &self.relations, &RELATIONS, "pairs");
        sorts::print("how the two end", &self.ends, &ENDS, "pairs");
        sorts::print("both made, in the end", &self.edges, &EDGES, "pairs");
        let [again, made, refused] = self.more;
        println!("the first once more: {again} to what the line has, {made} made then, {refused} refused again");
        println!("answers for another delega that stayed: {}", self.deleghe);
        println!("calls with a record: {}, with that of before the other's: {}", self.kept, self.stale);
    }
}

/// How a pair ends.
fn end(pair: &Pair, ends: &Ends) -> End {
    let [[a_first, b_after], [b_first, a_after]] = &ends.orders;
    let [a, b] = pair.calls;
    if ends.same_line {
        return match (a_first.code, b_first.code) {
            (0, 0) if a == b => Same,
            (0, 0) => Last,
            (0, _) | (_, 0) => LastOfOne,
            _ => LastOfNone,
        };
    }
    // Of the call that is not made first in both orders: by itself and after the other.
    let (other, alone, after) = match (a_first.code, b_first.code) {
        (0, 0) if ends.all_made() => return Made,
        (0, 0) => {
            let says = Says::of(&planned::after(&pair.plan, a), b);
            return Either(says.number, says.unfit);
        }
        (0, _) => (b, b_first.code, b_after.code),
        (_, 0) => (a, a_first.code, a_after.code),
        _ => return Neither,
    };
    match after {
        0 => Waits(alone, Says::of(&pair.plan, other).unfit),
        after if after == alone => One(alone),
        _ => OneOtherwise,
    }
}
