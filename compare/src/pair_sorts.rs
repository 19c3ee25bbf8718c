//! What the two corrections of a pair are to come to: both made in both orders, one that
//! waits for the other, two of which either is made and not both, and others. An aim is
//! tried a few times; what comes of it the tally says.

use crate::calls::Call;
use crate::correction::{self, aimed, amounts, choose_at, fitting, up_to, Place, Spot, MOST, REFUSED, UNFIT};
use crate::pair_lines::{NOT_THERE, SAME_LINE, TWO_DELEGHE, TWO_SECTIONS};
use crate::planned::{self, Says};
use crate::rng::Rng;
use crate::sound::Plan;
use std::ops::Range;

/// Two corrections of these lines of a plan.
type Aim = fn(&mut Rng, &Plan, [Place; 2]) -> [Call; 2];

/// How often it is drawn, how its lines may lie to one another, and the aim.
type Sort = (u64, Range<usize>, Aim);

const ANY: Range<usize> = 0..NOT_THERE;
const ONE_SECTION: Range<usize> = 0..TWO_SECTIONS;
const ONE_DELEGA: Range<usize> = 0..TWO_DELEGHE;
const ABSENT: Range<usize> = NOT_THERE..SAME_LINE;
const ONE_LINE: Range<usize> = SAME_LINE..SAME_LINE + 1;

pub static AIMS: [(Sort, &str); 20] = [
    ((8, ANY, any_two), "any two"),
    ((8, ANY, in_turn), "one by what the other leaves"),
    ((14, ANY, both_fit), "made in both orders"),
    ((12, ANY, waits_for_room), "one waits for room, 23"),
    ((5, ONE_SECTION, waits_for_total), "one waits for a total credit, 23"),
    ((8, ONE_DELEGA, waits_for_balance), "one waits for the balance, 14"),
    ((9, ANY, no_room_for_both), "room for either, 23"),
    ((5, ONE_SECTION, no_total_for_both), "a total credit for either, 23"),
    ((6, ONE_DELEGA, no_balance_for_both), "balance for either, 14"),
    ((8, ANY, one_refused), "one refused 9, 21 or 22"),
    ((6, ANY, one_unfit), "one refused 14 or 23"),
    ((7, ANY, to_zero), "to a delega of zero"),
    ((7, ANY, to_nines), "to sums of fifteen nines"),
    ((8, ONE_SECTION, sign_and_back), "a sign turned and back"),
    ((6, ANY, sums_back), "what one adds off by the other"),
    ((4, ANY, same_amounts), "the amounts that are there"),
    ((5, ABSENT, absent), "a line that is not there"),
    ((4, ONE_LINE, any_two), "the same line, any two"),
    ((2, ONE_LINE, the_same_twice), "the same line, twice the same"),
    ((2, ONE_LINE, amounts_back), "the same line, back as it was"),
];

/// So often an aim is tried.
const TRIES: usize = 8;

/// Tries to make a pair that is as it must be, and takes the last where none is.
fn tried(mut make: impl FnMut() -> [Call; 2], is_so: impl Fn(&[[u64; 5]; 2]) -> bool) -> [Call; 2] {
    let mut calls = make();
    for _ in 1..TRIES {
        if is_so(&[calls[0].numbers(), calls[1].numbers()]) {
            break;
        }
        calls = make();
    }
    calls
}

/// How the two end one after the other.
fn ends(plan: &Plan, one: [u64; 5], other: [u64; 5]) -> [u64; 2] {
    let first = Says::of(plan, one).number;
    let second = if first == 0 { Says::of(&planned::after(plan, one), other) } else { Says::of(plan, other) };
    [first, second.number]
}

/// The plan after a correction, if that is made.
fn left(plan: &Plan, call: &Call) -> Plan {
    let numbers = call.numbers();
    if Says::of(plan, numbers).number == 0 {
        planned::after(plan, numbers)
    } else {
        plan.clone()
    }
}

fn call(plan: &Plan, spot: &Spot, (debit, credit): (i64, i64)) -> Call {
    amounts(plan, spot, debit as u64, credit as u64)
}

/// A correction that is made.
fn made(rng: &mut Rng, plan: &Plan, place: Place) -> Call {
    let spot = Spot::at(plan, place);
    let new = fitting(rng, &spot);
    call(plan, &spot, new)
}

/// A number from `low` to `high`, often one of them; `low` where there is none.
fn edge(rng: &mut Rng, low: i64, high: i64) -> i64 {
    match rng.below(4) {
        0 => low,
        1 => high.max(low),
        _ => low + up_to(rng, high - low),
    }
    .clamp(0, MOST)
}

fn any_two(rng: &mut Rng, plan: &Plan, [one, other]: [Place; 2]) -> [Call; 2] {
    [choose_at(rng, plan, one), choose_at(rng, plan, other)]
}

fn in_turn(rng: &mut Rng, plan: &Plan, [one, other]: [Place; 2]) -> [Call; 2] {
    let first = choose_at(rng, plan, one);
    let left = left(plan, &first);
    [first, choose_at(rng, &left, other)]
}

fn both_fit(rng: &mut Rng, plan: &Plan, [one, other]: [Place; 2]) -> [Call; 2] {
    let make = || {
        let first = made(rng, plan, one);
        let left = left(plan, &first);
        let around = if rng.one_in(2) { plan } else { &left };
        [first, made(rng, around, other)]
    };
    tried(make, |&[one, other]| ends(plan, one, other) == [0, 0] && Says::of(plan, other).number == 0)
}

/// Amounts with which every sum fits in the one plan, and some sum does not in the other.
fn filling(rng: &mut Rng, fits: &Spot, not: &Spot) -> (i64, i64) {
    let most_credit = MOST - fits.credits;
    let credit = match rng.below(4) {
        _ if fits.identifying => 0,
        0 => up_to(rng, most_credit),
        1 => edge(rng, fits.balance.min(most_credit), most_credit),
        _ => 0,
    };
    let low = fits.lowest(credit).max(not.highest(credit) + 1);
    (edge(rng, low, fits.highest(credit)), credit)
}

/// The same, and the total credit is what does not fit.
fn crediting(rng: &mut Rng, fits: &Spot, not: &Spot) -> (i64, i64) {
    let credit = edge(rng, MOST - not.credits + 1, MOST - fits.credits);
    (edge(rng, fits.lowest(credit), fits.highest(credit)), credit)
}

/// Amounts with which the delega is not negative in the one plan, and is in the other.
fn draining(rng: &mut Rng, fits: &Spot, not: &Spot) -> (i64, i64) {
    let debit = if rng.one_in(2) { 0 } else { up_to(rng, fits.highest(0)) };
    let (low, high) = (not.balance + debit + 1, (fits.balance + debit).min(MOST - fits.credits));
    (debit, edge(rng, low.max(1), high))
}

fn waits_for_room(rng: &mut Rng, plan: &Plan, places: [Place; 2]) -> [Call; 2] {
    waits(rng, plan, places, filling, 23)
}

fn waits_for_total(rng: &mut Rng, plan: &Plan, places: [Place; 2]) -> [Call; 2] {
    waits(rng, plan, places, crediting, 23)
}

fn waits_for_balance(rng: &mut Rng, plan: &Plan, places: [Place; 2]) -> [Call; 2] {
    waits(rng, plan, places, draining, 14)
}

/// Amounts that fit around the one spot and not around the other.
type Between = fn(&mut Rng, &Spot, &Spot) -> (i64, i64);

/// The second is made after the first alone.
fn waits(rng: &mut Rng, plan: &Plan, [one, other]: [Place; 2], between: Between, number: u64) -> [Call; 2] {
    let make = || {
        let first = made(rng, plan, one);
        let left = left(plan, &first);
        let spot = Spot::at(&left, other);
        let new = between(rng, &spot, &Spot::at(plan, other));
        [first, call(plan, &spot, new)]
    };
    tried(make, |&[one, other]| ends(plan, one, other) == [0, 0] && Says::of(plan, other).number == number)
}

fn no_room_for_both(rng: &mut Rng, plan: &Plan, places: [Place; 2]) -> [Call; 2] {
    either(rng, plan, places, filling, 23)
}

fn no_total_for_both(rng: &mut Rng, plan: &Plan, places: [Place; 2]) -> [Call; 2] {
    either(rng, plan, places, crediting, 23)
}

fn no_balance_for_both(rng: &mut Rng, plan: &Plan, places: [Place; 2]) -> [Call; 2] {
    either(rng, plan, places, draining, 14)
}

/// Each is made by itself, and none after the other.
fn either(rng: &mut Rng, plan: &Plan, [one, other]: [Place; 2], between: Between, number: u64) -> [Call; 2] {
    let make = || {
        let first = made(rng, plan, one);
        let left = left(plan, &first);
        let spot = Spot::at(plan, other);
        let new = between(rng, &spot, &Spot::at(&left, other));
        [first, call(plan, &spot, new)]
    };
    tried(make, |&[one, other]| Says::of(plan, other).number == 0 && ends(plan, one, other) == [0, number])
}

fn one_refused(rng: &mut Rng, plan: &Plan, [one, other]: [Place; 2]) -> [Call; 2] {
    let aim = rng.between(*REFUSED.start(), *REFUSED.end());
    [made(rng, plan, one), aimed(rng, plan, &Spot::at(plan, other), aim)]
}

fn one_unfit(rng: &mut Rng, plan: &Plan, [one, other]: [Place; 2]) -> [Call; 2] {
    let aim = rng.between(*UNFIT.start(), *UNFIT.end());
    [made(rng, plan, one), aimed(rng, plan, &Spot::at(plan, other), aim)]
}

/// All debits of the second's delega are its credits in the end.
fn to_zero(rng: &mut Rng, plan: &Plan, [one, other]: [Place; 2]) -> [Call; 2] {
    let make = || {
        let first = made(rng, plan, one);
        let spot = Spot::at(&left(plan, &first), other);
        let debit = if rng.one_in(2) { 0 } else { up_to(rng, MOST - spot.debits) };
        [first, call(plan, &spot, (debit, (spot.balance + debit).clamp(0, MOST)))]
    };
    tried(make, |&[one, other]| ends(plan, one, other) == [0, 0])
}

/// As much in the end as a field holds.
fn to_nines(rng: &mut Rng, plan: &Plan, [one, other]: [Place; 2]) -> [Call; 2] {
    let make = || {
        let first = made(rng, plan, one);
        let spot = Spot::at(&left(plan, &first), other);
        let credit = match rng.below(4) {
            _ if spot.identifying => 0,
            0 => up_to(rng, MOST - spot.credits),
            1 => MOST - spot.credits,
            _ => 0,
        };
        [first, call(plan, &spot, (spot.highest(credit).clamp(0, MOST), credit))]
    };
    tried(make, |&[one, other]| ends(plan, one, other) == [0, 0])
}

/// Amounts with which the section's sign is N, or P.
fn turning(rng: &mut Rng, spot: &Spot, negative: bool) -> (i64, i64) {
    if negative {
        let debit = if rng.one_in(2) { 0 } else { up_to(rng, spot.highest(0)) };
        let most = (spot.balance + debit).min(MOST - spot.credits);
        return (debit, edge(rng, (spot.debits + debit - spot.credits + 1).max(0), most));
    }
    let credit = if spot.identifying || rng.one_in(2) { 0 } else { up_to(rng, MOST - spot.credits) };
    (edge(rng, (spot.credits + credit - spot.debits).max(0), spot.highest(credit)), credit)
}

/// Both lines are of one section, whose sign the first turns and the second turns back.
fn sign_and_back(rng: &mut Rng, plan: &Plan, [one, other]: [Place; 2]) -> [Call; 2] {
    let is_negative = |plan: &Plan| {
        let (debit, credit) = plan.deleghe[one.delega].sections[one.section].sums();
        debit < credit
    };
    let was = is_negative(plan);
    let make = || {
        let spot = Spot::at(plan, one);
        let new = turning(rng, &spot, !was);
        let first = call(plan, &spot, new);
        let spot = Spot::at(&left(plan, &first), other);
        let new = turning(rng, &spot, was);
        [first, call(plan, &spot, new)]
    };
    let turned = |one| is_negative(&planned::after(plan, one)) != was;
    tried(make, |&[one, other]| ends(plan, one, other) == [0, 0] && turned(one))
}

/// The second takes off what the first puts on.
fn sums_back(rng: &mut Rng, plan: &Plan, [one, other]: [Place; 2]) -> [Call; 2] {
    let make = || {
        let first = made(rng, plan, one);
        let [.., debit, credit] = first.numbers();
        let (was, spot) = (Spot::at(plan, one).old, Spot::at(plan, other));
        let back = (spot.old.0 + was.0 - debit as i64, spot.old.1 + was.1 - credit as i64);
        [first, call(plan, &spot, (back.0.clamp(0, MOST), back.1.clamp(0, MOST)))]
    };
    tried(make, |&[one, other]| ends(plan, one, other) == [0, 0])
}

fn same_amounts(rng: &mut Rng, plan: &Plan, [one, other]: [Place; 2]) -> [Call; 2] {
    let (first, second) = (Spot::at(plan, one), Spot::at(plan, other));
    let second = call(plan, &second, second.old);
    match rng.below(3) {
        0 => [call(plan, &first, first.old), second],
        1 => [choose_at(rng, plan, one), second],
        _ => [made(rng, plan, one), second],
    }
}

/// The second names no line, and now and then the first neither.
fn absent(rng: &mut Rng, plan: &Plan, [one, other]: [Place; 2]) -> [Call; 2] {
    let mut nowhere = |place| aimed(rng, plan, &Spot::at(plan, place), *REFUSED.start());
    let (first, second) = (nowhere(one), nowhere(other));
    [if rng.one_in(8) { first } else { choose_at(rng, plan, one) }, second]
}

fn the_same_twice(rng: &mut Rng, plan: &Plan, [one, _]: [Place; 2]) -> [Call; 2] {
    let call = if rng.one_in(4) { correction::choose_at(rng, plan, one) } else { made(rng, plan, one) };
    [call, call]
}

fn amounts_back(rng: &mut Rng, plan: &Plan, [one, _]: [Place; 2]) -> [Call; 2] {
    let spot = Spot::at(plan, one);
    [made(rng, plan, one), call(plan, &spot, spot.old)]
}
