//! The two lines of a pair, and how they lie to one another.

use crate::correction::Place;
use crate::planned;
use crate::rng::Rng;
use crate::sound::Plan;

/// How the lines lie, each sort with how often it is drawn.
#[rustfmt::skip]
pub const RELATIONS: [(u64, &str); 12] = [
    (12, "one section, neighbours"), (10, "one section, others"),
    (10, "two sections, the same place"), (6, "two sections, neighbours"), (8, "two sections, others"),
    (10, "two deleghe, all else the same"), (6, "two deleghe, the same section"), (6, "two deleghe, the same place"),
    (6, "two deleghe, neighbours"), (6, "two deleghe, others"),
    (6, "one or both not there"), (8, "the same line twice"),
];

/// The first of those whose lines are of two sections, and of two deleghe; the last two
/// of all.
pub const TWO_SECTIONS: usize = 2;
pub const TWO_DELEGHE: usize = 5;
pub const NOT_THERE: usize = 10;
pub const SAME_LINE: usize = 11;

/// How two corrections with these numbers lie to one another.
pub fn relation(plan: &Plan, [one, other]: [[u64; 5]; 2]) -> usize {
    match (planned::place(plan, one), planned::place(plan, other)) {
        _ if one[..3] == other[..3] => SAME_LINE,
        (Some(one), Some(other)) => of_places(plan, one, other),
        _ => NOT_THERE,
    }
}

/// The same of two lines that are there.
fn of_places(plan: &Plan, one: Place, other: Place) -> usize {
    let (first, second) = if is_before(one, other) { (one, other) } else { (other, one) };
    let section = |place: Place| &plan.deleghe[place.delega].sections[place.section];
    let ends = first.line + 1 == section(first).lines.len() && second.line == 0;
    let same_place = first.line == second.line;
    let same_section = section(first).section == section(second).section;
    if one == other {
        SAME_LINE
    } else if first.delega == second.delega {
        match (first.section == second.section, same_place) {
            (true, _) if second.line - first.line == 1 => 0,
            (true, _) => 1,
            (false, true) => 2,
            (false, false) if ends && second.section - first.section == 1 => 3,
            (false, false) => 4,
        }
    } else {
        let last = first.section + 1 == plan.deleghe[first.delega].sections.len() && second.section == 0;
        match (same_section, same_place) {
            (true, true) => 5,
            (true, false) => 6,
            (false, true) => 7,
            (false, false) if ends && last && second.delega - first.delega == 1 => 8,
            (false, false) => 9,
        }
    }
}

fn is_before(one: Place, other: Place) -> bool {
    (one.delega, one.section, one.line) < (other.delega, other.section, other.line)
}

/// The places of all lines of a plan.
pub fn all(plan: &Plan) -> Vec<Place> {
    let mut places = Vec::new();
    for (delega, d) in plan.deleghe.iter().enumerate() {
        for (section, s) in d.sections.iter().enumerate() {
            places.extend((0..s.lines.len()).map(|line| Place { delega, section, line }));
        }
    }
    places
}

/// Two lines of a plan that lie so, where a few draws find any.
pub fn drawn(rng: &mut Rng, plan: &Plan, relation: usize) -> Option<[Place; 2]> {
    let all = all(plan);
    for _ in 0..8 {
        let one = rng.pick(&all);
        if matches!(relation, NOT_THERE | SAME_LINE) {
            return Some([one, one]);
        }
        let others: Vec<Place> = all.iter().copied().filter(|&other| of_places(plan, one, other) == relation).collect();
        if !others.is_empty() {
            return Some([one, rng.pick(&others)]);
        }
    }
    None
}
