//! Lists of delega numbers to be dropped: right ones, and those with a number that
//! is named twice or is no delega's. Of most the generator knows the answer.

use crate::rng::Rng;

/// A list, and what an accepted flow answers to it: 0, 21 or 28, where that is known.
pub struct List {
    pub numbers: Vec<u64>,
    pub says: Option<u64>,
}

/// Makes a list for a flow of so many deleghe, one or more.
type Make = fn(&mut Rng, u64) -> List;

/// The sorts of lists. The first are mostly done where there are several deleghe.
pub const SORTS: [(Make, &str); 17] = [
    (none, "none"),
    (one, "one"),
    (several, "several"),
    (neighbours, "neighbours"),
    (every_other, "every other one"),
    (all_but_one, "all but one"),
    (all, "all"),
    (all_and_again, "all, and some again"),
    (all_and_strange, "all, and one not there"),
    (twice, "one named twice"),
    (zero, "0 among them"),
    (above, "one above the count"),
    (huge, "a huge one"),
    (fewer_bits, "one right in fewer bits"),
    (longer, "longer than the deleghe"),
    (very_long, "hundreds or thousands"),
    (any, "any numbers"),
];

const MOSTLY_DONE: usize = 6;

/// The place of a sort: one of the first in a third of the cases, else any alike.
pub fn any_sort(rng: &mut Rng) -> usize {
    let among = if rng.one_in(3) { MOSTLY_DONE } else { SORTS.len() };
    rng.place(among)
}

/// The orders that a list may be in.
pub const ORDERS: [((), &str); 3] = [((), "rising"), ((), "falling"), ((), "any")];

/// The place of the sort whose lists are very long.
pub const VERY_LONG: usize = 15;
/// The most numbers of a list.
pub const LONGEST: usize = 4000;

/// A list of some order, and the place of the order.
pub fn list_of(rng: &mut Rng, sort: usize, deleghe: u64) -> (List, usize) {
    let mut list = (SORTS[sort].0)(rng, deleghe);
    let order = rng.place(ORDERS.len());
    match order {
        0 => list.numbers.sort_unstable(),
        1 => list.numbers.sort_unstable_by(|one, other| other.cmp(one)),
        _ => shuffle(rng, &mut list.numbers),
    }
    (list, order)
}

pub fn shuffle(rng: &mut Rng, numbers: &mut [u64]) {
    for end in (1..numbers.len()).rev() {
        numbers.swap(end, rng.place(end + 1));
    }
}

/// Numbers of deleghe, none of them twice.
fn right(numbers: Vec<u64>, deleghe: u64) -> List {
    let says = if numbers.len() as u64 == deleghe { 28 } else { 0 };
    List { numbers, says: Some(says) }
}

fn wrong(numbers: Vec<u64>) -> List {
    List { numbers, says: Some(21) }
}

/// So many of the deleghe.
fn some(rng: &mut Rng, deleghe: u64, count: u64) -> Vec<u64> {
    let mut numbers: Vec<u64> = (1..=deleghe).collect();
    shuffle(rng, &mut numbers);
    numbers.truncate(count as usize);
    numbers
}

/// Any number of the deleghe, from none to all of them, often few.
fn few(rng: &mut Rng, deleghe: u64) -> Vec<u64> {
    let most = if rng.one_in(2) { deleghe } else { deleghe.min(3) };
    let count = rng.below(most + 1);
    some(rng, deleghe, count)
}

fn none(_: &mut Rng, deleghe: u64) -> List {
    right(Vec::new(), deleghe)
}

fn one(rng: &mut Rng, deleghe: u64) -> List {
    let number = match rng.below(4) {
        0 => 1,
        1 => deleghe,
        _ => rng.between(1, deleghe),
    };
    right(vec![number], deleghe)
}

fn several(rng: &mut Rng, deleghe: u64) -> List {
    let most = (deleghe - 1).max(1);
    let count = rng.between(most.min(2), most);
    right(some(rng, deleghe, count), deleghe)
}

fn neighbours(rng: &mut Rng, deleghe: u64) -> List {
    let first = if rng.one_in(3) { 1 } else { rng.between(1, deleghe) };
    let last = if rng.one_in(3) { deleghe } else { rng.between(first, deleghe) };
    right((first..=last).collect(), deleghe)
}

fn every_other(rng: &mut Rng, deleghe: u64) -> List {
    let first = rng.between(1, 2);
    right((first..=deleghe).step_by(2).collect(), deleghe)
}

fn all_but_one(rng: &mut Rng, deleghe: u64) -> List {
    right(some(rng, deleghe, deleghe - 1), deleghe)
}

fn all(_: &mut Rng, deleghe: u64) -> List {
    right((1..=deleghe).collect(), deleghe)
}

fn all_and_again(rng: &mut Rng, deleghe: u64) -> List {
    let mut numbers: Vec<u64> = (1..=deleghe).collect();
    for _ in 0..rng.pick(&[1, 1, 2, 5]) {
        numbers.push(rng.between(1, deleghe));
    }
    wrong(numbers)
}

/// A number that no delega of so many has.
fn strange(rng: &mut Rng, deleghe: u64) -> u64 {
    match rng.below(4) {
        0 => 0,
        1 => deleghe + 1,
        2 => deleghe + 1 + rng.wide(10_000),
        _ => rng.pick(&[u64::MAX, u64::MAX - 1, 1 << 63, (1 << 63) - 1, 1 << 32, 10_000_000]),
    }
}

fn all_and_strange(rng: &mut Rng, deleghe: u64) -> List {
    let mut numbers: Vec<u64> = (1..=deleghe).collect();
    numbers.push(strange(rng, deleghe));
    wrong(numbers)
}

/// With one of its own once more, or as often as it takes to be as long as there
/// are deleghe.
fn twice(rng: &mut Rng, deleghe: u64) -> List {
    let mut numbers = few(rng, deleghe);
    if numbers.is_empty() {
        numbers.push(rng.between(1, deleghe));
    }
    let again = rng.pick(&numbers);
    numbers.push(again);
    if rng.one_in(4) {
        let length = numbers.len().max(deleghe as usize);
        numbers.resize(length, again);
    }
    wrong(numbers)
}

/// A few right ones and this one.
fn and(rng: &mut Rng, deleghe: u64, number: u64) -> List {
    let mut numbers = few(rng, deleghe);
    numbers.push(number);
    wrong(numbers)
}

fn zero(rng: &mut Rng, deleghe: u64) -> List {
    and(rng, deleghe, 0)
}

fn above(rng: &mut Rng, deleghe: u64) -> List {
    let number = if rng.one_in(2) { deleghe + 1 } else { deleghe + 1 + rng.below(600) };
    and(rng, deleghe, number)
}

fn huge(rng: &mut Rng, deleghe: u64) -> List {
    let number = match rng.below(4) {
        0 => u64::MAX - rng.below(3),
        1 => 1 << 63,
        2 => u64::MAX - rng.below(deleghe + 2),
        _ => rng.next() | 1 << 40,
    };
    and(rng, deleghe, number)
}

/// A delega's number in the last bits, or in the last seven digits.
fn fewer_bits(rng: &mut Rng, deleghe: u64) -> List {
    let more = rng.pick(&[1 << 8, 1 << 16, 1 << 31, 1 << 32, 1 << 61, 1 << 63, 10_000_000, 1_000_000_000]);
    let number = more + rng.between(1, deleghe);
    and(rng, deleghe, number)
}

/// More numbers than there are deleghe: theirs alone, or none of them twice.
fn longer(rng: &mut Rng, deleghe: u64) -> List {
    let length = deleghe + rng.between(1, 12);
    match rng.below(2) {
        0 => wrong((0..length).map(|_| rng.between(1, deleghe)).collect()),
        _ => wrong((1..=length).collect()),
    }
}

/// The deleghe's numbers again and again, rising numbers, any of the deleghe's, or one
/// that is none of them.
fn very_long(rng: &mut Rng, deleghe: u64) -> List {
    let length = rng.pick(&[256, 257, 546, 547, 600, 1000, 2000, LONGEST as u64]);
    let (manner, alike) = (rng.below(4), strange(rng, deleghe));
    let numbers = (1..=length).map(|nth| match manner {
        0 => 1 + nth % deleghe,
        1 => nth,
        2 => rng.between(1, deleghe),
        _ => alike,
    });
    wrong(numbers.collect())
}

/// A few numbers of any sort, often right ones.
fn any(rng: &mut Rng, deleghe: u64) -> List {
    let length = rng.below(deleghe.min(6) + 2);
    let number = |_| if rng.one_in(5) { strange(rng, deleghe) } else { rng.between(1, deleghe) };
    List { numbers: (0..length).map(number).collect(), says: None }
}
