//! States put together by hand, and what the generator says of a state before a
//! record is looked at: whether it is foreign, what it answers again, and what
//! the length of the flow answers. It goes by a table of the most that each
//! number may be. Where the library and the reference share a mistake, neither
//! differs from the other, but both differ from this.

use crate::calls::{FOREIGN, STATE_ROOM};
use crate::columns::{MOST_AMOUNT, MOST_BYTES, MOST_RECORDS, RECORD};
use crate::portion::{is_whole, Gave, Numbers};
use crate::rng::Rng;

/// The most that a number may be, beside the others of its state. A position may
/// be any but with the refusals that have none.
pub fn most(state: &Numbers, place: usize) -> u64 {
    let passed = state[4];
    let sums = passed.saturating_mul(MOST_AMOUNT);
    match place {
        0 => 3,
        1 => 26,
        2 if matches!(state[1], 1 | 2) => 0,
        2 => passed.saturating_add(1),
        3 if matches!(state[1], 1 | 2 | 5) => 0,
        3 => u64::MAX,
        4 => MOST_RECORDS as u64,
        5 | 6 | 9 => passed,
        7 => 9,
        8 => 4,
        10 => sums.saturating_sub(state[11]),
        11 => sums.saturating_sub(state[10]),
        12..=32 => sums,
        _ => u64::from(u8::MAX),
    }
}

/// Whether no judgement has this state, whatever the flow is.
fn is_foreign(state: &Numbers) -> bool {
    let above = |place: &usize| state[*place] > most(state, *place);
    let [stands, number, record, position, passed, ..] = *state;
    let refusal = match number {
        1 | 2 => [record, position] == [0, 0],
        5 => record.checked_sub(1) == Some(passed) && position == 0,
        _ => {
            let one_of = number > 2 && number < 21 || number == 26;
            one_of && record.checked_sub(1) == Some(passed) && record < 547
        }
    };
    // What is above the most for its place is found before sums are taken.
    (4..STATE_ROOM).any(|place| above(&place)) || !(1..=3).contains(&stands) || (stands == 3 && !refusal)
}

/// What a call from this state gives before any record is looked at; `None` where
/// the judgement goes on.
pub fn known(state: &Numbers, length: usize) -> Option<Gave> {
    let [stands, number, record, position, passed, ..] = *state;
    let foreign = Gave { code: FOREIGN, answer: vec![0], state: *state };
    if is_foreign(state) {
        return Some(foreign);
    }
    let examined = match number {
        _ if stands == 2 => passed,
        5 => record - 1,
        _ => record,
    };
    match stands {
        2 => {
            let lines = passed - state[5];
            let answer = [&[examined, state[6], passed, state[10], lines], &state[23..33]].concat();
            Some(Gave { code: 0, answer, state: ended(state, [2, 0, 0, 0]) })
        }
        3 => Some(Gave { code: number, answer: vec![examined, record, position], state: *state }),
        _ if !is_whole(length) => {
            let code = if length > MOST_BYTES { 1 } else { 2 };
            Some(Gave { code, answer: vec![0; 3], state: ended(state, [3, code, 0, 0]) })
        }
        _ => Some(foreign).filter(|_| passed >= (length / RECORD) as u64),
    }
}

/// The state with these first numbers.
fn ended(state: &Numbers, first: [u64; 4]) -> Numbers {
    let mut state = *state;
    state[..4].copy_from_slice(&first);
    state
}

/// Which of its ends a forged number is at, if it is at one.
#[derive(Clone, Copy, PartialEq)]
pub enum Edge {
    Allowed,
    Foreign,
    Neither,
}

/// Numbers at the ends of fewer bits, and at other ends.
#[rustfmt::skip]
const ENDS: [u64; 16] = [
    0, 1, 2, 255, 1 << 8, 1 << 15, (1 << 15) + 1, 1 << 16, 1 << 31, 1 << 32, (1 << 32) + 1, 1 << 62, 1 << 63, (1 << 63) + 1,
    u64::MAX - 1, u64::MAX,
];

/// Puts another number in one place of a state.
pub fn forge(rng: &mut Rng, state: &mut Numbers, place: usize) -> Edge {
    let most = most(state, place);
    let (number, edge) = match rng.below(8) {
        0 | 1 => (most, Edge::Allowed),
        2 | 3 if most < u64::MAX => (most + 1, Edge::Foreign),
        4 => (rng.wide(most.min(u64::MAX - 1)), Edge::Neither),
        // One that is right in fewer bits.
        5 => (state[place].wrapping_add(rng.pick(&[1 << 8, 1 << 16, 1 << 32, 1 << 63])), Edge::Neither),
        6 => (state[place].wrapping_add(rng.pick(&[1, u64::MAX])), Edge::Neither),
        _ => (rng.pick(&ENDS), Edge::Neither),
    };
    state[place] = number;
    edge
}

/// A refusal that a judgement can give after the records that have passed, often
/// one that has no position.
pub fn refuse(rng: &mut Rng, state: &mut Numbers) {
    let next = state[4].wrapping_add(1);
    let number = match rng.below(8) {
        0 => 1,
        1 => 2,
        2 | 3 => 5,
        4 => 26,
        _ => rng.pick(&[3, 4, 6, 7, 8, 9, 10, 11, 12, 13, 14, 15, 16, 17, 18, 19, 20]),
    };
    let place = match number {
        1 | 2 => [0, 0],
        5 => [next, 0],
        _ => [next, rng.between(1, 120)],
    };
    state[..4].copy_from_slice(&[3, number, place[0], place[1]]);
}

/// The refusal of an ended state, at the edges of what a judgement can give.
pub fn forge_refusal(rng: &mut Rng, state: &mut Numbers) {
    let next = state[4].wrapping_add(1);
    state[0] = 3;
    state[1] = match rng.below(8) {
        0 => rng.pick(&[0, 27, 28, 100, 101, 102, 256 + 7, (1 << 32) + 7, u64::MAX]),
        1 => rng.between(21, 25),
        2 => 26,
        3 => 5,
        4 => rng.between(1, 2),
        _ => rng.between(3, 20),
    };
    let usual = if state[1] == 1 || state[1] == 2 { 0 } else { next };
    let others = [0, 1, next.wrapping_sub(1), next.wrapping_add(1), 546, 547, next.wrapping_add(1 << 32), u64::MAX];
    state[2] = if rng.one_in(4) { rng.pick(&others) } else { usual };
    state[3] = match rng.below(6) {
        0 | 1 => 0,
        2 => rng.pick(&[119, 120, 121, 122]),
        3 => rng.pick(&[1, 2, 11, 255, 256, (1 << 32) + 2, 1 << 63, u64::MAX]),
        _ => rng.between(1, 120),
    };
}

/// A state within all bounds, in which nothing hangs together: the records that
/// have passed are given.
pub fn anything(rng: &mut Rng, passed: u64) -> Numbers {
    let mut state = [0; STATE_ROOM];
    state[0] = 1;
    state[4] = passed;
    for place in 5..STATE_ROOM {
        let most = most(&state, place);
        state[place] = match rng.below(6) {
            0 => 0,
            1 => most,
            2 => rng.between(0, most.min(9)),
            3 => rng.below(most + 1),
            _ => rng.wide(most),
        };
    }
    state
}
