//! States that are foreign to the judge by portions: each rule of
//! docs/PORTIONS.md at its edge, the last number allowed and the first beyond.

use super::portion_tests::*;
use super::*;

/// Whether the state by itself is foreign: asked with a flow of 546 records that
/// no judgement that goes on has seen, and with one that is too short for it.
#[track_caller]
fn assert_foreign(state: [u64; STATE_NUMBERS]) {
    for flow in [&[b' '; 546 * 120][..], &example(), b"", b"short"] {
        for portion in [0, 1, u64::MAX] {
            assert_eq!(call(flow, portion, &state), (Answer::Foreign, 0, state));
        }
    }
}

#[track_caller]
fn assert_not_foreign(state: [u64; STATE_NUMBERS]) {
    assert_ne!(call(&[b' '; 546 * 120], 0, &state).0, Answer::Foreign);
}

/// The last number allowed in a place of the state, and the one above it.
#[track_caller]
fn assert_most(state: [u64; STATE_NUMBERS], place: usize, most: u64) {
    assert_not_foreign(with_numbers(state, &[(place, most)]));
    assert_foreign(with_numbers(state, &[(place, most + 1)]));
    for above in [1 << 8, 1 << 15, 1 << 32, 1 << 63, u64::MAX] {
        if above > most {
            assert_foreign(with_numbers(state, &[(place, above)]));
        }
    }
}

#[test]
fn states_that_stand_in_no_way() {
    for stands in [0, 4, 5, 257, 1 << 32, (1 << 32) + 1, u64::MAX] {
        assert_foreign(with_numbers(far(), &[(0, stands)]));
        assert_foreign(with_numbers(start(), &[(0, stands)]));
    }
    assert_foreign([0; STATE_NUMBERS]);
    for stands in [1, 2] {
        assert_not_foreign(with_numbers(far(), &[(0, stands)]));
        assert_not_foreign(with_numbers(start(), &[(0, stands)]));
    }
}

/// The state ended with this refusal.
fn ended_with(state: [u64; STATE_NUMBERS], refusal: [u64; 3]) -> [u64; STATE_NUMBERS] {
    let [number, record, position] = refusal;
    with_numbers(state, &[(0, 3), (1, number), (2, record), (3, position)])
}

#[test]
fn refusals_that_a_judgement_can_give() {
    for number in (3..=20).filter(|&number| number != 5).chain([26]) {
        // Any position.
        for position in [0, 1, 120, 121, 255, 256, 1 << 32, 1 << 63, u64::MAX] {
            let state = ended_with(far(), [number, 11, position]);
            let answer = no(number as u8, 11, position as usize);
            assert_eq!(call(&example(), 3, &state), (answer, 11, state));
        }
        for (record, position) in [
            (10, 1),
            (12, 1),
            (0, 0),
            (u64::MAX, 1),
            (10, 121),
            (12, u64::MAX),
        ] {
            assert_foreign(ended_with(far(), [number, record, position]));
        }
    }
    for number in [1, 2] {
        let state = ended_with(far(), [number, 0, 0]);
        assert_eq!(call(b"", 0, &state), (no(number as u8, 0, 0), 0, state));
        for (record, position) in [(0, 1), (0, u64::MAX), (1, 0), (11, 0), (11, 1)] {
            assert_foreign(ended_with(far(), [number, record, position]));
        }
    }
    let state = ended_with(far(), [5, 11, 0]);
    assert_eq!(call(b"", 0, &state), (no(5, 11, 0), 10, state));
    for (record, position) in [(11, 1), (11, u64::MAX), (10, 0), (12, 0), (0, 0)] {
        assert_foreign(ended_with(far(), [5, record, position]));
    }
    let others = (21..=25).chain([0, 27, 28, 100, 101, 102, 256 + 7, (1 << 32) + 7, u64::MAX]);
    for number in others {
        for (record, position) in [(0, 0), (11, 0), (11, 11)] {
            assert_foreign(ended_with(far(), [number, record, position]));
        }
    }
}

#[test]
fn the_last_record_that_can_be_refused() {
    let all = with_numbers(far(), &[(4, 545)]);
    assert_not_foreign(ended_with(all, [7, 546, 4]));
    assert_not_foreign(ended_with(all, [7, 546, u64::MAX]));
    assert_not_foreign(ended_with(all, [5, 546, 0]));
    let all = with_numbers(far(), &[(4, 546)]);
    assert_foreign(ended_with(all, [7, 547, 4]));
    assert_not_foreign(ended_with(all, [5, 547, 0]));
    assert_not_foreign(ended_with(all, [1, 0, 0]));
    // No number is carried around the end of 64 bits.
    let all = with_numbers(far(), &[(4, u64::MAX)]);
    assert_foreign(ended_with(all, [7, 0, 4]));
    assert_foreign(ended_with(all, [5, 0, 0]));
}

#[test]
fn records_that_have_passed() {
    let accepted = with_numbers(far(), &[(0, 2)]);
    assert_most(accepted, 4, 546);
    assert_foreign(with_numbers(far(), &[(4, 547)]));
    // A state that goes on has seen fewer than the flow has.
    let flow = [b' '; 546 * 120];
    let state = with_numbers(far(), &[(4, 546)]);
    assert_eq!(call(&flow, 1, &state), (Answer::Foreign, 0, state));
    let state = with_numbers(far(), &[(4, 545)]);
    assert_eq!(call(&flow, 1, &state).0, no(4, 546, 2));
    for (passed, foreign) in [(7, false), (8, true), (9, true)] {
        let state = with_numbers(start(), &[(4, passed)]);
        let answer = call(&example(), 0, &state).0;
        assert_eq!(answer == Answer::Foreign, foreign);
    }
}

#[test]
fn counts_are_no_more_than_records() {
    for place in [5, 6, 9] {
        assert_most(far(), place, 10);
        assert_most(start(), place, 0);
        assert_most(with_numbers(far(), &[(0, 2)]), place, 10);
        assert_most(ended_with(far(), [5, 11, 0]), place, 10);
    }
}

#[test]
fn kinds_and_sections() {
    for state in [far(), with_numbers(far(), &[(0, 2)]), start()] {
        assert_most(state, 7, 9);
        assert_most(state, 8, 4);
    }
}

#[test]
fn sums_are_no_more_than_records_can_bring() {
    const MOST: u64 = 9_999_999_999_999_990;
    for place in 12..=32 {
        assert_most(far(), place, MOST);
        assert_most(start(), place, 0);
        assert_most(with_numbers(far(), &[(0, 2)]), place, MOST);
    }
    // Final balances and the open delega's debits together.
    assert_most(with_numbers(far(), &[(11, 0)]), 10, MOST);
    assert_most(with_numbers(far(), &[(10, 0)]), 11, MOST);
    assert_most(far(), 10, MOST - 9);
    assert_most(far(), 11, MOST - 70);
    assert_most(start(), 10, 0);
    assert_most(start(), 11, 0);
    // They are not added in 64 bits.
    assert_foreign(with_numbers(far(), &[(10, u64::MAX), (11, 1)]));
    assert_foreign(with_numbers(far(), &[(10, 1 << 63), (11, 1 << 63)]));
    // 546 records and the largest amount.
    let state = with_numbers(far(), &[(0, 2), (4, 546)]);
    assert_most(state, 23, 545_999_999_999_999_454);
}

#[test]
fn names_are_bytes() {
    for place in 33..=52 {
        assert_most(far(), place, 255);
        assert_most(start(), place, 255);
        assert_not_foreign(with_numbers(far(), &[(place, 0)]));
    }
}

#[test]
fn an_ended_state_is_foreign_before_it_answers() {
    let (_, _, state) = call(&example(), 8, &start());
    assert_foreign(with_numbers(state, &[(33, 256)]));
    assert_foreign(with_numbers(state, &[(6, 9)]));
    let (_, _, state) = call(&[b' '; 120], 1, &start());
    assert_eq!(state[..5], [3, 4, 1, 2, 0]);
    assert_foreign(with_numbers(state, &[(10, 1)]));
    assert_foreign(with_numbers(state, &[(2, 2)]));
}
