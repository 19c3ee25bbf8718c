//! The judge by portions: document 02's sentences on it and docs/PORTIONS.md,
//! with states and answers written by hand.

use super::tests::*;
use super::*;

/// Records: 1 F4, 2 10, 3 20, 4 and 5 40-05, 6 40-06, 7 50-01, 8 EF.
pub fn example() -> Vec<u8> {
    one(5, &[(10000, 0), (0, 2500)])
}

/// Two deleghe of 19 records: 1 F4; 2 10, 3 20, 4 and 5 40-01, 6 40-02,
/// 7 40-07, 8 40-08, 9 50-01; 10 10, 11 20, 12 to 14 40-17, 15 40-18, 16 50-01,
/// 17 50-02, 18 50-03; 19 EF.
fn two() -> Vec<u8> {
    let first: &[Built] = &[(1, &[(10, 3), (5, 0)]), (7, &[(0, 2)])];
    let flow = whole(&[first, &[(17, &[(100, 0), (20, 0), (3, 0)])]]);
    let (records, tail_at) = (flow.chunks_exact(120), 16);
    let mut records: Vec<Record> = records.map(|record| record.try_into().unwrap()).collect();
    records.truncate(tail_at);
    records.push(numbered("50", 2, "02"));
    records.push(numbered("50", 2, "03"));
    records.push(tail(2, 19, 133));
    records.concat()
}

fn name() -> [u64; 20] {
    let mut name = [0; 20];
    for (number, &byte) in name.iter_mut().zip(b"SUPPORT-NAME 0000001") {
        *number = u64::from(byte);
    }
    name
}

/// A state that goes on, from the numbers [4] to [12], those of the open delega
/// and those of the flow, by section.
pub fn going(numbers: [u64; 9], delega: [u64; 10], flow: [u64; 10]) -> [u64; STATE_NUMBERS] {
    let mut all = vec![1, 0, 0, 0];
    all.extend(numbers);
    all.extend(delega);
    all.extend(flow);
    all.extend(name());
    all.try_into().unwrap()
}

/// A state that a judgement can have, far on: 10 of 546 records, 6 no lines.
pub fn far() -> [u64; STATE_NUMBERS] {
    going([10, 6, 2, 4, 2, 3, 70, 9, 8], [1; 10], [2; 10])
}

/// The state with other numbers in these places.
pub fn with_numbers(
    mut state: [u64; STATE_NUMBERS],
    others: &[(usize, u64)],
) -> [u64; STATE_NUMBERS] {
    for &(place, number) in others {
        state[place] = number;
    }
    state
}

pub fn start() -> [u64; STATE_NUMBERS] {
    let mut numbers = [0; STATE_NUMBERS];
    numbers[0] = 1;
    numbers
}

/// Calls and gives the numbers of the new state.
pub fn call(
    flow: &[u8],
    portion: u64,
    state: &[u64; STATE_NUMBERS],
) -> (Answer, u64, [u64; STATE_NUMBERS]) {
    let answered = judge_portion(flow, portion, &State::of(state));
    (answered.answer, answered.examined, answered.state.numbers())
}

pub fn no(number: u8, record: usize, position: usize) -> Answer {
    Answer::Ended(Err(refused(number, record, position)))
}

// ------------------------------------------------------------------- numbers

#[test]
fn the_start_is_a_one_and_zeros() {
    assert_eq!(State::start().numbers(), start());
    assert_eq!(State::of(&start()), State::start());
}

#[test]
fn every_number_has_its_place() {
    let mut numbers = [0; STATE_NUMBERS];
    for (number, value) in numbers.iter_mut().zip(1000..) {
        *number = value;
    }
    let state = State::of(&numbers);
    assert_eq!(state.numbers(), numbers);
    assert_eq!((state.stands, state.refusal), (1000, [1001, 1002, 1003]));
    assert_eq!((state.passed, state.no_lines), (1004, 1005));
    assert_eq!((state.deleghe, state.last), (1006, 1007));
    assert_eq!((state.section, state.lines), (1008, 1009));
    assert_eq!((state.total, state.open), (1010, (1011, 1012)));
    assert_eq!(state.delega[0], (1013, 1014));
    assert_eq!(state.delega[4], (1021, 1022));
    assert_eq!(state.flow[0], (1023, 1024));
    assert_eq!(state.flow[4], (1031, 1032));
    assert_eq!((state.name[0], state.name[19]), (1033, 1052));
}

/// The states of `two`'s judgement after each record but the last.
fn states_of_two() -> [[u64; STATE_NUMBERS]; 18] {
    let no = [0; 10];
    let (erario, imu) = (
        [15, 3, 0, 0, 0, 0, 0, 0, 0, 0],
        [15, 3, 0, 0, 0, 0, 0, 2, 0, 0],
    );
    let of_17 = |debit| [0, 0, 0, 0, 0, 0, 0, 0, debit, 0];
    let with_17 = |debit| [15, 3, 0, 0, 0, 0, 0, 2, debit, 0];
    let first = [10, 3, 0, 0, 0, 0, 0, 0, 0, 0];
    [
        going([1, 1, 0, 1, 0, 0, 0, 0, 0], no, no),
        going([2, 2, 1, 2, 0, 0, 0, 0, 0], no, no),
        going([3, 3, 1, 3, 0, 0, 0, 0, 0], no, no),
        going([4, 3, 1, 4, 0, 1, 0, 10, 3], first, first),
        going([5, 3, 1, 4, 0, 2, 0, 15, 3], erario, erario),
        going([6, 4, 1, 5, 0, 0, 0, 15, 3], erario, erario),
        going([7, 4, 1, 4, 3, 1, 0, 15, 5], imu, imu),
        going([8, 5, 1, 5, 3, 0, 0, 15, 5], imu, imu),
        going([9, 6, 1, 6, 0, 0, 10, 0, 0], no, imu),
        going([10, 7, 2, 2, 0, 0, 10, 0, 0], no, imu),
        going([11, 8, 2, 3, 0, 0, 10, 0, 0], no, imu),
        going([12, 8, 2, 4, 4, 1, 10, 100, 0], of_17(100), with_17(100)),
        going([13, 8, 2, 4, 4, 2, 10, 120, 0], of_17(120), with_17(120)),
        going([14, 8, 2, 4, 4, 3, 10, 123, 0], of_17(123), with_17(123)),
        going([15, 9, 2, 5, 4, 0, 10, 123, 0], of_17(123), with_17(123)),
        going([16, 10, 2, 6, 0, 0, 133, 0, 0], no, with_17(123)),
        going([17, 11, 2, 7, 0, 0, 133, 0, 0], no, with_17(123)),
        going([18, 12, 2, 8, 0, 0, 133, 0, 0], no, with_17(123)),
    ]
}

#[test]
fn the_state_after_every_record() {
    let flow = two();
    let mut state = start();
    for (passed, expected) in (1..).zip(states_of_two()) {
        let (answer, examined, after) = call(&flow, 1, &state);
        assert_eq!((answer, examined), (Answer::NotEnded, passed));
        assert_eq!(after, expected, "after record {passed}");
        assert_eq!(call(&flow, passed, &start()).2, expected);
        state = after;
    }
    let (answer, examined, after) = call(&flow, 1, &state);
    let summary = Summary {
        deleghe: 2,
        records: 19,
        total: 133,
        lines: 6,
        sums: [(15, 3), (0, 0), (0, 0), (0, 2), (123, 0)],
    };
    assert_eq!((answer, examined), (Answer::Ended(Ok(summary)), 19));
    let flow = [15, 3, 0, 0, 0, 0, 0, 2, 123, 0];
    let expected = going([19, 13, 2, 9, 0, 0, 133, 0, 0], [0; 10], flow);
    assert_eq!(after, with_numbers(expected, &[(0, 2)]));
}

// -------------------------------------------------------------------- series

/// All flows here with their answers: accepted, refused at the first, a middle
/// and the last record, 5, 1 and 2.
fn flows() -> Vec<Vec<u8>> {
    vec![
        example(),
        two(),
        with(example(), 1, 14, "310215"),
        with(example(), 1, 1, "\u{1}"),
        with(two(), 13, 41, "x"),
        with(example(), 8, 46, "0000002"),
        two()[..18 * 120].to_vec(),
        example()[..120].to_vec(),
        vec![b' '; 546 * 120],
        vec![b' '; 546 * 120 + 1],
        vec![],
        vec![b' '; 119],
    ]
}

/// The examined count that goes with 01's answer, in 02's words.
fn examined(flow: &[u8]) -> u64 {
    match judge(flow) {
        Ok(summary) => summary.records as u64,
        Err(refusal) if refusal.number == 5 => flow.len() as u64 / 120,
        Err(refusal) => refusal.record as u64,
    }
}

#[test]
fn any_portions_end_in_the_judgement() {
    for flow in flows() {
        let needed = examined(&flow);
        for portions in [&[1][..], &[2], &[3, 1], &[7, 0, 2], &[100, 1], &[u64::MAX]] {
            let (mut state, mut allowed) = (start(), 0_u64);
            for &portion in portions.iter().cycle().take(200) {
                let (answer, examined, after) = call(&flow, portion, &state);
                allowed = allowed.saturating_add(portion);
                if allowed < needed {
                    assert_eq!((answer, examined), (Answer::NotEnded, allowed));
                } else {
                    assert_eq!((answer, examined), (Answer::Ended(judge(&flow)), needed));
                }
                state = after;
            }
            assert_ne!(state[0], 1);
        }
    }
}

#[test]
fn a_larger_portion_alters_no_answer_given() {
    for flow in flows() {
        let needed = examined(&flow);
        let ended = call(&flow, needed.max(1), &start());
        for larger in [needed + 1, needed + 2, 546, 547, 1 << 32, u64::MAX] {
            assert_eq!(call(&flow, larger, &start()), ended);
        }
    }
}

#[test]
fn a_portion_of_zero_examines_nothing() {
    let flow = two();
    for passed in 0..19 {
        let (_, _, state) = call(&flow, passed, &start());
        assert_eq!(call(&flow, 0, &state), (Answer::NotEnded, passed, state));
    }
    // "though 1 and 2 are still given", and no other.
    let spoiled = with(example(), 1, 14, "310215");
    assert_eq!(call(&spoiled, 0, &start()), (Answer::NotEnded, 0, start()));
}

#[test]
fn lengths_are_refused_with_any_portion() {
    for (flow, number) in [
        (vec![b' '; 65_521], 1),
        (vec![b' '; 65_640], 1),
        (vec![], 2),
        (vec![b' '; 119], 2),
        (vec![b' '; 65_519], 2),
    ] {
        for state in [start(), far()] {
            for portion in [0, 1, u64::MAX] {
                let ended = with_numbers(state, &[(0, 3), (1, u64::from(number))]);
                let expected = (no(number, 0, 0), 0, ended);
                assert_eq!(call(&flow, portion, &state), expected);
                // Once more, and with a flow that is sound.
                assert_eq!(call(&flow, portion, &ended), expected);
                assert_eq!(call(&example(), portion, &ended), expected);
            }
        }
    }
}

#[test]
fn the_call_that_examines_the_last_record_ends_it() {
    let flow = example();
    let (answer, examined, before) = call(&flow, 7, &start());
    assert_eq!((answer, examined), (Answer::NotEnded, 7));
    let (answer, examined, _) = call(&flow, 1, &before);
    assert_eq!((answer, examined), (Answer::Ended(judge(&flow)), 8));

    // Refusal 5: "all records".
    let cut = &flow[..7 * 120];
    let (answer, examined, six) = call(cut, 6, &start());
    assert_eq!((answer, examined), (Answer::NotEnded, 6));
    let (answer, examined, after) = call(cut, 1, &six);
    assert_eq!((answer, examined), (no(5, 8, 0), 7));
    // The state is that after the last record, ended.
    let ended = with_numbers(before, &[(0, 3), (1, 5), (2, 8)]);
    assert_eq!(after, ended);
}

#[test]
fn a_refusal_leaves_the_state_before_its_record() {
    let flow = with(two(), 14, 41, "x");
    let (_, _, before) = call(&two(), 13, &start());
    let ended = with_numbers(before, &[(0, 3), (1, 7), (2, 14), (3, 41)]);
    for state in [start(), call(&flow, 6, &start()).2, before] {
        assert_eq!(call(&flow, 14, &state), (no(7, 14, 41), 14, ended));
    }
    // A 10 and a 50-01 that are refused open and close nothing.
    let (_, _, before) = call(&two(), 9, &start());
    let flow = with(two(), 10, 11, "RSSMRA85T10A562T");
    let ended = with_numbers(before, &[(0, 3), (1, 26), (2, 10), (3, 11)]);
    assert_eq!(call(&flow, 10, &start()), (no(26, 10, 11), 10, ended));
    let (_, _, before) = call(&two(), 15, &start());
    let flow = with(two(), 16, 36, "000000000000124");
    let ended = with_numbers(before, &[(0, 3), (1, 15), (2, 16), (3, 36)]);
    assert_eq!(call(&flow, 19, &start()), (no(15, 16, 36), 16, ended));
}

#[test]
fn an_ended_state_answers_again() {
    let other = two();
    for flow in flows() {
        let (answer, examined, state) = call(&flow, u64::MAX, &start());
        for other in [&flow[..], &other, &example(), b"", b"short", &[0; 65_521]] {
            for portion in [0, 1, 8, u64::MAX] {
                let again = call(other, portion, &state);
                assert_eq!(again, (answer, examined, state));
            }
        }
    }
}

#[test]
fn a_refusal_that_is_none_is_not_looked_at() {
    let odd = [(1, 7), (2, u64::MAX), (3, 1 << 40)];
    let flow = two();
    let (_, _, state) = call(&flow, 5, &start());
    for portion in [0, 1, 30] {
        assert_eq!(
            call(&flow, portion, &with_numbers(state, &odd)),
            call(&flow, portion, &state)
        );
    }
    let (_, _, state) = call(&flow, 30, &start());
    let again = call(&flow, 0, &with_numbers(state, &odd));
    assert_eq!(again, call(&flow, 0, &state));
    assert_eq!(again.2[..4], [2, 0, 0, 0]);
    // A foreign state comes back as it was.
    let (_, _, state) = call(&flow, 8, &start());
    let state = with_numbers(state, &odd);
    assert_eq!(call(&example(), 1, &state), (Answer::Foreign, 0, state));
}

// ---------------------------------------------------------------------- name

#[test]
fn the_name_is_kept_from_record_1() {
    let flow = example();
    let (_, _, state) = call(&flow, 7, &start());
    // Record 1 is another now; the tail is held to the name that was seen.
    let altered = with(flow.clone(), 1, 20, "ANOTHER-NAME 0000001");
    let sound = Answer::Ended(judge(&flow));
    assert_eq!(call(&altered, 1, &state).0, sound);
    assert_eq!(call(&altered, 1, &state), call(&flow, 1, &state));
    let altered = with(altered, 8, 20, "ANOTHER-NAME 0000001");
    assert_eq!(call(&altered, 1, &state).0, no(16, 8, 20));
    // And so where nothing is left of it.
    let mut blank = flow.clone();
    blank[..7 * 120].fill(0);
    assert_eq!(call(&blank, 1, &state), call(&flow, 1, &state));
}

#[test]
fn the_name_is_kept_where_record_1_is_refused() {
    let refusals = [
        ("x", 14, no(7, 1, 14)),
        ("\u{2}", 120, no(3, 1, 120)),
        ("EF", 2, no(4, 1, 2)),
    ];
    for (text, position, answer) in refusals {
        let flow = with(example(), 1, position, text);
        let (given, examined, state) = call(&flow, 1, &start());
        assert_eq!((given, examined), (answer, 1));
        assert_eq!(state[33..], name());
        assert_eq!(state[4..33], [0; 29]);
    }
    // Any bytes.
    let mut flow = example();
    flow[19..39].fill(255);
    let (answer, _, state) = call(&flow, 5, &start());
    assert_eq!(answer, no(3, 1, 20));
    assert_eq!(state[33..], [255; 20]);
    assert_eq!(call(&flow, 0, &state).0, answer);
}

#[test]
fn no_other_record_gives_the_name() {
    // A state put together by hand: one record has passed, and F4 may stand.
    let other = with_numbers(start(), &[(4, 1), (33, 65)]);
    let flow = [head(), head()].concat();
    let (answer, examined, state) = call(&flow, 1, &other);
    assert_eq!((answer, examined), (no(5, 3, 0), 2));
    assert_eq!(state[33..], other[33..]);
}

// ---------------------------------------------------------- what is looked at

#[test]
fn nothing_but_the_records_examined_is_looked_at() {
    let flow = two();
    for first in 0..18 {
        let (_, _, state) = call(&flow, first, &start());
        for portion in 0..=(18 - first) {
            let (from, to) = (first as usize * 120, (first + portion) as usize * 120);
            let mut others = vec![0; flow.len()];
            others[from..to].copy_from_slice(&flow[from..to]);
            assert_eq!(call(&others, portion, &state), call(&flow, portion, &state));
        }
    }
}

#[test]
fn a_state_of_another_flow_is_gone_on_from() {
    // Five records of the other flow have passed: two lines of Erario.
    let (_, _, state) = call(&two(), 5, &start());
    assert_eq!(call(&example(), 1, &state).0, no(4, 6, 11));
    // Those of a flow with other lines: the balance is not theirs.
    let other = one(5, &[(10000, 0), (0, 2501)]);
    let (_, _, state) = call(&other, 5, &start());
    assert_eq!(call(&example(), 1, &state).0, no(11, 6, 30));
    // By hand, from the sums of a delega.
    let (_, _, state) = call(&example(), 6, &start());
    let state = with_numbers(state, &[(11, 10001), (10, 5)]);
    assert_eq!(call(&example(), 1, &state).0, no(15, 7, 36));
    let flow = with(example(), 7, 36, "000000000007501");
    let (_, examined, after) = call(&flow, 1, &state);
    assert_eq!((examined, after[10], after[11]), (7, 7506, 0));
    // 14 goes by the delega's sums, not by those of its sections.
    let state = with_numbers(state, &[(12, 10002)]);
    assert_eq!(call(&flow, 1, &state).0, no(14, 7, 2));
}

#[test]
fn a_delega_starts_at_zero_from_any_state() {
    // After F4, with sums that no such judgement has.
    let state = with_numbers(
        call(&example(), 1, &start()).2,
        &[(11, 5), (12, 6), (15, 7)],
    );
    let (answer, _, after) = call(&example(), 1, &state);
    assert_eq!(answer, Answer::NotEnded);
    assert_eq!(after, call(&example(), 2, &start()).2);
}

#[test]
fn a_line_adds_one_to_the_lines_whatever_the_last_record_was() {
    // A section of Regioni has four lines at most. After a 20, with lines that
    // are counted where none has passed; its section is not looked at.
    let flow = one(5, &[(1, 0), (1, 0), (1, 0), (1, 0)]);
    let (_, _, state) = call(&flow, 3, &start());
    let (answer, _, after) = call(&flow, 1, &with_numbers(state, &[(9, 3), (8, 4)]));
    assert_eq!(answer, Answer::NotEnded);
    let one_line = call(&flow, 4, &start()).2;
    assert_eq!(after, with_numbers(one_line, &[(9, 4)]));
    assert_eq!(call(&flow, 1, &after).0, no(6, 5, 11));
    // The state is left as it was before the refused line.
    let state = with_numbers(state, &[(4, 4), (9, 4)]);
    let ended = with_numbers(state, &[(0, 3), (1, 6), (2, 5), (3, 11)]);
    assert_eq!(call(&flow, 1, &state), (no(6, 5, 11), 5, ended));
    // After a line.
    let state = with_numbers(one_line, &[(9, 4)]);
    assert_eq!(call(&flow, 1, &state).0, no(6, 5, 11));
    let state = with_numbers(one_line, &[(9, 3)]);
    assert_eq!(call(&flow, 1, &state).2[9], 4);
    // After the balance of another section: record 7 is the first line of IMU,
    // of which there are four at most.
    let (_, _, state) = call(&two(), 6, &start());
    let first = call(&two(), 7, &start()).2;
    let after = call(&two(), 1, &with_numbers(state, &[(9, 3)])).2;
    assert_eq!(after, with_numbers(first, &[(9, 4)]));
    let state = with_numbers(state, &[(9, 4)]);
    assert_eq!(call(&two(), 1, &state).0, no(6, 7, 11));
}

#[test]
fn a_record_that_is_no_line_sets_the_lines_to_zero() {
    // Before each record that is no line, as many lines as records are counted.
    let flow = two();
    for (passed, after) in (0..).zip(states_of_two()) {
        if passed == 0 || after[7] == 4 {
            continue;
        }
        let (_, _, state) = call(&flow, passed, &start());
        let state = with_numbers(state, &[(9, passed)]);
        assert_eq!(call(&flow, 1, &state).2, after, "record {}", passed + 1);
        // And so where the records behind it are in the same portion.
        for more in 2..=(18 - passed) {
            let own = call(&flow, passed + more, &start());
            assert_eq!(call(&flow, more, &state), own);
        }
        // A portion of zero leaves them.
        assert_eq!(call(&flow, 0, &state), (Answer::NotEnded, passed, state));
    }
}
