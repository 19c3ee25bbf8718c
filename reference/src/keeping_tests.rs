//! What document 02 says of the sums that are kept beside a flow, fact by fact.

use super::tests::*;
use super::*;

const MOST: u64 = 999_999_999_999_999;

type Numbers = [u64; KEPT_NUMBERS];

/// Records: 1 F4; 2-9 delega 1 with 40-01 at 4, 5 and 40-07 at 7; 10-15 delega 2 with
/// 40-17 at 12, 13; 16-22 delega 3 with 40-03 at 18 and 40-05 at 20; 23-29 delega 4
/// with 40-01 at 25 and 40-05 at 27; 30 EF.
fn four() -> Vec<u8> {
    whole(&[
        &[(1, &[(700, 0), (50, 20)]), (7, &[(4, 30)])],
        &[(17, &[(40, 0), (60, 0)])],
        &[(3, &[(9, 2)]), (5, &[(8, 3)])],
        &[(1, &[(5, 0)]), (5, &[(100, 0)])],
    ])
}

const SUMS: Numbers = [755, 20, 9, 2, 108, 3, 4, 30, 100, 0];

/// One of the three calls that take a record, with its arguments.
#[derive(Clone, Copy, Debug)]
enum Call {
    /// Delega, subtype, place, debit, credit.
    Correct(u64, u64, u64, u64, u64),
    /// How many numbers the list has.
    Rebalance(usize),
    Drop(&'static [u64]),
}

use Call::*;

/// What a call answers and what it leaves.
#[derive(Clone, PartialEq, Eq, Debug)]
struct Left {
    /// The number of fields or the new length, 0 for a correction.
    answer: Result<usize, Refusal>,
    flow: Vec<u8>,
    list: Vec<u64>,
    record: Numbers,
}

fn list(call: Call) -> Vec<u64> {
    match call {
        Rebalance(numbers) => (0..numbers as u64).map(|at| u64::MAX - 7 * at).collect(),
        _ => Vec::new(),
    }
}

/// The call with a record. A refusal must leave flow, list and record.
#[track_caller]
fn asked(call: Call, flow: &[u8], record: &Numbers) -> Left {
    let (mut after, mut list) = (flow.to_vec(), self::list(call));
    let mut kept = Kept::of(record);
    let answer = match call {
        Correct(delega, subtype, place, debit, credit) => kept
            .correct(&mut after, delega, subtype, place, debit, credit)
            .map(|()| 0),
        Rebalance(_) => kept.rebalance(&mut after, &mut list),
        Drop(numbers) => kept.drop_deleghe(&mut after, numbers),
    };
    if answer.is_err() {
        assert!(after == flow, "{call:?}");
        assert_eq!(list, self::list(call), "{call:?}");
        assert_eq!(kept.numbers(), *record, "{call:?}");
    }
    Left {
        answer,
        flow: after,
        list,
        record: kept.numbers(),
    }
}

/// The call without one; the record is whatever it was.
fn plainly(call: Call, flow: &[u8], record: &Numbers) -> Left {
    let (mut after, mut list) = (flow.to_vec(), self::list(call));
    let answer = match call {
        Correct(delega, subtype, place, debit, credit) => {
            correct(&mut after, delega, subtype, place, debit, credit).map(|()| 0)
        }
        Rebalance(_) => rebalance(&mut after, &mut list),
        Drop(numbers) => drop_deleghe(&mut after, numbers),
    };
    Left {
        answer,
        flow: after,
        list,
        record: *record,
    }
}

#[track_caller]
fn assert_refused(call: Call, flow: &[u8], record: &Numbers, refusal: Refusal) {
    let answer = asked(call, flow, record).answer;
    assert_eq!(answer, Err(refusal), "{call:?} {record:?}");
}

/// The call is done, as without a record, and hands back these sums.
#[track_caller]
fn assert_done(call: Call, flow: &[u8], record: &Numbers, sums: Numbers) -> Left {
    let left = asked(call, flow, record);
    let plain = plainly(call, flow, record);
    assert!(left.answer.is_ok(), "{call:?} {:?}", left.answer);
    assert_eq!(left.answer, plain.answer, "{call:?}");
    assert!(left.flow == plain.flow, "{call:?}");
    assert_eq!(left.list, plain.list, "{call:?}");
    assert_eq!(left.record, sums, "{call:?}");
    assert_eq!(judged(&left), sums, "{call:?}");
    left
}

/// The ten sums that the judgement reports for what a call left.
fn judged(left: &Left) -> Numbers {
    sums_of(&left.flow[..length_left(left)])
}

fn length_left(left: &Left) -> usize {
    match left.answer {
        // Only a dropping answers so much.
        Ok(length) if length >= 120 => length,
        _ => left.flow.len(),
    }
}

fn sums_of(flow: &[u8]) -> Numbers {
    let sums = judge(flow).unwrap().sums;
    let mut numbers = [0; KEPT_NUMBERS];
    for (at, (debits, credits)) in sums.iter().enumerate() {
        numbers[2 * at] = *debits;
        numbers[2 * at + 1] = *credits;
    }
    numbers
}

/// Records that are not the right one: each sum off by one and by more, debits and
/// credits or two sections exchanged, and others.
fn wrong_records(right: &Numbers) -> Vec<Numbers> {
    let mut all = Vec::new();
    for at in 0..KEPT_NUMBERS {
        let mut with = |value: u64| {
            let mut record = *right;
            record[at] = value;
            all.push(record);
        };
        let sum = right[at];
        with(sum + 1);
        with(sum.wrapping_sub(1));
        for more in [1 << 8, 1 << 16, 1 << 32, 1 << 53, 1 << 63, MOST + 1] {
            with(sum + more);
        }
        with(0);
        with(!sum);
        with(u64::MAX);
        for other in 0..KEPT_NUMBERS {
            let mut record = *right;
            record.swap(at, other);
            all.push(record);
            // Together they are the same.
            let mut record = *right;
            record[at] = record[at].wrapping_add(1);
            record[other] = record[other].wrapping_sub(1);
            all.push(record);
        }
    }
    for by in 1..KEPT_NUMBERS {
        let mut record = *right;
        record.rotate_left(by);
        all.push(record);
    }
    all.push([0; KEPT_NUMBERS]);
    all.push([u64::MAX; KEPT_NUMBERS]);
    all.push(right.map(|sum| sum + 1));
    all.retain(|record| record != right);
    all
}

/// A call of every sort on `four`, with what it answers where the record is right.
/// The list of a rebalancing does not matter there.
#[rustfmt::skip]
const CALLS: [(Call, Option<u8>); 26] = [
    (Correct(1, 1, 1, 800, 0), None),
    (Correct(2, 17, 2, 1, 0), None),
    // The same amounts.
    (Correct(1, 1, 2, 50, 20), None),
    (Correct(3, 5, 1, 8, 3), None),
    (Correct(0, 1, 1, 1, 0), Some(21)), (Correct(5, 1, 1, 1, 0), Some(21)), (Correct(1, 3, 1, 1, 0), Some(21)),
    (Correct(1, 1, 3, 1, 0), Some(21)), (Correct(0, 0, 0, u64::MAX, 0), Some(21)),
    (Correct(1, 1, 1, MOST + 1, 0), Some(22)), (Correct(2, 17, 1, 0, u64::MAX), Some(22)),
    (Correct(1, 1, 1, 0, 0), Some(9)), (Correct(2, 17, 1, 5, 5), Some(9)),
    (Correct(1, 7, 1, 0, 731), Some(14)),
    (Correct(1, 1, 1, MOST, 0), Some(23)),
    (Rebalance(0), None), (Rebalance(3), None), (Rebalance(4368), None),
    (Drop(&[2]), None), (Drop(&[4, 1, 2]), None),
    // An empty list.
    (Drop(&[]), None),
    (Drop(&[0]), Some(21)), (Drop(&[3, 3]), Some(21)), (Drop(&[5]), Some(21)), (Drop(&[1, 2, 3, 4, 1]), Some(21)),
    (Drop(&[1, 2, 3, 4]), Some(28)),
];

// --------------------------------------------------------- the record is made

#[test]
fn a_record_is_made_from_an_acceptance() {
    let made = |flow: &[u8]| Kept::made(flow).unwrap().numbers();
    assert_eq!(made(&four()), SUMS);
    assert_eq!(made(&example()), [0, 0, 0, 0, 10000, 2500, 0, 0, 0, 0]);
    assert_eq!(made(&every_kind()), [9, 0, 9, 0, 9, 0, 9, 0, 9, 0]);
    for (at, subtype) in [1, 3, 5, 7].into_iter().enumerate() {
        let mut sums = [0; KEPT_NUMBERS];
        sums[2 * at] = 12;
        sums[2 * at + 1] = 5;
        let flow = one(subtype, &[(7, 1), (5, 0), (0, 4)]);
        assert_eq!(made(&flow), sums);
    }
    assert_eq!(made(&one(17, &[(7, 0), (1, 0)]))[8..], [8, 0]);
    // Its numbers are handed on as they are.
    let numbers = [1, 2, 3, 4, 5, 6, 7, 8, 9, u64::MAX];
    assert_eq!(Kept::of(&numbers).numbers(), numbers);
}

#[test]
fn a_refused_flow_makes_none() {
    for (flow, refusal, _) in faults() {
        assert_eq!(Kept::made(&flow), Err(refusal));
    }
}

#[test]
fn what_nobody_reads_is_not_added_up() {
    // 40-18 has no totals, 50-01's 79-93 and EF's 68-82 are not read, and a 10 or a 20
    // may look like a line behind its type.
    let nines = "999999999999999";
    let places = [(14, 13), (14, 28), (15, 79), (30, 68), (17, 27), (17, 41)];
    let flow = places.into_iter().fold(four(), |flow, (record, start)| {
        with(flow, record, start, nines)
    });
    let flow = with(flow, 3, 11, "01");
    assert_eq!(Kept::made(&flow).unwrap().numbers(), SUMS);
    assert_done(Rebalance(0), &flow, &SUMS, SUMS);
}

// --------------------------------------------------------------- new sums

#[test]
fn new_sums_after_a_correction() {
    let cases = [
        (
            Correct(1, 1, 1, 800, 1),
            [855, 21, 9, 2, 108, 3, 4, 30, 100, 0],
        ),
        (
            Correct(1, 7, 1, 0, 31),
            [755, 20, 9, 2, 108, 3, 0, 31, 100, 0],
        ),
        (
            Correct(2, 17, 2, 1, 0),
            [755, 20, 9, 2, 108, 3, 4, 30, 41, 0],
        ),
        (
            Correct(3, 3, 1, 1, 0),
            [755, 20, 1, 0, 108, 3, 4, 30, 100, 0],
        ),
        (
            Correct(3, 5, 1, 9, 0),
            [755, 20, 9, 2, 109, 0, 4, 30, 100, 0],
        ),
        (
            Correct(4, 5, 1, 7, 12),
            [755, 20, 9, 2, 15, 15, 4, 30, 100, 0],
        ),
        (
            Correct(4, 1, 1, 0, 99),
            [750, 119, 9, 2, 108, 3, 4, 30, 100, 0],
        ),
    ];
    for (call, sums) in cases {
        assert_done(call, &four(), &SUMS, sums);
    }
}

#[test]
fn the_same_amounts_leave_the_record() {
    for call in [
        Correct(1, 1, 2, 50, 20),
        Correct(2, 17, 1, 40, 0),
        Correct(3, 5, 1, 8, 3),
    ] {
        let left = assert_done(call, &four(), &SUMS, SUMS);
        assert!(left.flow == four());
    }
}

#[test]
fn new_sums_after_a_dropping() {
    let cases: [(&[u64], Numbers); 6] = [
        (&[1], [5, 0, 9, 2, 108, 3, 0, 0, 100, 0]),
        (&[2], [755, 20, 9, 2, 108, 3, 4, 30, 0, 0]),
        (&[3], [755, 20, 0, 0, 100, 0, 4, 30, 100, 0]),
        (&[4, 2], [750, 20, 9, 2, 8, 3, 4, 30, 0, 0]),
        (&[3, 1, 2], [5, 0, 0, 0, 100, 0, 0, 0, 0, 0]),
        (&[], SUMS),
    ];
    for (numbers, sums) in cases {
        assert_done(Drop(numbers), &four(), &SUMS, sums);
    }
}

#[test]
fn a_rebalancing_hands_back_the_sums_of_the_lines() {
    // Every stored field of delega 1 and of EF is something else.
    let mut flow = four();
    for (record, start) in [
        (6, 13),
        (6, 28),
        (6, 44),
        (8, 17),
        (8, 32),
        (9, 36),
        (30, 53),
    ] {
        flow = with(flow, record, start, "000000000000777");
    }
    let flow = with(with(flow, 6, 43, " "), 30, 46, "       ");
    let left = assert_done(Rebalance(18), &flow, &SUMS, SUMS);
    assert_eq!(left.answer, Ok(9));
    assert!(left.flow == four());
    assert_refused(Rebalance(17), &flow, &SUMS, refused(27, 0, 0));

    // What the totals say is no record, nor are zeros.
    for record in [[777, 777, 9, 2, 108, 3, 777, 777, 100, 0], [0; 10]] {
        assert_refused(Rebalance(18), &flow, &record, refused(29, 0, 0));
    }

    // Other amounts were typed over a line: the old record does not stand for it.
    let flow = with(four(), 4, 27, "000000000000703");
    assert_refused(Rebalance(4368), &flow, &SUMS, refused(29, 0, 0));
    let sums = [758, 20, 9, 2, 108, 3, 4, 30, 100, 0];
    let left = assert_done(Rebalance(4368), &flow, &sums, sums);
    assert_eq!(left.answer, Ok(4));
}

// --------------------------------------------------------------- refusal 29

#[test]
fn twenty_nine_comes_before_all_that_is_not_the_judgements_own() {
    for (call, number) in CALLS {
        // With the right record it is answered as without one.
        let plain = plainly(call, &four(), &SUMS);
        assert_eq!(plain.answer.err().map(|refusal| refusal.number), number);
        let left = asked(call, &four(), &SUMS);
        assert_eq!(left.answer, plain.answer);
        assert!(left.flow == plain.flow && left.list == plain.list);
        for record in wrong_records(&SUMS) {
            assert_refused(call, &four(), &record, refused(29, 0, 0));
        }
    }
}

#[test]
fn twenty_nine_comes_before_23_and_27_of_a_rebalancing() {
    // Debits of more than fifteen digits, of which the fields hold the last.
    let large = whole(&[&[(1, &[(1, 0), (2, 0)])]]);
    let large = with(large, 4, 27, "999999999999999");
    let sums = [MOST + 2, 0, 0, 0, 0, 0, 0, 0, 0, 0];
    // Four fields are wrong.
    let wrong = with(four(), 4, 27, "000000000000703");
    let sums_of_wrong = [758, 20, 9, 2, 108, 3, 4, 30, 100, 0];
    for (flow, sums, number, lists) in [
        (large, sums, 23, [0, 5, 4368]),
        (wrong, sums_of_wrong, 27, [0, 6, 7]),
    ] {
        for list in lists {
            assert_refused(Rebalance(list), &flow, &sums, refused(number, 0, 0));
            for record in wrong_records(&sums) {
                assert_refused(Rebalance(list), &flow, &record, refused(29, 0, 0));
            }
        }
    }
}

/// Flows that are refused, with the refusal and whether it stops a rebalancing too.
/// The lines of those that are rebalanced have the sums of `four`.
#[rustfmt::skip]
fn faults() -> Vec<(Vec<u8>, Refusal, bool)> {
    let at = |record, position, text: &str| with(four(), record, position, text);
    vec![
        (vec![b' '; 65_521], refused(1, 0, 0), true),
        (vec![], refused(2, 0, 0), true),
        (four()[..3599].to_vec(), refused(2, 0, 0), true),
        (at(5, 100, "\n"), refused(3, 5, 100), true),
        (at(3, 2, "21"), refused(4, 3, 2), true),
        (at(25, 11, "02"), refused(4, 25, 11), true),
        (four()[..29 * 120].to_vec(), refused(5, 30, 0), true),
        (one(5, &[(1, 0); 5]), refused(6, 8, 11), true),
        (at(4, 41, " "), refused(7, 4, 41), true),
        (at(6, 4, "x"), refused(7, 6, 4), true),
        (at(12, 10, "3"), refused(8, 12, 4), true),
        (at(12, 41, "000000000000000"), refused(9, 12, 41), true),
        (at(12, 70, "1"), refused(9, 12, 56), true),
        (one(5, &[(1, 2)]), refused(14, 6, 2), true),
        (at(1, 20, "/"), refused(16, 1, 20), true),
        (at(30, 39, "2"), refused(16, 30, 20), true),
        (at(1, 14, "310215"), refused(17, 1, 14), true),
        (at(23, 11, "RSSMRA85T10A562T"), refused(26, 23, 11), true),
        (at(6, 13, " "), refused(7, 6, 13), false),
        (at(29, 50, "x"), refused(7, 29, 50), false),
        (at(30, 46, "       "), refused(7, 30, 46), false),
        (at(6, 27, "1"), refused(10, 6, 13), false),
        (at(6, 42, "1"), refused(11, 6, 28), false),
        (at(6, 43, "N"), refused(12, 6, 43), false),
        (at(14, 43, " "), refused(12, 14, 43), false),
        (at(14, 58, "1"), refused(13, 14, 44), false),
        (at(15, 50, "1"), refused(15, 15, 36), false),
        (at(30, 52, "5"), refused(18, 30, 46), false),
        (at(30, 89, "1"), refused(19, 30, 83), false),
        (at(30, 67, "2"), refused(20, 30, 53), false),
    ]
}

#[test]
fn every_refusal_of_the_judgement_is_among_the_faults() {
    let mut numbers: Vec<u8> = faults()
        .iter()
        .map(|(_, refusal, _)| refusal.number)
        .collect();
    numbers.dedup();
    numbers.sort_unstable();
    numbers.dedup();
    assert_eq!(numbers, (1..=20).chain([26]).collect::<Vec<u8>>());
}

#[test]
fn the_judgements_own_refusals_come_before_29() {
    for (flow, refusal, stops) in faults() {
        let records = [SUMS, [0; KEPT_NUMBERS], [u64::MAX; KEPT_NUMBERS]];
        for (call, _) in CALLS {
            for record in &records {
                match call {
                    Rebalance(_) if !stops => (),
                    _ => assert_refused(call, &flow, record, refusal),
                }
            }
        }
        if stops {
            continue;
        }
        // What a rebalancing mends is no refusal of its judgement.
        for record in wrong_records(&SUMS) {
            assert_refused(Rebalance(4368), &flow, &record, refused(29, 0, 0));
        }
        let left = assert_done(Rebalance(4368), &flow, &SUMS, SUMS);
        assert!(left.flow == four());
    }
}

#[test]
fn sums_are_not_reduced() {
    // Each delega fits, and Erario's debits and credits have sixteen digits.
    let one: &[Built] = &[(1, &[(MOST, MOST)])];
    let flow = whole(&[one, one, &[(3, &[(5, 0)])]]);
    let sums = [2 * MOST, 2 * MOST, 5, 0, 0, 0, 0, 0, 0, 0];
    assert_eq!(Kept::made(&flow).unwrap().numbers(), sums);
    assert_done(Rebalance(0), &flow, &sums, sums);
    for calls in [
        Drop(&[2]),
        Correct(1, 1, 1, 7, 7),
        Rebalance(9),
        Drop(&[1, 2, 3]),
    ] {
        for at in 0..2 {
            let mut record = sums;
            record[at] -= MOST + 1;
            assert_refused(calls, &flow, &record, refused(29, 0, 0));
        }
        for record in wrong_records(&sums) {
            assert_refused(calls, &flow, &record, refused(29, 0, 0));
        }
    }
    let left = [MOST, MOST, 5, 0, 0, 0, 0, 0, 0, 0];
    assert_done(Drop(&[2]), &flow, &sums, left);
}

#[test]
fn a_call_without_a_record_makes_it_stale() {
    // Someone else corrects or drops.
    for (call, sums) in [
        (
            Correct(4, 5, 1, 90, 0),
            [755, 20, 9, 2, 98, 3, 4, 30, 100, 0],
        ),
        (Drop(&[2]), [755, 20, 9, 2, 108, 3, 4, 30, 0, 0]),
    ] {
        let left = plainly(call, &four(), &SUMS);
        let flow = &left.flow[..length_left(&left)];
        for (call, _) in CALLS {
            assert_refused(call, flow, &SUMS, refused(29, 0, 0));
        }
        assert_eq!(Kept::made(flow).unwrap().numbers(), sums);
        assert_done(Correct(1, 1, 2, 50, 20), flow, &sums, sums);
    }
    // A correction to the same amounts, a dropping of none and a rebalancing of an
    // accepted flow change nothing, so that it stands for the flow as before.
    for call in [Correct(1, 1, 2, 50, 20), Drop(&[]), Rebalance(0)] {
        let left = plainly(call, &four(), &SUMS);
        assert_done(Drop(&[]), &left.flow, &SUMS, SUMS);
    }
}

#[test]
fn what_a_dropping_left_is_lent_by_its_new_length() {
    let left = assert_done(
        Drop(&[1]),
        &four(),
        &SUMS,
        [5, 0, 9, 2, 108, 3, 0, 0, 100, 0],
    );
    let length = length_left(&left);
    // Spaces are no record, whatever the sums are.
    let refusal = refused(4, length / 120 + 1, 2);
    for (call, _) in CALLS {
        assert_refused(call, &left.flow, &left.record, refusal);
    }
    assert_done(Drop(&[]), &left.flow[..length], &left.record, left.record);
}

// ----------------------------------------------------------------- series

const LISTS: [&[u64]; 5] = [&[1], &[2], &[2, 1], &[3], &[1, 1]];

#[test]
fn after_any_series_the_kept_sums_are_those_of_the_lines() {
    let mut dice = Dice(10);
    let (mut done, mut refusals) = ([0; 3], [0; 30]);
    for _ in 0..300 {
        let deleghe: Vec<_> = (0..=dice.below(6)).map(|_| dice.delega()).collect();
        let mut flow = rebuilt(&deleghe);
        let mut record = match Kept::made(&flow) {
            Ok(kept) => kept.numbers(),
            Err(_) => continue,
        };
        for _ in 0..20 {
            assert_eq!(record, sums_of(&flow));
            let count = judge(&flow).unwrap().deleghe;
            let call = match dice.below(8) {
                0 => Rebalance(dice.below(3) as usize),
                1 => Drop(&[]),
                2 => Drop(LISTS[dice.below(5) as usize]),
                _ => {
                    let subtype = [1, 3, 5, 7, 17][dice.below(5) as usize];
                    let (debit, credit) = match (subtype, dice.below(8)) {
                        (_, 0) => (0, 0),
                        (17, _) => (1 + dice.below(20_000), dice.below(8) / 7),
                        _ => (dice.below(20_000), dice.below(20_000)),
                    };
                    Correct(
                        1 + dice.below(count),
                        subtype,
                        1 + dice.below(2),
                        debit,
                        credit,
                    )
                }
            };
            let left = asked(call, &flow, &record);
            let plain = plainly(call, &flow, &record);
            assert_eq!(left.answer, plain.answer);
            assert!(left.flow == plain.flow && left.list == plain.list);
            match left.answer {
                Ok(_) => {
                    done[match call {
                        Correct(..) => 0,
                        Rebalance(_) => 1,
                        Drop(_) => 2,
                    }] += 1;
                    flow = left.flow[..length_left(&left)].to_vec();
                    record = left.record;
                }
                Err(refusal) => refusals[usize::from(refusal.number)] += 1,
            }
        }
    }
    assert!(done.iter().all(|&done| done > 100), "{done:?}");
    for number in [9, 14, 21, 28] {
        assert!(refusals[number] > 20, "{refusals:?}");
    }
    assert_eq!(refusals[29], 0);
}
