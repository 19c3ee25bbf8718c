//! What document 02 says of dropping deleghe, fact by fact.

use super::tests::*;
use super::*;

/// What a delega is.
#[derive(Clone, Copy)]
struct Described {
    sections: &'static [Built<'static>],
    /// How many of 50-02 and 50-03 follow its 50-01.
    receipts: usize,
    code: &'static str,
    /// What stands in the last column of each of its records, which nobody reads.
    mark: &'static str,
}

/// Every section, deleghe with and without 50-02 and 50-03, final balances of
/// another number of digits each, and one of zero.
const FIVE: [Described; 5] = [
    described(&[(1, &[(70_000, 5)]), (7, &[(0, 9)])], 2, 0, "A"),
    described(&[(17, &[(8, 0), (1, 0)])], 0, 1, "B"),
    described(&[(5, &[(500, 0), (0, 500)])], 1, 2, "C"),
    described(&[(3, &[(1_000_000, 1)])], 0, 3, "D"),
    described(&[(17, &[(30, 0)])], 2, 4, "E"),
];

const fn described(
    sections: &'static [Built<'static>],
    receipts: usize,
    code: usize,
    mark: &'static str,
) -> Described {
    Described {
        sections,
        receipts,
        code: CODES[code],
        mark,
    }
}

/// The flow of these deleghe, numbered from 1.
fn flow_of(deleghe: &[Described]) -> Vec<u8> {
    let mut records = vec![head()];
    let mut total = 0;
    for (number, delega) in (1..).zip(deleghe) {
        let (mut more, due) = delega_records(number, delega.sections);
        put(&mut more[0], 11, delega.code);
        let receipts = ["02", "03"].map(|subtype| numbered("50", number, subtype));
        more.extend(&receipts[..delega.receipts]);
        more.iter_mut()
            .for_each(|record| put(record, 120, delega.mark));
        records.extend(more);
        total += due;
    }
    records.push(tail(deleghe.len() as u64, records.len() + 1, total));
    put(records.last_mut().unwrap(), 68, "999999999999999");
    records.concat()
}

/// The flow afterwards and the length answered; a refusal must leave every byte.
#[track_caller]
fn asked(flow: &[u8], numbers: &[u64]) -> Result<(Vec<u8>, usize), Refusal> {
    let mut after = flow.to_vec();
    match drop_deleghe(&mut after, numbers) {
        Ok(length) => Ok((after, length)),
        Err(refusal) => {
            assert_eq!(after, flow);
            Err(refusal)
        }
    }
}

#[track_caller]
fn assert_refused(flow: &[u8], numbers: &[u64], refusal: Refusal) {
    let answer = asked(flow, numbers).map(|(_, length)| length);
    assert_eq!(answer, Err(refusal), "{numbers:?}");
}

/// Which of the five a set has bits for, as their numbers.
fn numbers_of(set: u64) -> Vec<u64> {
    (1..=5)
        .filter(|number| set >> (number - 1) & 1 == 1)
        .collect()
}

fn without(set: u64) -> Vec<Described> {
    let kept = (0..5).filter(|nth| set >> nth & 1 == 0);
    kept.map(|nth| FIVE[nth]).collect()
}

/// All orders of these numbers.
fn orders(numbers: &[u64]) -> Vec<Vec<u64>> {
    if numbers.is_empty() {
        return vec![vec![]];
    }
    let mut all = Vec::new();
    for (at, &first) in numbers.iter().enumerate() {
        let others = [&numbers[..at], &numbers[at + 1..]].concat();
        for order in orders(&others) {
            all.push([vec![first], order].concat());
        }
    }
    all
}

#[test]
fn the_five_are_accepted() {
    let summary = judge(&flow_of(&FIVE)).unwrap();
    let total = 69_986 + 9 + 999_999 + 30;
    assert_eq!((summary.deleghe, summary.records), (5, 36));
    assert_eq!(summary.total, total);
    assert_eq!(summary.lines, 8);
}

#[test]
fn every_set_in_every_order_leaves_the_flow_of_the_others() {
    let flow = flow_of(&FIVE);
    for set in 0..31 {
        let kept = flow_of(&without(set));
        let mut expected = kept.clone();
        expected.resize(flow.len(), b' ');
        for order in orders(&numbers_of(set)) {
            let left = asked(&flow, &order).unwrap();
            assert!(left == (expected.clone(), kept.len()), "{order:?}");
        }
        // "The result is accepted."
        assert_eq!(judge(&kept).unwrap().deleghe, 5 - set.count_ones() as u64);
    }
}

#[test]
fn an_empty_list_changes_nothing() {
    for flow in [flow_of(&FIVE), example(), every_kind()] {
        assert_eq!(asked(&flow, &[]), Ok((flow.clone(), flow.len())));
    }
}

#[test]
fn sums_before_equal_those_after_plus_those_dropped() {
    let flow = flow_of(&FIVE);
    let before = judge(&flow).unwrap();
    for set in 0..31 {
        let numbers = numbers_of(set);
        let (after, length) = asked(&flow, &numbers).unwrap();
        let mut summary = judge(&after[..length]).unwrap();
        for &number in &numbers {
            let dropped = delega(&flow, number).unwrap();
            summary.total += dropped.final_balance;
            summary.lines += dropped.lines;
            summary.deleghe += 1;
            for (sums, more) in summary.sums.iter_mut().zip(dropped.sums) {
                *sums = (sums.0 + more.0, sums.1 + more.1);
            }
        }
        summary.records = before.records;
        assert_eq!(summary, before);
    }
}

#[test]
fn one_by_one_with_numbers_that_move_up_ends_in_the_same_flow() {
    let flow = flow_of(&FIVE);
    for set in 1..31 {
        let together = asked(&flow, &numbers_of(set)).unwrap();
        for order in orders(&numbers_of(set)) {
            let (mut lent, mut length) = (flow.clone(), flow.len());
            for (done, &number) in order.iter().enumerate() {
                let above = order[..done].iter().filter(|&&other| other < number);
                let moved = number - above.count() as u64;
                length = drop_deleghe(&mut lent[..length], &[moved]).unwrap();
            }
            assert!((lent, length) == together, "{order:?}");
        }
    }
}

#[test]
fn a_number_not_in_the_flow_or_named_twice() {
    let flow = flow_of(&FIVE);
    let large = [
        6,
        7,
        257,
        65_537,
        10_000_001,
        (1 << 32) + 1,
        1 << 63,
        u64::MAX,
    ];
    for bad in [0].into_iter().chain(large) {
        let lists: [&[u64]; 6] = [
            &[bad],
            &[bad, 1],
            &[2, 5, bad],
            &[bad, bad],
            &[1, 2, 3, 4, bad],
            &[1, 2, bad, 3, 4, 5],
        ];
        for numbers in lists {
            assert_refused(&flow, numbers, refused(21, 0, 0));
        }
    }
    let twice: [&[u64]; 5] = [&[1, 1], &[5, 2, 5], &[3, 3, 3], &[4, 1, 2, 1], &[2; 5]];
    for numbers in twice {
        assert_refused(&flow, numbers, refused(21, 0, 0));
    }
    assert_refused(&flow, &[3; 4000], refused(21, 0, 0));
}

#[test]
fn none_would_be_left() {
    for order in orders(&[1, 2, 3, 4, 5]) {
        assert_refused(&flow_of(&FIVE), &order, refused(28, 0, 0));
    }
    assert_refused(&example(), &[1], refused(28, 0, 0));
    // 21 comes before it.
    let more: [&[u64]; 3] = [
        &[1, 2, 3, 4, 5, 1],
        &[5, 5, 4, 3, 2, 1],
        &[0, 1, 2, 3, 4, 5],
    ];
    for numbers in more {
        assert_refused(&flow_of(&FIVE), numbers, refused(21, 0, 0));
    }
    assert_refused(&example(), &[1, 1], refused(21, 0, 0));
}

#[test]
fn the_refusals_of_the_judgement_come_first() {
    let flow = flow_of(&FIVE);
    let lists: [&[u64]; 6] = [&[], &[1], &[0], &[2, 2], &[1, 2, 3, 4, 5], &[u64::MAX; 40]];
    for numbers in lists {
        assert_refused(&[], numbers, refused(2, 0, 0));
        assert_refused(&flow[..flow.len() - 1], numbers, refused(2, 0, 0));
        assert_refused(&[b' '; 65_640], numbers, refused(1, 0, 0));
        assert_refused(&flow[..35 * 120], numbers, refused(5, 36, 0));
        let wrong_tail = with(flow.clone(), 36, 53, "000000000000000");
        assert_refused(&wrong_tail, numbers, refused(20, 36, 53));
        let wrong_code = with(flow.clone(), 2, 11, "RSSMRA85T10A562T");
        assert_refused(&wrong_code, numbers, refused(26, 2, 11));
        // What a dropping has left is judged as it is lent: spaces are no record.
        let (whole, length) = asked(&flow, &[2]).unwrap();
        assert_refused(&whole, numbers, refused(4, length / 120 + 1, 2));
    }
}

#[test]
fn as_many_deleghe_as_a_flow_can_hold() {
    let short: &[Built] = &[(5, &[(1, 0)])];
    let mut deleghe = vec![short; 107];
    deleghe.push(&[(1, &[(1, 0); 5])]);
    let flow = whole(&deleghe);
    assert_eq!(judge(&flow).unwrap().deleghe, 108);

    let (after, length) = asked(&flow, &[100, 9, 108]).unwrap();
    let summary = judge(&after[..length]).unwrap();
    assert_eq!((summary.deleghe, summary.records), (105, 546 - 5 - 5 - 9));
    assert_eq!(summary.total, 105);
    assert!(after[length..].iter().all(|&byte| byte == b' '));

    let but_one: Vec<u64> = (1..=107).rev().collect();
    let (after, length) = asked(&flow, &but_one).unwrap();
    assert_eq!(length, 11 * 120);
    assert_eq!(judge(&after[..length]).unwrap().total, 5);

    let all: Vec<u64> = (1..=108).collect();
    assert_refused(&flow, &all, refused(28, 0, 0));
    let beyond: Vec<u64> = (2..=109).collect();
    assert_refused(&flow, &beyond, refused(21, 0, 0));
}
