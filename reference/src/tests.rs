//! The examples of document 01, its refusals one by one, and corrections
//! compared with flows built anew.

use super::layout::{final_balance, sign, Record, SECTIONS};
use super::*;

// ---------------------------------------------------------------- building

/// Line subtype and the lines' debits and credits.
pub type Built<'a> = (u64, &'a [(u64, u64)]);

pub fn put(record: &mut [u8], position: usize, text: &str) {
    record[position - 1..position - 1 + text.len()].copy_from_slice(text.as_bytes());
}

fn put_amount(record: &mut [u8], position: usize, amount: u64) {
    put(record, position, &format!("{amount:015}"));
}

fn blank(kind: &str) -> Record {
    let mut record = [b' '; 120];
    put(&mut record, 2, kind);
    record
}

pub fn head() -> Record {
    let mut record = blank("F4");
    put(&mut record, 4, "SENDR03069");
    put(&mut record, 14, "311299");
    put(&mut record, 20, "SUPPORT-NAME 0000001");
    put(&mut record, 105, "2$SENDR");
    put(&mut record, 114, "E");
    record
}

pub fn tail(deleghe: u64, records: usize, sum: u64) -> Record {
    let mut record = blank("EF");
    put(&mut record, 4, "SENDR03069311299");
    put(&mut record, 20, "SUPPORT-NAME 0000001");
    put(&mut record, 46, &format!("{deleghe:07}{sum:015}"));
    put(&mut record, 83, &format!("{records:07}"));
    put(&mut record, 114, "E");
    record
}

/// A record 10, 20, 40 or 50, all fields but the number and subtype blank.
pub fn numbered(kind: &str, delega: u64, subtype: &str) -> Record {
    let mut record = blank(kind);
    put(&mut record, 4, &format!("{delega:07}{subtype}"));
    record
}

/// Codes that pass: those of persons, with digits and with letters for some of
/// them, and those of firms.
pub const CODES: [&str; 6] = [
    "RSSMRA85T10A562S",
    "00743110157     ",
    "BNCGLI90A41H50MW",
    "00000000000     ",
    "XZXZXZ9VXV9Z9V9J",
    "12345678903     ",
];

/// A record 10; neighbours among the deleghe have different codes.
pub fn taxpayer(delega: u64) -> Record {
    numbered("10", delega, CODES[delega as usize % CODES.len()])
}

pub fn line(delega: u64, subtype: u64, (debit, credit): (u64, u64)) -> Record {
    let (debit_at, credit_at) = match subtype {
        1 => (27, 42),
        3 => (52, 67),
        5 => (29, 44),
        7 => (31, 46),
        _ => (41, 56),
    };
    let mut record = numbered("40", delega, &format!("{subtype:02}"));
    put_amount(&mut record, debit_at, debit);
    put_amount(&mut record, credit_at, credit);
    record
}

fn balance(delega: u64, subtype: u64, lines: &[(u64, u64)]) -> Record {
    let (debits, credits) = sum(lines);
    let mut record = numbered("40", delega, &format!("{:02}", subtype + 1));
    let (totals_at, sign_at) = match subtype {
        1 | 3 => (Some((13, 28)), 43),
        5 => (Some((15, 30)), 45),
        7 => (Some((17, 32)), 47),
        _ => (None, 43),
    };
    if let Some((debit_at, credit_at)) = totals_at {
        put_amount(&mut record, debit_at, debits);
        put_amount(&mut record, credit_at, credits);
    }
    let (sign, balance) = if debits < credits {
        ("N", credits - debits)
    } else {
        ("P", debits - credits)
    };
    put(&mut record, sign_at, sign);
    put_amount(&mut record, sign_at + 1, balance);
    record
}

pub fn payment(delega: u64, final_balance: u64) -> Record {
    let mut record = numbered("50", delega, "01");
    put_amount(&mut record, 36, final_balance);
    record
}

fn sum(lines: &[(u64, u64)]) -> (u64, u64) {
    (
        lines.iter().map(|line| line.0).sum(),
        lines.iter().map(|line| line.1).sum(),
    )
}

fn section(delega: u64, (subtype, lines): Built) -> Vec<Record> {
    let mut records: Vec<Record> = lines
        .iter()
        .map(|&amounts| line(delega, subtype, amounts))
        .collect();
    records.push(balance(delega, subtype, lines));
    records
}

/// A delega's records and its final balance; a negative one is stored as zero.
pub fn delega_records(delega: u64, sections: &[Built]) -> (Vec<Record>, u64) {
    let mut records = vec![taxpayer(delega), numbered("20", delega, "")];
    let (mut debits, mut credits) = (0, 0);
    for &built in sections {
        records.extend(section(delega, built));
        debits += sum(built.1).0;
        credits += sum(built.1).1;
    }
    let due = debits.saturating_sub(credits);
    records.push(payment(delega, due));
    (records, due)
}

pub fn whole(deleghe: &[&[Built]]) -> Vec<u8> {
    let mut records = vec![head()];
    let mut total = 0;
    for (number, sections) in (1..).zip(deleghe) {
        let (more, due) = delega_records(number, sections);
        records.extend(more);
        total += due;
    }
    records.push(tail(deleghe.len() as u64, records.len() + 1, total));
    records.concat()
}

/// The flow of one delega with one section.
pub fn one(subtype: u64, lines: &[(u64, u64)]) -> Vec<u8> {
    whole(&[&[(subtype, lines)]])
}

/// The flow with `text` at a position of a record.
pub fn with(mut flow: Vec<u8>, record: usize, position: usize, text: &str) -> Vec<u8> {
    put(&mut flow, (record - 1) * 120 + position, text);
    flow
}

pub fn refused(number: u8, record: usize, position: usize) -> Refusal {
    Refusal {
        number,
        record,
        position,
    }
}

/// Dates that are valid, at the limits of the rule.
pub const DATES: [&str; 22] = [
    "290216", "290200", "290204", "290296", "310116", "280215", "280216", "280201", "300416",
    "300616", "310716", "310816", "300916", "311016", "301116", "311216", "310316", "310516",
    "010100", "010116", "010300", "311299",
];

/// Six digits that are no valid date, each in one way or more.
pub const NO_DATES: [&str; 22] = [
    "290215", "290201", "290202", "290298", "290299", "300216", "300200", "310215", "310299",
    "310416", "310616", "310916", "311116", "320116", "321299", "000116", "010016", "011316",
    "312016", "990116", "000000", "999999",
];

#[track_caller]
fn assert_refused(flow: &[u8], number: u8, record: usize, position: usize) {
    assert_eq!(judge(flow), Err(refused(number, record, position)));
}

/// Records: 1 F4, 2 10, 3 20, 4 and 5 40-05, 6 40-06, 7 50-01, 8 EF.
pub fn example() -> Vec<u8> {
    one(5, &[(10000, 0), (0, 2500)])
}

// ---------------------------------------------------------------- examples

#[test]
fn sums_give_sign_and_balance() {
    let facts = [
        ((5, 5), b'P', 0),
        ((10000, 2500), b'P', 7500),
        ((2500, 10000), b'N', 7500),
        ((0, 1), b'N', 1),
        ((999_999_999_999_999, 0), b'P', 999_999_999_999_999),
    ];
    for ((debits, credits), expected, balance) in facts {
        assert_eq!(sign(debits, credits), expected);
        assert_eq!(u64::abs_diff(debits, credits), balance);
    }
}

#[test]
fn line_rule() {
    let [erario, inps, regioni, imu, identifying] = &SECTIONS;
    assert_eq!(regioni.wrong_amount(0, 0), Some(29));
    assert_eq!(regioni.wrong_amount(5, 5), None);
    assert_eq!(identifying.wrong_amount(100, 1), Some(56));
    assert_eq!(identifying.wrong_amount(0, 5), Some(56));
    assert_eq!(identifying.wrong_amount(0, 0), Some(41));
    assert_eq!(identifying.wrong_amount(5, 0), None);
    for section in [erario, inps, regioni, imu] {
        assert_eq!(section.wrong_amount(0, 0), Some(section.debit_at));
        assert_eq!(section.wrong_amount(1, 0), None);
        assert_eq!(section.wrong_amount(0, 1), None);
        assert_eq!(section.wrong_amount(1, 1), None);
    }
}

#[test]
fn final_balance_is_debits_less_credits() {
    assert_eq!(
        final_balance(&[(0, 5), (7, 0), (0, 0), (0, 2), (0, 0)]),
        Some(0)
    );
    assert_eq!(
        final_balance(&[(0, 5), (7, 0), (0, 0), (0, 3), (0, 0)]),
        None
    );
}

#[test]
fn the_printed_example() {
    let summary = Summary {
        deleghe: 1,
        records: 8,
        total: 7500,
        lines: 2,
        sums: [(0, 0), (0, 0), (10000, 2500), (0, 0), (0, 0)],
    };
    assert_eq!(judge(&example()), Ok(summary));
    let delega_summary = DelegaSummary {
        final_balance: 7500,
        lines: 2,
        set: 4,
        size: 1,
        sums: summary.sums,
    };
    assert_eq!(delega(&example(), 1), Ok(delega_summary));
}

#[test]
fn a_refusal_prints_one_line() {
    assert_eq!(refused(4, 2, 11).to_string(), "REFUSED 4 2 11");
}

#[test]
fn blank_is_not_zero() {
    assert_refused(&with(example(), 4, 29, "00000000000750 "), 7, 4, 43);
    assert_refused(&with(example(), 4, 44, "               "), 7, 4, 44);
    // Leading and trailing blanks, and one between digits.
    assert_refused(&with(example(), 4, 29, "          10000"), 7, 4, 29);
    assert_refused(&with(example(), 4, 29, "10000          "), 7, 4, 34);
    assert_refused(&with(example(), 4, 29, "000000000100 00"), 7, 4, 41);
}

#[test]
fn lines_beyond_the_most() {
    for (subtype, most) in [(1, 6), (3, 4), (5, 4), (7, 4), (17, 28)] {
        assert!(judge(&one(subtype, &vec![(1, 0); most])).is_ok());
        let more = vec![(1, 0); most + 1];
        assert_refused(&one(subtype, &more), 6, 3 + most + 1, 11);
    }
    // The count starts anew in each section and each delega.
    let full: &[Built] = &[(1, &[(1, 0); 6]), (3, &[(1, 0); 4]), (5, &[(1, 0); 4])];
    assert!(judge(&whole(&[full, full])).is_ok());
}

#[test]
fn line_amounts() {
    assert_refused(&one(5, &[(0, 0)]), 9, 4, 29);
    assert_refused(&one(17, &[(0, 5)]), 9, 4, 56);
    assert_refused(&one(17, &[(100, 1)]), 9, 4, 56);
    assert_refused(&one(17, &[(0, 0)]), 9, 4, 41);
    assert_refused(&one(1, &[(5, 0), (0, 0)]), 9, 5, 27);
    assert_refused(&one(3, &[(0, 0)]), 9, 4, 52);
    assert_refused(&one(7, &[(0, 0)]), 9, 4, 31);
    for subtype in [1, 3, 5, 7] {
        assert!(judge(&one(subtype, &[(5, 5)])).is_ok());
    }
}

#[test]
fn lengths() {
    let short: &[Built] = &[(5, &[(1, 0)])];
    let mut deleghe = vec![short; 107];
    deleghe.push(&[(1, &[(1, 0); 5])]);
    let mut longest = whole(&deleghe);
    assert_eq!(longest.len(), 65_520);
    let summary = judge(&longest).unwrap();
    assert_eq!(
        (summary.deleghe, summary.records, summary.total),
        (108, 546, 112)
    );
    assert_eq!(summary.lines, 107 + 5);

    longest.push(b' ');
    assert_refused(&longest, 1, 0, 0);
    assert_refused(&vec![b' '; 65_640], 1, 0, 0);
    assert_refused(&vec![0; 65_520], 3, 1, 1);
    assert_refused(&[b' '; 119], 2, 0, 0);
    assert_refused(&[b' '; 121], 2, 0, 0);
    assert_refused(&[], 2, 0, 0);
}

#[test]
fn head_then_tail() {
    assert_refused(&[head(), tail(0, 2, 0)].concat(), 4, 2, 2);
}

#[test]
fn a_negative_section_and_a_negative_delega() {
    let regioni: Built = (5, &[(2500, 0), (0, 10000)]);
    let sound = whole(&[&[(1, &[(7500, 0)]), regioni]]);
    assert_eq!(judge(&sound).unwrap().total, 0);
    assert_eq!(sound[7 * 120 + 44], b'N');
    let negative = whole(&[&[(1, &[(7499, 0)]), regioni]]);
    assert_refused(&negative, 14, 9, 2);
    // Whatever is stored, 14 comes after 7 and 8 and before 15.
    assert_refused(&with(negative.clone(), 9, 36, "000000000000001"), 14, 9, 2);
    assert_refused(&with(negative.clone(), 9, 36, "00000000000000 "), 7, 9, 50);
    assert_refused(&with(negative, 9, 4, "0000002"), 8, 9, 4);
}

#[test]
fn a_total_that_needs_sixteen_digits() {
    let mut flow = one(5, &[(999_999_999_999_999, 0), (0, 1)]);
    let before = flow.clone();
    assert_eq!(correct(&mut flow, 1, 5, 2, 1, 0), Err(refused(23, 0, 0)));
    assert_eq!(flow, before);
}

// ------------------------------------------------------- characters, order

#[test]
fn characters_are_judged_record_by_record() {
    assert_refused(&with(example(), 1, 1, "\u{1}"), 3, 1, 1);
    assert_refused(&with(example(), 8, 120, "\n"), 3, 8, 120);
    assert_refused(&with(example(), 3, 2, "\u{7f}"), 3, 3, 2);
    // The first such byte, and that of an earlier record before any other.
    assert_refused(
        &with(with(example(), 5, 90, "\t"), 5, 60, "\u{1f}"),
        3,
        5,
        60,
    );
    assert_refused(&with(with(example(), 5, 90, "\t"), 4, 29, " "), 7, 4, 29);
    for byte in 0..=255 {
        let mut flow = example();
        flow[3 * 120 + 59] = byte;
        match byte {
            32..=126 => assert!(judge(&flow).is_ok()),
            _ => assert_refused(&flow, 3, 4, 60),
        }
    }
}

/// Each state's records and what may stand after them.
fn states() -> Vec<(Vec<Record>, &'static [&'static str])> {
    const LINES: &[(u64, u64)] = &[(1, 0)];
    let opened = vec![head(), taxpayer(1), numbered("20", 1, "")];
    let after_line = |subtype| [opened.clone(), vec![line(1, subtype, (1, 0))]].concat();
    let after_section = |subtype| [opened.clone(), section(1, (subtype, LINES))].concat();
    let paid = [after_section(5), vec![payment(1, 1)]].concat();
    let receipt = [paid.clone(), vec![numbered("50", 1, "02")]].concat();
    let addressee = [receipt.clone(), vec![numbered("50", 1, "03")]].concat();
    let ended = [paid.clone(), vec![tail(1, paid.len() + 1, 1)]].concat();
    vec![
        (vec![], &["F4"]),
        (opened[..1].to_vec(), &["10"]),
        (opened[..2].to_vec(), &["20"]),
        (
            opened.clone(),
            &["40-01", "40-03", "40-05", "40-07", "40-17"],
        ),
        (after_line(1), &["40-01", "40-02"]),
        (after_line(3), &["40-03", "40-04"]),
        (after_line(5), &["40-05", "40-06"]),
        (after_line(7), &["40-07", "40-08"]),
        (after_line(17), &["40-17", "40-18"]),
        (after_section(1), &["40-03", "40-05", "40-07", "50-01"]),
        (after_section(3), &["40-05", "40-07", "50-01"]),
        (after_section(5), &["40-07", "50-01"]),
        (after_section(7), &["50-01"]),
        (after_section(17), &["50-01"]),
        (paid, &["50-02", "10", "EF"]),
        (receipt, &["50-03", "10", "EF"]),
        (addressee, &["10", "EF"]),
        (ended, &[]),
    ]
}

#[test]
fn what_may_stand_where() {
    let mut candidates: Vec<String> = ["F4", "10", "20", "EF", "  ", "4 ", "f4", "Q4"]
        .map(String::from)
        .to_vec();
    for kind in ["40", "50"] {
        candidates.extend((0..=99).map(|subtype| format!("{kind}-{subtype:02}")));
        candidates.extend(["  ", "1 ", " 1", "AA"].map(|subtype| format!("{kind}-{subtype}")));
    }
    for (records, may_stand) in states() {
        for candidate in &candidates {
            let (kind, subtype) = candidate.split_at(2);
            // Digits fill the record: they are sound in every numeric field.
            let mut record = [b'0'; 120];
            put(&mut record, 2, kind);
            put(&mut record, 11, subtype.strip_prefix('-').unwrap_or(""));
            let number = records.len() + 1;
            let answer = judge(&[records.concat(), record.to_vec()].concat());
            if may_stand.contains(&candidate.as_str()) {
                let passed = match answer {
                    Ok(_) => true,
                    Err(refusal) => refusal.record >= number && refusal.number != 4,
                };
                assert!(passed, "{candidate} after {may_stand:?}: {answer:?}");
            } else {
                let same_type = may_stand.iter().any(|other| other.starts_with(kind));
                let position = if same_type { 11 } else { 2 };
                assert_eq!(
                    answer,
                    Err(refused(4, number, position)),
                    "{candidate} where {may_stand:?} may stand"
                );
            }
        }
    }
}

#[test]
fn records_that_end_before_the_tail() {
    let sound = example();
    for records in 1..8 {
        assert_refused(&sound[..records * 120], 5, records + 1, 0);
    }
    assert_refused(&with(head().to_vec(), 1, 14, "320199"), 17, 1, 14);
}

#[test]
fn nothing_after_the_tail() {
    for record in [head(), taxpayer(2), tail(1, 9, 7500)] {
        assert_refused(&[example(), record.to_vec()].concat(), 4, 9, 2);
    }
    // The count is compared with EF's own record number: 19 comes first.
    let flow = with(example(), 8, 83, "0000009");
    assert_refused(&[flow, head().to_vec()].concat(), 19, 8, 83);
}

#[test]
fn receipts_are_judged_by_number_alone() {
    let mut records = vec![head()];
    for delega in 1..=3 {
        records.extend(delega_records(delega, &[(7, &[(9, 4)])]).0);
        records.extend((1..delega).map(|more| numbered("50", delega, &format!("0{}", more + 1))));
    }
    records.push(tail(3, records.len() + 1, 15));
    let flow = records.concat();
    let summary = judge(&flow).unwrap();
    assert_eq!(
        (summary.deleghe, summary.records, summary.total),
        (3, 20, 15)
    );
    // Nor are they lines.
    assert_eq!(summary.lines, 3);
    for number in 1..=3 {
        assert_eq!(used(&flow, number), (1, 8, 1));
    }
    assert_refused(&with(flow.clone(), 18, 4, "000000 "), 7, 18, 10);
    assert_refused(&with(flow.clone(), 19, 4, "00 0000"), 7, 19, 6);
    assert_refused(&with(flow.clone(), 18, 4, "0000002"), 8, 18, 4);
    assert_refused(&with(flow.clone(), 19, 4, "0000004"), 8, 19, 4);
    assert_eq!(judge(&with(flow, 18, 13, "any other content")), Ok(summary));
}

#[test]
fn the_first_fault_by_record_then_by_number() {
    // 9 in record 4 before 7 in record 5, 7 in a record before its 8 and 9.
    let flow = with(one(5, &[(0, 0), (0, 1)]), 5, 29, "x");
    assert_refused(&flow, 9, 4, 29);
    let flow = with(one(5, &[(0, 0)]), 4, 4, "0000009");
    assert_refused(&flow, 8, 4, 4);
    assert_refused(&with(flow.clone(), 4, 44, "x"), 7, 4, 44);
    assert_refused(&with(flow.clone(), 4, 10, "x"), 7, 4, 10);
    // 6 before 7.
    let flow = with(one(5, &[(1, 0); 5]), 8, 4, "x");
    assert_refused(&flow, 6, 8, 11);
}

// ---------------------------------------------------------------- numbers

#[test]
fn delega_numbers() {
    let part: &[Built] = &[(3, &[(1, 0)])];
    let flow = whole(&[part, part]);
    assert!(judge(&flow).is_ok());
    // Each record of both deleghe: 2 to 6 and 7 to 11.
    for record in 2..=11 {
        for wrong in ["0000000", "0000003", "9999999"] {
            assert_refused(&with(flow.clone(), record, 4, wrong), 8, record, 4);
        }
        assert_refused(&with(flow.clone(), record, 4, " 000001"), 7, record, 4);
        assert_refused(&with(flow.clone(), record, 4, "999 999"), 7, record, 7);
        assert_refused(&with(flow.clone(), record, 4, "000001 "), 7, record, 10);
    }
    assert_refused(&with(flow.clone(), 7, 4, "0000001"), 8, 7, 4);
    assert_refused(&with(flow, 6, 4, "0000002"), 8, 6, 4);
}

#[test]
fn numeric_fields() {
    let all: &[Built] = &[
        (1, &[(9, 0)]),
        (3, &[(9, 0)]),
        (5, &[(9, 0)]),
        (7, &[(9, 0)]),
    ];
    let flow = whole(&[all, &[(17, &[(9, 0)])]]);
    // Record, start and width of every numeric field besides delega numbers.
    let fields = [
        (1, 14, 6),
        (4, 27, 15),
        (4, 42, 15),
        (5, 13, 15),
        (5, 28, 15),
        (5, 44, 15),
        (6, 52, 15),
        (6, 67, 15),
        (7, 13, 15),
        (7, 28, 15),
        (7, 44, 15),
        (8, 29, 15),
        (8, 44, 15),
        (9, 15, 15),
        (9, 30, 15),
        (9, 46, 15),
        (10, 31, 15),
        (10, 46, 15),
        (11, 17, 15),
        (11, 32, 15),
        (11, 48, 15),
        (12, 36, 15),
        (15, 41, 15),
        (15, 56, 15),
        (16, 44, 15),
        (17, 36, 15),
        (18, 46, 7),
        (18, 53, 15),
        (18, 83, 7),
    ];
    let mut flow_of_blanks = flow.clone();
    for record in 1..=18 {
        for position in 1..=120 {
            let field = fields.iter().find(|&&(in_record, start, width)| {
                in_record == record && (start..start + width).contains(&position)
            });
            if field.is_some() {
                let spoiled = with(flow.clone(), record, position, "x");
                assert_refused(&spoiled, 7, record, position);
                continue;
            }
            // Nor is any other byte read, but for these.
            let read = match record {
                1 | 18 => matches!(position, 2..=3 | 20..=39),
                _ => matches!(position, 2..=10),
            };
            let subtype =
                !matches!(record, 1 | 2 | 3 | 13 | 14 | 18) && matches!(position, 11 | 12);
            let code = matches!((record, position), (2 | 13, 11..=26));
            let sign = matches!((record, position), (5 | 7 | 16, 43) | (9, 45) | (11, 47));
            if !read && !subtype && !code && !sign {
                put(&mut flow_of_blanks, (record - 1) * 120 + position, "/");
            }
        }
    }
    assert_eq!(judge(&flow_of_blanks), judge(&flow));
    assert!(judge(&flow).is_ok());
}

#[test]
fn all_fields_are_tested_before_any_is_compared() {
    let flow = with(example(), 6, 15, "000000000000001");
    assert_refused(&flow, 10, 6, 15);
    assert_refused(&with(flow, 6, 60, " "), 7, 6, 60);
    // In EF the first field by position is 46, then 53, then 83.
    let flow = with(example(), 8, 46, "0000002");
    assert_refused(&flow, 18, 8, 46);
    assert_refused(&with(flow.clone(), 8, 89, " "), 7, 8, 89);
    assert_refused(&with(with(flow, 8, 83, " "), 8, 67, " "), 7, 8, 67);
}

/// Records: 1 F4; 2-14 delega 1 with the four sections, one line each, and its
/// receipts; 15-19 delega 2 with 40-17; 20 EF.
pub fn every_kind() -> Vec<u8> {
    const LINES: &[(u64, u64)] = &[(9, 0)];
    let (first, _) = delega_records(1, &[(1, LINES), (3, LINES), (5, LINES), (7, LINES)]);
    let receipts = ["02", "03"].map(|subtype| numbered("50", 1, subtype));
    let (second, _) = delega_records(2, &[(17, LINES)]);
    let mut records = [vec![head()], first, receipts.to_vec(), second].concat();
    records.push(tail(2, records.len() + 1, 45));
    records.concat()
}

/// Its numeric fields, record by record: start and width of each.
pub const FIELDS: [(usize, &[(usize, usize)]); 20] = [
    (1, &[(14, 6)]),
    (2, &[(4, 7)]),
    (3, &[(4, 7)]),
    (4, &[(4, 7), (27, 15), (42, 15)]),
    (5, &[(4, 7), (13, 15), (28, 15), (44, 15)]),
    (6, &[(4, 7), (52, 15), (67, 15)]),
    (7, &[(4, 7), (13, 15), (28, 15), (44, 15)]),
    (8, &[(4, 7), (29, 15), (44, 15)]),
    (9, &[(4, 7), (15, 15), (30, 15), (46, 15)]),
    (10, &[(4, 7), (31, 15), (46, 15)]),
    (11, &[(4, 7), (17, 15), (32, 15), (48, 15)]),
    (12, &[(4, 7), (36, 15)]),
    (13, &[(4, 7)]),
    (14, &[(4, 7)]),
    (15, &[(4, 7)]),
    (16, &[(4, 7)]),
    (17, &[(4, 7), (41, 15), (56, 15)]),
    (18, &[(4, 7), (44, 15)]),
    (19, &[(4, 7), (36, 15)]),
    (20, &[(46, 7), (53, 15), (83, 7)]),
];

#[test]
fn the_very_character_in_every_field_of_every_kind_of_record() {
    let sound = every_kind();
    assert_eq!(judge(&sound).unwrap().records, 20);
    for (record, fields) in FIELDS {
        for &(start, width) in fields {
            for place in 0..width {
                for text in [" ", "/", ":", "x"] {
                    let flow = with(sound.clone(), record, start + place, text);
                    assert_refused(&flow, 7, record, start + place);
                }
                // Of two in a field the first, whatever each of them is.
                for second in place + 1..width {
                    for (one, other) in [(" ", " "), (" ", "x"), ("x", " "), (":", "/")] {
                        let flow = with(sound.clone(), record, start + place, one);
                        let flow = with(flow, record, start + second, other);
                        assert_refused(&flow, 7, record, start + place);
                    }
                }
            }
            // No digit in it at all.
            let flow = with(sound.clone(), record, start, &" ".repeat(width));
            assert_refused(&flow, 7, record, start);
        }
    }
}

#[test]
fn the_first_bad_field_by_position_counts() {
    let sound = every_kind();
    for (record, fields) in FIELDS {
        for (index, &(start, width)) in fields.iter().enumerate() {
            for &(later, later_width) in &fields[index + 1..] {
                // Even where the later field goes wrong at its own first
                // place, or in all of them.
                for place in 0..width {
                    let flow = with(sound.clone(), record, start + place, "x");
                    for bad in [0, later_width / 2, later_width - 1] {
                        let both = with(flow.clone(), record, later + bad, " ");
                        assert_refused(&both, 7, record, start + place);
                    }
                    let both = with(flow, record, later, &" ".repeat(later_width));
                    assert_refused(&both, 7, record, start + place);
                }
            }
        }
        // All of them, each at its last place.
        let flow = fields.iter().fold(sound.clone(), |flow, (start, width)| {
            with(flow, record, start + width - 1, ".")
        });
        let (start, width) = fields[0];
        assert_refused(&flow, 7, record, start + width - 1);
    }
}

#[test]
fn the_character_is_told_by_every_call() {
    for (record, position) in [(1, 19), (4, 41), (14, 10), (18, 51), (20, 60)] {
        let mut flow = with(every_kind(), record, position, " ");
        let refusal = refused(7, record, position);
        assert_eq!(delega(&flow, 1), Err(refusal));
        assert_eq!(find(&flow, 1, 1, 1), Err(refusal));
        assert_eq!(correct(&mut flow, 1, 1, 1, 1, 0), Err(refusal));
    }
}

// ---------------------------------------------------------------- amounts

#[test]
fn totals_sign_and_balance() {
    assert_refused(&with(example(), 6, 15, "000000000010001"), 10, 6, 15);
    assert_refused(&with(example(), 6, 30, "000000000002501"), 11, 6, 30);
    for sign in ["N", " ", "p", "0"] {
        assert_refused(&with(example(), 6, 45, sign), 12, 6, 45);
    }
    assert_refused(&with(example(), 6, 46, "000000000007501"), 13, 6, 46);
    assert_refused(&with(example(), 7, 36, "000000000007501"), 15, 7, 36);
    // Columns of the other four.
    let all: &[Built] = &[(1, &[(9, 4)]), (3, &[(9, 4)]), (7, &[(9, 4)])];
    let flow = whole(&[all, &[(17, &[(9, 0)])]]);
    for (record, debit_at, credit_at, sign_at) in
        [(5, 13, 28, 43), (7, 13, 28, 43), (9, 17, 32, 47)]
    {
        let one = "000000000000001";
        assert_refused(
            &with(flow.clone(), record, debit_at, one),
            10,
            record,
            debit_at,
        );
        assert_refused(
            &with(flow.clone(), record, credit_at, one),
            11,
            record,
            credit_at,
        );
        assert_refused(
            &with(flow.clone(), record, sign_at, "N"),
            12,
            record,
            sign_at,
        );
        assert_refused(
            &with(flow.clone(), record, sign_at + 1, one),
            13,
            record,
            sign_at + 1,
        );
    }
    assert_refused(&with(flow.clone(), 14, 43, "N"), 12, 14, 43);
    assert_refused(&with(flow, 14, 44, "000000000000001"), 13, 14, 44);
}

#[test]
fn a_zero_balance_is_positive() {
    let flow = one(5, &[(5, 5)]);
    assert_eq!(judge(&flow).unwrap().total, 0);
    assert_refused(&with(flow, 5, 45, "N"), 12, 5, 45);
}

#[test]
fn head_and_tail_agree_but_not_with_the_lines() {
    // Line, balance and payment all changed alike, the tail's sum is wrong.
    let lines: &[(u64, u64)] = &[(10000, 0), (0, 2400)];
    let mut records = vec![head()];
    records.extend(delega_records(1, &[(5, lines)]).0);
    records.push(tail(1, 8, 7500));
    assert_refused(&records.concat(), 20, 8, 53);
    // The totals agree with one another but not with the lines.
    let mut records = vec![head(), taxpayer(1), numbered("20", 1, "")];
    records.extend([line(1, 5, (10000, 0)), line(1, 5, (0, 2500))]);
    records.extend([balance(1, 5, lines), payment(1, 7600), tail(1, 8, 7600)]);
    assert_refused(&records.concat(), 11, 6, 30);
}

#[test]
fn sums_beyond_fifteen_digits_differ_and_are_not_reduced() {
    const MOST: u64 = 999_999_999_999_999;
    let zero = "000000000000000";
    let two = [(MOST, 0), (1, 0)];
    // The builder's sixteen digits are put right to fifteen before judging.
    let build = |subtype, totals: &[(u64, u64)], lines: &[(u64, u64)]| {
        let mut records = vec![head(), taxpayer(1), numbered("20", 1, "")];
        records.extend(lines.iter().map(|&amounts| line(1, subtype, amounts)));
        records.push(balance(1, subtype, totals));
        records.concat()
    };
    assert_refused(&with(build(5, &[(1, 0)], &two), 6, 15, zero), 10, 6, 15);
    assert_refused(&build(5, &[(1, 0)], &[(1, MOST), (0, 1)]), 11, 6, 30);
    assert_refused(&with(build(17, &[(1, 0)], &two), 6, 44, zero), 13, 6, 44);

    let mut records = build(1, &[(MOST, 0)], &[(MOST, 0)]);
    records.extend(build(3, &[(1, 0)], &[(1, 0)])[360..].to_vec());
    records.extend(payment(1, 0));
    assert_refused(&records, 15, 8, 36);

    let mut records = vec![head()];
    records.extend(delega_records(1, &[(1, &[(MOST, 0)])]).0);
    records.extend(delega_records(2, &[(1, &[(1, 0)])]).0);
    records.push(tail(2, 12, 0));
    assert_refused(&records.concat(), 20, 12, 53);
}

#[test]
fn section_sums_over_the_flow_are_whole() {
    const MOST: u64 = 999_999_999_999_999;
    let part: &[Built] = &[(1, &[(MOST, MOST)])];
    let summary = judge(&whole(&[part, part, part])).unwrap();
    assert_eq!(summary.total, 0);
    assert_eq!(summary.sums[0], (3 * MOST, 3 * MOST));
}

// ----------------------------------------------------------- head and tail

#[test]
fn names() {
    for position in [20, 39] {
        for text in ["/", ":"] {
            assert_refused(&with(example(), 1, position, text), 16, 1, 20);
            assert_refused(&with(example(), 8, position, text), 16, 8, 20);
        }
        assert_refused(&with(example(), 8, position, "#"), 16, 8, 20);
    }
    for position in [19, 40] {
        let spoiled = if position == 19 { "9" } else { "/" };
        assert!(judge(&with(example(), 8, position, spoiled)).is_ok());
    }
    let blank = " ".repeat(20);
    assert!(judge(&with(with(example(), 1, 20, &blank), 8, 20, &blank)).is_ok());
    // 7, then 16, then 17, whatever is wrong with the date; in the tail 16
    // before 18.
    for date in ["009900", "310215", "290215", "310416"] {
        let flow = with(example(), 1, 14, date);
        assert_refused(&flow, 17, 1, 14);
        for position in [20, 39] {
            let named = with(flow.clone(), 1, position, "/");
            assert_refused(&named, 16, 1, 20);
            for place in 14..20 {
                assert_refused(&with(flow.clone(), 1, place, " "), 7, 1, place);
                assert_refused(&with(named.clone(), 1, place, " "), 7, 1, place);
            }
        }
    }
    assert_refused(
        &with(with(example(), 8, 20, "/"), 8, 46, "9999999"),
        16,
        8,
        20,
    );
}

#[test]
fn dates() {
    for date in DATES {
        assert_eq!(judge(&with(example(), 1, 14, date)), judge(&example()));
    }
    for date in NO_DATES {
        assert_refused(&with(example(), 1, 14, date), 17, 1, 14);
    }
    assert_refused(&with(example(), 1, 14, " 10100"), 7, 1, 14);
    assert_refused(&with(example(), 1, 14, "32 1 0"), 7, 1, 16);
    assert_refused(&with(example(), 1, 14, "31021 "), 7, 1, 19);
    // 17 comes before every fault of a later record, and after 3 and 4.
    let flow = with(example(), 1, 14, "310215");
    assert_refused(&with(flow.clone(), 2, 1, "\n"), 17, 1, 14);
    assert_refused(&with(flow.clone(), 1, 120, "\n"), 3, 1, 120);
    assert_refused(&with(flow, 1, 2, "EF"), 4, 1, 2);
}

#[test]
fn the_tails_own_date_is_not_read() {
    for date in ["310215", "000000", "999999", "/:/:/:", "      "] {
        assert_eq!(judge(&with(example(), 8, 14, date)), judge(&example()));
    }
}

#[test]
fn every_call_judges_the_date() {
    for date in DATES {
        let mut flow = with(example(), 1, 14, date);
        assert!(delega(&flow, 1).is_ok());
        assert_eq!(find(&flow, 1, 5, 1), Ok(4));
        assert_eq!(correct(&mut flow, 1, 5, 1, 9000, 0), Ok(()));
        assert_eq!(&flow[13..19], date.as_bytes());
    }
    for date in NO_DATES {
        let before = with(example(), 1, 14, date);
        let mut flow = before.clone();
        let refusal = refused(17, 1, 14);
        assert_eq!(delega(&flow, 1), Err(refusal));
        assert_eq!(find(&flow, 1, 5, 1), Err(refusal));
        assert_eq!(correct(&mut flow, 1, 5, 1, 9000, 0), Err(refusal));
        assert_eq!(flow, before);
    }
}

#[test]
fn tail_counts() {
    for count in ["0000000", "0000002", "1000001"] {
        assert_refused(&with(example(), 8, 46, count), 18, 8, 46);
    }
    for count in ["0000000", "0000007", "0000009"] {
        assert_refused(&with(example(), 8, 83, count), 19, 8, 83);
    }
    assert_refused(&with(example(), 8, 53, "000000000007501"), 20, 8, 53);
    // 19 before 20, though 53 stands before 83.
    let flow = with(with(example(), 8, 53, "000000000000000"), 8, 83, "0000000");
    assert_refused(&flow, 19, 8, 83);
}

// --------------------------------------------------------------- tax codes

/// Sixteen characters that are no code, each in one way or more.
pub const NO_CODES: [&str; 16] = [
    "RSSMRA85T10A562T",
    "RSSMRA85T10A526S",
    "SRSMRA85T10A562S",
    "rssmra85t10a562s",
    "RSSMRA85T10A562s",
    "RSSMRA85T1OA562S",
    "RSSMR485T10A562S",
    "RSSMRA85T10A562 ",
    " RSSMRA85T10A562",
    "00743110158     ",
    "00743110175     ",
    " 00743110157    ",
    "00743110157    0",
    "0000000000000000",
    "0000000000      ",
    "                ",
];

#[test]
fn codes_that_pass_and_codes_that_do_not() {
    for code in CODES {
        assert_eq!(judge(&with(example(), 2, 11, code)), judge(&example()));
    }
    for code in NO_CODES {
        assert_refused(&with(example(), 2, 11, code), 26, 2, 11);
    }
    // What stands beside the code is not read.
    for beside in ["A", "0", " ", "~"] {
        assert!(judge(&with(example(), 2, 27, beside)).is_ok());
        assert!(judge(&with(example(), 3, 11, beside)).is_ok());
    }
}

#[test]
fn every_character_of_a_code_counts() {
    for place in 11..=26 {
        for text in [" ", "/", ":", "@", "[", "`", "a", "~"] {
            let flow = with(example(), 2, 11, "RSSMRA85T10A562S");
            assert_refused(&with(flow, 2, place, text), 26, 2, 11);
        }
    }
}

#[test]
fn the_code_of_every_delega() {
    let part: &[Built] = &[(3, &[(1, 0)])];
    let flow = whole(&[part; 7]);
    assert_eq!(judge(&flow).unwrap().deleghe, 7);
    for record in (2..37).step_by(5) {
        for code in NO_CODES {
            let wrong = with(flow.clone(), record, 11, code);
            assert_refused(&wrong, 26, record, 11);
            // The first of two.
            if record > 2 {
                assert_refused(&with(wrong, 2, 11, NO_CODES[0]), 26, 2, 11);
            }
        }
    }
}

#[test]
fn the_code_comes_after_3_4_7_and_8_of_its_record() {
    let wrong = with(example(), 2, 11, "RSSMRA85T10A562T");
    assert_refused(&wrong, 26, 2, 11);
    for position in [1, 11, 20, 26, 27, 120] {
        assert_refused(&with(wrong.clone(), 2, position, "\n"), 3, 2, position);
    }
    for kind in ["20", "40", "EF", "1 "] {
        assert_refused(&with(wrong.clone(), 2, 2, kind), 4, 2, 2);
    }
    for position in 4..=10 {
        assert_refused(&with(wrong.clone(), 2, position, "x"), 7, 2, position);
    }
    for number in ["0000000", "0000002", "1000001"] {
        assert_refused(&with(wrong.clone(), 2, 4, number), 8, 2, 4);
    }
}

#[test]
fn the_code_comes_before_every_later_record() {
    let wrong = with(example(), 2, 11, "RSSMRA85T10A562T");
    for (record, position, text) in [
        (3, 1, "\n"),
        (3, 2, "40"),
        (3, 4, "x"),
        (3, 4, "0000002"),
        (4, 29, "x"),
        (8, 46, "0000002"),
    ] {
        assert_refused(&with(wrong.clone(), record, position, text), 26, 2, 11);
    }
    assert_refused(&wrong[..240], 26, 2, 11);
    // And after the head's.
    assert_refused(&with(wrong.clone(), 1, 14, "310215"), 17, 1, 14);
    assert_refused(&with(wrong, 1, 20, "/"), 16, 1, 20);
}

#[test]
fn a_record_10_that_may_not_stand_has_no_code_judged() {
    let flow = with(example(), 4, 2, "10");
    assert_refused(&flow, 4, 4, 2);
    let after = [example(), with(taxpayer(2).to_vec(), 1, 11, "x")].concat();
    assert_refused(&after, 4, 9, 2);
}

#[test]
fn every_call_judges_the_code() {
    for code in CODES {
        let mut flow = with(example(), 2, 11, code);
        assert!(delega(&flow, 1).is_ok());
        assert_eq!(find(&flow, 1, 5, 1), Ok(4));
        assert_eq!(correct(&mut flow, 1, 5, 1, 9000, 0), Ok(()));
        assert_eq!(&flow[130..146], code.as_bytes());
    }
    for code in NO_CODES {
        let before = with(example(), 2, 11, code);
        let mut flow = before.clone();
        let refusal = refused(26, 2, 11);
        assert_eq!(delega(&flow, 1), Err(refusal));
        assert_eq!(delega(&flow, 0), Err(refusal));
        assert_eq!(find(&flow, 9, 5, 1), Err(refusal));
        assert_eq!(correct(&mut flow, 1, 5, 1, 9000, 0), Err(refusal));
        assert_eq!(flow, before);
    }
}

// ------------------------------------------------------ lines and sections

/// Line count, set of sections and its size.
type Used = (u64, u64, u64);

/// Those of a delega that is there.
#[track_caller]
fn used(flow: &[u8], number: u64) -> Used {
    let summary = delega(flow, number).expect("a delega of a sound flow");
    (summary.lines, summary.set, summary.size)
}

/// What a section with this line subtype adds to a set.
fn bit(subtype: u64) -> u64 {
    match subtype {
        1 => 1,
        3 => 2,
        5 => 4,
        7 => 8,
        17 => 16,
        _ => panic!("{subtype} is no line subtype"),
    }
}

/// One Erario line, two of INPS, three of Regioni, four of IMU, five of
/// identifying elements.
const ERARIO: Built = (1, &[(1, 0)]);
const INPS: Built = (3, &[(1, 0), (2, 1)]);
const REGIONI: Built = (5, &[(1, 0), (1, 1), (0, 1)]);
const IMU: Built = (7, &[(1, 0), (1, 0), (5, 6), (9, 0)]);
const IDENTIFYING_ELEMENTS: Built = (17, &[(1, 0), (2, 0), (3, 0), (4, 0), (5, 0)]);

/// Every set that a delega can have, in the order of its number, with the line
/// count and the size beside it.
const SETS: [(&[Built], Used); 16] = [
    (&[ERARIO], (1, 1, 1)),
    (&[INPS], (2, 2, 1)),
    (&[ERARIO, INPS], (3, 3, 2)),
    (&[REGIONI], (3, 4, 1)),
    (&[ERARIO, REGIONI], (4, 5, 2)),
    (&[INPS, REGIONI], (5, 6, 2)),
    (&[ERARIO, INPS, REGIONI], (6, 7, 3)),
    (&[IMU], (4, 8, 1)),
    (&[ERARIO, IMU], (5, 9, 2)),
    (&[INPS, IMU], (6, 10, 2)),
    (&[ERARIO, INPS, IMU], (7, 11, 3)),
    (&[REGIONI, IMU], (7, 12, 2)),
    (&[ERARIO, REGIONI, IMU], (8, 13, 3)),
    (&[INPS, REGIONI, IMU], (9, 14, 3)),
    (&[ERARIO, INPS, REGIONI, IMU], (10, 15, 4)),
    (&[IDENTIFYING_ELEMENTS], (5, 16, 1)),
];

#[test]
fn every_set_alone() {
    for (sections, expected) in SETS {
        let flow = whole(&[sections]);
        assert_eq!(used(&flow, 1), expected);
        assert_eq!(judge(&flow).unwrap().lines, expected.0);
    }
}

#[test]
fn every_set_in_one_flow() {
    // In the order of their numbers, the other way round, and each twice.
    let there = SETS.to_vec();
    let back: Vec<_> = SETS.into_iter().rev().collect();
    let twice: Vec<_> = SETS.into_iter().flat_map(|delega| [delega; 2]).collect();
    for (deleghe, times) in [(there, 1), (back, 1), (twice, 2)] {
        let sections: Vec<&[Built]> = deleghe.iter().map(|delega| delega.0).collect();
        let flow = whole(&sections);
        for (number, (_, expected)) in (1..).zip(deleghe) {
            assert_eq!(used(&flow, number), expected);
        }
        // Each of the four sections is in eight sets, with 1, 2, 3 and 4 lines,
        // and section 17 in one, with 5: 85 lines and 33 balance records.
        let summary = judge(&flow).unwrap();
        assert_eq!(summary.lines, 85 * times);
        assert_eq!(summary.deleghe, 16 * times);
        assert_eq!(summary.records as u64, 2 + (16 * 3 + 85 + 33) * times);
    }
}

#[test]
fn nothing_is_carried_over_to_the_next_delega() {
    for (before, _) in SETS {
        for (sections, expected) in SETS {
            let flow = whole(&[before, sections, before]);
            assert_eq!(used(&flow, 2), expected);
        }
    }
}

#[test]
fn more_lines_than_sections() {
    for (subtype, most) in [(1, 6), (3, 4), (5, 4), (7, 4), (17, 28)] {
        for lines in 1..=most {
            let flow = one(subtype, &vec![(1, 0); lines]);
            assert_eq!(used(&flow, 1), (lines as u64, bit(subtype), 1));
            assert_eq!(judge(&flow).unwrap().lines, lines as u64);
        }
    }
    // As many as the four can have together.
    let four = [6, 4, 4, 4].map(|most| vec![(1, 0); most]);
    let [erario, inps, regioni, imu] = &four;
    let full: &[Built] = &[(1, erario), (3, inps), (5, regioni), (7, imu)];
    let flow = whole(&[full, full]);
    for number in [1, 2] {
        assert_eq!(used(&flow, number), (18, 15, 4));
    }
    assert_eq!(judge(&flow).unwrap().lines, 36);
}

#[test]
fn a_line_counts_whatever_its_amounts_are() {
    // A debit, a credit, and both alike; in all the delega nothing is left.
    let flow = whole(&[&[
        (1, &[(9, 0)]),
        (3, &[(0, 4)]),
        (5, &[(5, 5)]),
        (7, &[(0, 5)]),
    ]]);
    assert_eq!(judge(&flow).unwrap().total, 0);
    assert_eq!(used(&flow, 1), (4, 15, 4));
}

#[test]
fn corrections_change_no_count_and_no_set() {
    let mut flow = three();
    for (delega, subtype, place, debit, credit) in [
        (1, 7, 1, 30, 0),
        (1, 1, 1, 0, 1),
        (2, 17, 2, 1, 0),
        (3, 5, 1, 3, 3),
    ] {
        let answer = correct(&mut flow, delega, subtype, place, debit, credit);
        assert_eq!(answer, Ok(()));
        assert_eq!(used(&flow, 1), (3, 9, 2));
        assert_eq!(used(&flow, 2), (2, 16, 1));
        assert_eq!(used(&flow, 3), (1, 4, 1));
        assert_eq!(judge(&flow).unwrap().lines, 6);
    }
}

#[test]
fn lines_and_sections_at_random() {
    let mut dice = Dice(9);
    let mut seen = [false; 17];
    for _ in 0..400 {
        let deleghe: Vec<_> = (0..=dice.below(6)).map(|_| dice.delega()).collect();
        let flow = rebuilt(&deleghe);
        let summary = match judge(&flow) {
            Ok(summary) => summary,
            Err(_) => continue,
        };
        let mut lines = 0;
        for (number, sections) in (1..).zip(&deleghe) {
            let of_delega: usize = sections.iter().map(|(_, lines)| lines.len()).sum();
            let set: u64 = sections.iter().map(|&(subtype, _)| bit(subtype)).sum();
            let size = sections.len() as u64;
            assert_eq!(used(&flow, number), (of_delega as u64, set, size));
            assert_eq!(u64::from(set.count_ones()), size);
            lines += of_delega as u64;
            seen[set as usize] = true;
        }
        // That of the flow is the sum over its deleghe.
        assert_eq!(summary.lines, lines);
    }
    assert!(seen[1..].iter().all(|&seen| seen));
}

// ------------------------------------------------------------------- calls

/// Records: 1 F4; 2-9 delega 1 with 40-01 at 4, 5 and 40-07 at 7;
/// 10-15 delega 2 with 40-17 at 12, 13; 16-20 delega 3 with 40-05 at 18; 21 EF.
fn three() -> Vec<u8> {
    whole(&[
        &[(1, &[(700, 0), (50, 20)]), (7, &[(0, 30)])],
        &[(17, &[(40, 0), (60, 0)])],
        &[(5, &[(8, 3)])],
    ])
}

#[test]
fn the_summary_of_one_delega() {
    let flow = three();
    let none = (0, 0);
    // The sets are Erario and IMU, 1 + 8; identifying elements, 16; Regioni, 4.
    let expected = [
        (700, (3, 9, 2), [(750, 20), none, none, (0, 30), none]),
        (100, (2, 16, 1), [none, none, none, none, (100, 0)]),
        (5, (1, 4, 1), [none, none, (8, 3), none, none]),
    ];
    for (number, (final_balance, (lines, set, size), sums)) in (1..).zip(expected) {
        assert_eq!(
            delega(&flow, number),
            Ok(DelegaSummary {
                final_balance,
                lines,
                set,
                size,
                sums
            })
        );
    }
    assert_eq!(judge(&flow).unwrap().lines, 6);
    for number in [0, 4, u64::MAX] {
        assert_eq!(delega(&flow, number), Err(refused(21, 0, 0)));
    }
    let bad = with(flow, 21, 46, "0000004");
    assert_eq!(delega(&bad, 1), Err(refused(18, 21, 46)));
    assert_eq!(delega(&bad, 0), Err(refused(18, 21, 46)));
}

#[test]
fn lines_are_found() {
    let flow = three();
    let lines = [
        ((1, 1, 1), 4),
        ((1, 1, 2), 5),
        ((1, 7, 1), 7),
        ((2, 17, 1), 12),
        ((2, 17, 2), 13),
        ((3, 5, 1), 18),
    ];
    for ((delega, subtype, place), record) in lines {
        assert_eq!(find(&flow, delega, subtype, place), Ok(record));
    }
    for delega in [0, 1, 2, 3, 4, u64::MAX] {
        for subtype in (0..=20).chain([101, 255, 256, 257, u64::MAX]) {
            for place in [0, 1, 2, 3, 4, 256, 257, u64::MAX] {
                let expected = lines.iter().find(|line| line.0 == (delega, subtype, place));
                assert_eq!(
                    find(&flow, delega, subtype, place),
                    expected.map(|line| line.1).ok_or(refused(21, 0, 0))
                );
            }
        }
    }
    assert_eq!(find(&[], 0, 0, 0), Err(refused(2, 0, 0)));
    assert_eq!(
        find(&with(flow, 21, 1, "\n"), 0, 0, 0),
        Err(refused(3, 21, 1))
    );
}

#[test]
fn corrections_try_their_refusals_in_order() {
    const MOST: u64 = 999_999_999_999_999;
    let cases = [
        // 21 before 22.
        ((0, 1, 1, u64::MAX, u64::MAX), 21),
        ((4, 1, 1, 1, 0), 21),
        ((1, 2, 1, 1, 0), 21),
        ((1, 3, 1, 1, 0), 21),
        ((1, 1, 0, 1, 0), 21),
        ((1, 1, 3, 1, 0), 21),
        // 22 by value, before 9 and 14.
        ((1, 1, 1, MOST + 1, 0), 22),
        ((1, 1, 1, 0, MOST + 1), 22),
        ((1, 1, 1, u64::MAX, u64::MAX), 22),
        ((2, 17, 1, 0, MOST + 1), 22),
        // 9, in section 17 for any credit.
        ((1, 1, 1, 0, 0), 9),
        ((2, 17, 1, 5, 5), 9),
        ((2, 17, 1, 0, MOST), 9),
        // 14 before 23.
        ((1, 7, 1, 0, 731), 14),
        ((1, 1, 2, 1, MOST), 14),
        // 23: total debit, balance of section 17, tail sum.
        ((1, 1, 1, MOST, 0), 23),
        ((1, 7, 1, MOST, 0), 23),
        ((2, 17, 2, MOST, 0), 23),
        ((3, 5, 1, MOST, 0), 23),
    ];
    for ((delega, subtype, place, debit, credit), number) in cases {
        let mut flow = three();
        let answer = correct(&mut flow, delega, subtype, place, debit, credit);
        assert_eq!(answer, Err(refused(number, 0, 0)));
        assert_eq!(flow, three());
    }
    let mut bad = with(three(), 21, 53, "x");
    assert_eq!(correct(&mut bad, 0, 0, 0, 0, 0), Err(refused(7, 21, 53)));
    assert_eq!(correct(&mut [], 1, 1, 1, 1, 0), Err(refused(2, 0, 0)));
}

#[test]
fn a_correction_refuses_what_a_field_cannot_hold() {
    const MOST: u64 = 999_999_999_999_999;
    let attempt = |deleghe: &[&[Built]], delega, subtype, debit, credit| {
        let mut flow = whole(deleghe);
        assert!(judge(&flow).is_ok());
        correct(&mut flow, delega, subtype, 1, debit, credit)
    };
    let overflow = Err(refused(23, 0, 0));
    // Total credit alone.
    let part: &[Built] = &[(5, &[(1, 1), (MOST - 1, MOST - 1)])];
    assert_eq!(attempt(&[part], 1, 5, 1, 1), Ok(()));
    assert_eq!(attempt(&[&[(1, &[(9, 0)]), part[0]]], 1, 5, 1, 2), overflow);
    // The balance of section 17, which has no totals.
    let part: &[Built] = &[(17, &[(1, 0), (MOST - 1, 0)])];
    assert_eq!(attempt(&[part], 1, 17, 1, 0), Ok(()));
    assert_eq!(attempt(&[part], 1, 17, 2, 0), overflow);
    // The final balance alone: each section fits.
    let part: &[Built] = &[(1, &[(1, 0)]), (3, &[(MOST - 1, 0)])];
    assert_eq!(attempt(&[part], 1, 1, 1, 0), Ok(()));
    assert_eq!(attempt(&[part], 1, 1, 2, 0), overflow);
    // The tail sum alone: each delega fits.
    let (first, second): (&[Built], &[Built]) = (&[(1, &[(1, 0)])], &[(1, &[(MOST - 1, 0)])]);
    assert_eq!(attempt(&[first, second], 1, 1, 1, 0), Ok(()));
    assert_eq!(attempt(&[first, second], 1, 1, 2, 0), overflow);
}

#[test]
fn equal_amounts_change_no_byte() {
    for (delega, subtype, place, debit, credit) in [
        (1, 1, 1, 700, 0),
        (1, 1, 2, 50, 20),
        (1, 7, 1, 0, 30),
        (2, 17, 2, 60, 0),
        (3, 5, 1, 8, 3),
    ] {
        let mut flow = three();
        assert_eq!(
            correct(&mut flow, delega, subtype, place, debit, credit),
            Ok(())
        );
        assert_eq!(flow, three());
    }
}

#[test]
fn the_sign_turns_and_is_positive_at_zero() {
    let erario: Built = (1, &[(50, 0)]);
    let mut flow = whole(&[&[erario, (5, &[(5, 0)])]]);
    for amounts in [(0, 50), (7, 7), (1, 9), (5, 0)] {
        assert_eq!(correct(&mut flow, 1, 5, 1, amounts.0, amounts.1), Ok(()));
        assert_eq!(flow, whole(&[&[erario, (5, &[amounts])]]));
    }
}

// ---------------------------------------------------- corrections at random

/// A delega whose lines can be changed: subtypes with their lines.
pub type Drawn = Vec<(u64, Vec<(u64, u64)>)>;

/// A small generator of numbers that only look random.
pub struct Dice(pub u64);

impl Dice {
    pub fn below(&mut self, limit: u64) -> u64 {
        self.0 = self
            .0
            .wrapping_mul(6_364_136_223_846_793_005)
            .wrapping_add(1_442_695_040_888_963_407);
        (self.0 >> 33) % limit
    }

    fn amount(&mut self) -> u64 {
        match self.below(4) {
            0 => 0,
            1 => self.below(1 << 31) * self.below(1000),
            _ => self.below(20_000),
        }
    }

    fn line(&mut self, subtype: u64) -> (u64, u64) {
        match (self.amount(), self.amount() / 8) {
            (debit, _) if subtype == 17 => (debit + 1, 0),
            (0, 0) => (1, 0),
            amounts => amounts,
        }
    }

    pub fn delega(&mut self) -> Drawn {
        let mut subtypes: Vec<u64> = [1, 3, 5, 7]
            .into_iter()
            .filter(|_| self.below(2) == 0)
            .collect();
        if subtypes.is_empty() {
            subtypes.push(17);
        }
        subtypes
            .into_iter()
            .map(|subtype| {
                (
                    subtype,
                    (0..=self.below(4)).map(|_| self.line(subtype)).collect(),
                )
            })
            .collect()
    }
}

pub fn rebuilt(deleghe: &[Drawn]) -> Vec<u8> {
    let deleghe: Vec<Vec<Built>> = deleghe
        .iter()
        .map(|sections| {
            sections
                .iter()
                .map(|(subtype, lines)| (*subtype, &lines[..]))
                .collect()
        })
        .collect();
    let deleghe: Vec<&[Built]> = deleghe.iter().map(|sections| &sections[..]).collect();
    whole(&deleghe)
}

#[test]
fn a_corrected_flow_is_the_flow_built_anew() {
    let mut dice = Dice(24);
    let mut made = 0;
    let mut negative = 0;
    for _ in 0..400 {
        let mut deleghe: Vec<_> = (0..=dice.below(4)).map(|_| dice.delega()).collect();
        let mut flow = rebuilt(&deleghe);
        if judge(&flow).is_err() {
            continue;
        }
        for _ in 0..12 {
            let d = dice.below(deleghe.len() as u64) as usize;
            let s = dice.below(deleghe[d].len() as u64) as usize;
            let subtype = deleghe[d][s].0;
            let place = dice.below(deleghe[d][s].1.len() as u64) as usize;
            let (debit, credit) = dice.line(subtype);
            let before = flow.clone();
            let answer = correct(
                &mut flow,
                d as u64 + 1,
                subtype,
                place as u64 + 1,
                debit,
                credit,
            );
            let old = std::mem::replace(&mut deleghe[d][s].1[place], (debit, credit));
            match answer {
                Ok(()) => {
                    assert_eq!(flow, rebuilt(&deleghe));
                    assert!(judge(&flow).is_ok());
                    made += 1;
                }
                Err(refusal) => {
                    assert_eq!(refusal, refused(14, 0, 0));
                    assert_eq!(judge(&rebuilt(&deleghe)).unwrap_err().number, 14);
                    assert_eq!(flow, before);
                    deleghe[d][s].1[place] = old;
                    negative += 1;
                }
            }
        }
    }
    assert!(
        made > 1000 && negative > 100,
        "{made} made, {negative} refused"
    );
}

/// A copy of a flow in which one to three bytes are others.
pub fn spoiled(dice: &mut Dice, sound: &[u8]) -> Vec<u8> {
    let mut flow = sound.to_vec();
    for _ in 0..=dice.below(3) {
        let place = dice.below(flow.len() as u64) as usize;
        flow[place] = match dice.below(3) {
            0 => dice.below(256) as u8,
            1 => b'0' + dice.below(10) as u8,
            _ => b' ',
        };
    }
    flow
}

#[test]
fn spoiled_flows_are_answered_alike_by_every_call() {
    let mut dice = Dice(7);
    let sound = three();
    for _ in 0..20_000 {
        let mut flow = spoiled(&mut dice, &sound);
        if dice.below(4) == 0 {
            let records = dice.below(22) as usize;
            flow.truncate(records * 120);
        }
        let answer = judge(&flow);
        assert_eq!(find(&flow, 1, 1, 1).err(), answer.err());
        assert_eq!(delega(&flow, 3).err(), answer.err());
        let before = flow.clone();
        assert_eq!(correct(&mut flow, 3, 5, 1, 8, 3).err(), answer.err());
        assert_eq!(flow, before);
    }
}
