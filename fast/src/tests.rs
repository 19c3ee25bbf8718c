//! The examples of document 01, and what is peculiar to this judge: words of
//! eight digits, columns that are added with no carry, blocks of records.

use super::layout::{Record, RECORD};
use super::number::Number;
use super::words::{amount, count, Amounts, Columns};
use super::{judge, Refusal, Summary};

const MOST: u64 = 999_999_999_999_999;

// ---------------------------------------------------------------- building

/// Line subtype and the lines' debits and credits.
type Section<'a> = (u64, &'a [(u64, u64)]);

fn put(bytes: &mut [u8], position: usize, text: &str) {
    bytes[position - 1..position - 1 + text.len()].copy_from_slice(text.as_bytes());
}

/// A record of spaces with these texts at these positions.
fn record(texts: &[(usize, &str)]) -> Record {
    let mut record = [b' '; RECORD];
    texts.iter().for_each(|&(position, text)| put(&mut record, position, text));
    record
}

fn head() -> Record {
    record(&[(2, "F4"), (14, "311299"), (20, "SUPPORT-NAME 0000001")])
}

fn tail(deleghe: usize, records: usize, sum: u64) -> Record {
    let counts = format!("{deleghe:07}{sum:015}");
    record(&[(2, "EF"), (20, "SUPPORT-NAME 0000001"), (46, &counts), (83, &format!("{records:07}"))])
}

fn numbered(kind: &str, delega: usize, subtype: &str) -> Record {
    record(&[(2, kind), (4, &format!("{delega:07}{subtype}"))])
}

/// A record 10, whose code is a person's or a firm's in turn.
fn taxpayer(delega: usize) -> Record {
    numbered("10", delega, ["00743110157     ", "RSSMRA85T10A562S"][delega % 2])
}

fn line(delega: usize, subtype: u64, (debit, credit): (u64, u64)) -> Record {
    let mut record = numbered("40", delega, &format!("{subtype:02}"));
    let debit_at = match subtype {
        1 => 27,
        3 => 52,
        5 => 29,
        7 => 31,
        _ => 41,
    };
    put(&mut record, debit_at, &format!("{debit:015}{credit:015}"));
    record
}

fn balance(delega: usize, subtype: u64, debits: u64, credits: u64) -> Record {
    let mut record = numbered("40", delega, &format!("{:02}", subtype + 1));
    let sign_at = match subtype {
        5 => 45,
        7 => 47,
        _ => 43,
    };
    if subtype != 17 {
        put(&mut record, sign_at - 30, &format!("{debits:015}{credits:015}"));
    }
    let sign = if debits < credits { "N" } else { "P" };
    put(&mut record, sign_at, &format!("{sign}{:015}", debits.abs_diff(credits)));
    record
}

fn payment(delega: usize, due: u64) -> Record {
    let mut record = numbered("50", delega, "01");
    put(&mut record, 36, &format!("{due:015}"));
    record
}

/// The flow of these deleghe; a negative balance is stored as zero.
fn flow(deleghe: &[&[Section]]) -> Vec<u8> {
    let mut records = vec![head()];
    let mut total = 0;
    for (number, sections) in (1..).zip(deleghe) {
        records.extend([taxpayer(number), numbered("20", number, "")]);
        let (mut debits, mut credits) = (0, 0);
        for &(subtype, lines) in *sections {
            records.extend(lines.iter().map(|&amounts| line(number, subtype, amounts)));
            let (debit, credit) = lines.iter().fold((0, 0), |sums, line| (sums.0 + line.0, sums.1 + line.1));
            records.push(balance(number, subtype, debit, credit));
            debits += debit;
            credits += credit;
        }
        let due = u64::saturating_sub(debits, credits);
        records.push(payment(number, due));
        total += due;
    }
    records.push(tail(deleghe.len(), records.len() + 1, total));
    records.concat()
}

/// The flow of one delega with one section.
fn one(subtype: u64, lines: &[(u64, u64)]) -> Vec<u8> {
    flow(&[&[(subtype, lines)]])
}

/// Records: 1 F4, 2 10, 3 20, 4 and 5 40-05, 6 40-06, 7 50-01, 8 EF.
fn example() -> Vec<u8> {
    one(5, &[(10_000, 0), (0, 2500)])
}

/// The longest flow, of 546 records: 107 deleghe of one line, one of five.
fn longest() -> Vec<u8> {
    let short: &[Section] = &[(5, &[(1, 0)])];
    let mut deleghe = vec![short; 107];
    deleghe.push(&[(1, &[(1, 0); 5])]);
    flow(&deleghe)
}

fn with(mut flow: Vec<u8>, record: usize, position: usize, text: &str) -> Vec<u8> {
    put(&mut flow, (record - 1) * RECORD + position, text);
    flow
}

#[track_caller]
fn assert_refused(flow: &[u8], number: u8, record: usize, position: usize) {
    assert_eq!(judge(flow), Err(Refusal { number, record, position }));
}

// ---------------------------------------------------------------- examples

#[test]
fn the_printed_example() {
    let sums = [(0, 0), (0, 0), (10_000, 2500), (0, 0), (0, 0)];
    assert_eq!(judge(&example()), Ok(Summary { deleghe: 1, records: 8, total: 7500, lines: 2, sums }));
}

#[test]
fn a_blank_is_no_zero() {
    assert_refused(&with(example(), 4, 29, "00000000000750 "), 7, 4, 43);
    assert_refused(&with(example(), 4, 29, "          10000"), 7, 4, 29);
    assert_refused(&with(example(), 4, 29, "10000          "), 7, 4, 34);
    assert_refused(&with(example(), 4, 44, "               "), 7, 4, 44);
}

/// All seventeen kinds of record. Records: 1 F4; 2-14 delega 1 with the four
/// sections, one line each, and its receipts; 15-19 delega 2 with 40-17; 20 EF.
fn every_kind() -> Vec<u8> {
    let mut records = vec![head(), taxpayer(1), numbered("20", 1, "")];
    records.extend([1, 3, 5, 7].iter().flat_map(|&subtype| [line(1, subtype, (9, 0)), balance(1, subtype, 9, 0)]));
    records.extend([payment(1, 36), numbered("50", 1, "02"), numbered("50", 1, "03")]);
    records.extend([taxpayer(2), numbered("20", 2, ""), line(2, 17, (9, 0)), balance(2, 17, 9, 0)]);
    records.extend([payment(2, 9), tail(2, 20, 45)]);
    records.concat()
}

/// Its numeric fields, record by record: start and width of each.
const FIELDS: [&[(usize, usize)]; 20] = [
    &[(14, 6)],
    &[(4, 7)],
    &[(4, 7)],
    &[(4, 7), (27, 15), (42, 15)],
    &[(4, 7), (13, 15), (28, 15), (44, 15)],
    &[(4, 7), (52, 15), (67, 15)],
    &[(4, 7), (13, 15), (28, 15), (44, 15)],
    &[(4, 7), (29, 15), (44, 15)],
    &[(4, 7), (15, 15), (30, 15), (46, 15)],
    &[(4, 7), (31, 15), (46, 15)],
    &[(4, 7), (17, 15), (32, 15), (48, 15)],
    &[(4, 7), (36, 15)],
    &[(4, 7)],
    &[(4, 7)],
    &[(4, 7)],
    &[(4, 7)],
    &[(4, 7), (41, 15), (56, 15)],
    &[(4, 7), (44, 15)],
    &[(4, 7), (36, 15)],
    &[(46, 7), (53, 15), (83, 7)],
];

#[test]
fn the_very_character() {
    let sound = every_kind();
    assert_eq!(judge(&sound).map(|summary| (summary.records, summary.lines)), Ok((20, 5)));
    for (record, fields) in (1..).zip(FIELDS) {
        let positions: Vec<usize> = fields.iter().flat_map(|&(start, width)| start..start + width).collect();
        for (index, &first) in positions.iter().enumerate() {
            for text in [" ", "/", ":", "~"] {
                let flow = with(sound.clone(), record, first, text);
                assert_refused(&flow, 7, record, first);
                // A second one behind it counts for nothing, in this field or
                // in a later one.
                for &second in &positions[index + 1..] {
                    assert_refused(&with(flow.clone(), record, second, " "), 7, record, first);
                }
            }
        }
        for &(start, width) in fields {
            assert_refused(&with(sound.clone(), record, start, &"x".repeat(width)), 7, record, start);
        }
    }
}

#[test]
fn the_very_character_of_a_record_that_is_wrong_in_other_ways() {
    // Another delega's number, a zero line, a wrong total, a wrong tail.
    let number = with(example(), 4, 4, "0000009");
    assert_refused(&with(number.clone(), 4, 58, "x"), 7, 4, 58);
    assert_refused(&with(number, 4, 8, " "), 7, 4, 8);
    assert_refused(&with(one(5, &[(0, 0)]), 4, 50, "x"), 7, 4, 50);
    assert_refused(&with(with(example(), 6, 15, "999999999999999"), 6, 53, " "), 7, 6, 53);
    assert_refused(&with(with(example(), 8, 46, "0000009"), 8, 86, " "), 7, 8, 86);
}

#[test]
fn lines_beyond_the_most() {
    for (subtype, most) in [(1, 6), (3, 4), (5, 4), (7, 4), (17, 28)] {
        assert!(judge(&one(subtype, &vec![(1, 0); most])).is_ok());
        let more = one(subtype, &vec![(1, 0); most + 1]);
        assert_refused(&more, 6, 3 + most + 1, 11);
        // 6 comes before 7 and 8, and after 4.
        assert_refused(&with(more.clone(), 3 + most + 1, 4, "000000x"), 6, 3 + most + 1, 11);
        assert_refused(&with(more, 3 + most + 1, 11, "99"), 4, 3 + most + 1, 11);
    }
}

#[test]
fn lines_of_the_flow() {
    let lines = |flow: &[u8]| judge(flow).unwrap().lines;
    for (subtype, most) in [(1, 6), (3, 4), (5, 4), (7, 4), (17, 28)] {
        for count in 1..=most {
            assert_eq!(lines(&one(subtype, &vec![(1, 0); count])), count as u64);
        }
    }
    // Every set of the first four sections, which have one line, two, three and
    // four, each set followed by five lines of section 17. Each of the four is
    // in eight of the fifteen sets.
    const SECTIONS: [Section; 4] =
        [(1, &[(1, 0)]), (3, &[(2, 1); 2]), (5, &[(0, 1), (1, 1), (5, 0)]), (7, &[(1, 0); 4])];
    const IDENTIFYING: &[Section] = &[(17, &[(1, 0); 5])];
    let sets: Vec<Vec<Section>> = (1..16)
        .map(|set| (0..4).filter(|section| set >> section & 1 == 1).map(|section| SECTIONS[section]).collect())
        .collect();
    for (set, expected) in sets.iter().zip([1, 2, 3, 3, 4, 5, 6, 4, 5, 6, 7, 7, 8, 9, 10]) {
        assert_eq!(lines(&flow(&[set])), expected);
        assert_eq!(lines(&flow(&[set, IDENTIFYING, set])), 2 * expected + 5);
    }
    let all: Vec<&[Section]> = sets.iter().flat_map(|set| [&set[..], IDENTIFYING]).collect();
    assert_eq!(lines(&flow(&all)), 8 * (1 + 2 + 3 + 4) + 15 * 5);
    // Receipts are no lines: with both of them, with the first alone, with none.
    let mut flow = every_kind();
    assert_eq!(lines(&flow), 5);
    for receipt in [14, 13] {
        flow.drain((receipt - 1) * RECORD..receipt * RECORD);
        let records = flow.len() / RECORD;
        flow = with(flow, records, 83, &format!("{records:07}"));
        assert_eq!(lines(&flow), 5);
    }
}

#[test]
fn line_amounts() {
    for (subtype, debit_at) in [(1, 27), (3, 52), (5, 29), (7, 31), (17, 41)] {
        assert_refused(&one(subtype, &[(5, 0), (0, 0)]), 9, 5, debit_at);
        assert_eq!(judge(&one(subtype, &[(5, 5)])).is_ok(), subtype != 17);
    }
    assert_refused(&one(17, &[(0, 5)]), 9, 4, 56);
    assert_refused(&one(17, &[(100, 1)]), 9, 4, 56);
}

#[test]
fn lengths() {
    let mut longest = longest();
    assert_eq!(longest.len(), 65_520);
    let summary = judge(&longest).unwrap();
    assert_eq!((summary.deleghe, summary.records, summary.total, summary.lines), (108, 546, 112, 112));
    longest.push(b' ');
    assert_refused(&longest, 1, 0, 0);
    assert_refused(&[b' '; 119], 2, 0, 0);
    assert_refused(&[], 2, 0, 0);
}

#[test]
fn the_order_of_records() {
    assert_refused(&[head(), tail(0, 2, 0)].concat(), 4, 2, 2);
    assert_refused(&head(), 5, 2, 0);
    let flow = example();
    for records in 1..8 {
        assert_refused(&flow[..records * RECORD], 5, records + 1, 0);
    }
    // A second EF, and a second 50-01 before it.
    let again = |at: usize| [&flow[..at * RECORD], &flow[(at - 1) * RECORD..]].concat();
    assert_refused(&again(8), 4, 9, 2);
    assert_refused(&again(7), 4, 8, 11);
    assert_refused(&again(6), 4, 7, 11);
    assert_refused(&with(flow.clone(), 5, 11, "03"), 4, 5, 11);
    assert_refused(&with(flow, 3, 2, "40"), 4, 3, 2);
}

#[test]
fn a_negative_section_and_a_negative_delega() {
    let regioni: Section = (5, &[(2500, 0), (0, 10_000)]);
    let sound = flow(&[&[(1, &[(7500, 0)]), regioni]]);
    assert_eq!(judge(&sound).unwrap().total, 0);
    assert_eq!(sound[7 * RECORD + 44], b'N');
    assert_refused(&flow(&[&[(1, &[(7499, 0)]), regioni]]), 14, 9, 2);
}

#[test]
fn totals_sign_and_balance() {
    let mut record = 3;
    let sections: &[Section] = &[(1, &[(9, 1)]), (3, &[(9, 1)]), (5, &[(9, 1)]), (7, &[(9, 1)])];
    let flow = flow(&[sections]);
    for sign_at in [43, 43, 45, 47] {
        record += 2;
        let seven = "000000000000007";
        assert_refused(&with(flow.clone(), record, sign_at - 30, seven), 10, record, sign_at - 30);
        assert_refused(&with(flow.clone(), record, sign_at - 15, seven), 11, record, sign_at - 15);
        assert_refused(&with(flow.clone(), record, sign_at, "N"), 12, record, sign_at);
        assert_refused(&with(flow.clone(), record, sign_at + 1, seven), 13, record, sign_at + 1);
        assert_refused(&with(flow.clone(), record, sign_at + 9, "x"), 7, record, sign_at + 9);
    }
    assert_refused(&with(one(5, &[(5, 5)]), 5, 45, "N"), 12, 5, 45);
}

#[test]
fn head_and_tail() {
    for date in ["000199", "320199", "010099", "011399", "310215", "290215", "310416"] {
        let flow = with(example(), 1, 14, date);
        assert_refused(&flow, 17, 1, 14);
        // 7, then 16, then 17.
        assert_refused(&with(flow.clone(), 1, 39, ":"), 16, 1, 20);
        for position in 14..20 {
            assert_refused(&with(with(flow.clone(), 1, 39, ":"), 1, position, " "), 7, 1, position);
            assert_refused(&with(flow.clone(), 1, position, "x"), 7, 1, position);
        }
        // The tail's own is not read.
        assert_eq!(judge(&with(example(), 8, 14, date)), judge(&example()));
    }
    assert_refused(&with(example(), 1, 14, "31129a"), 7, 1, 19);
    for position in 20..40 {
        assert_refused(&with(example(), 1, position, "/"), 16, 1, 20);
        assert_refused(&with(example(), 1, position, ":"), 16, 1, 20);
        assert_refused(&with(example(), 8, position, "#"), 16, 8, 20);
    }
    assert_refused(&with(example(), 8, 46, "0000002"), 18, 8, 46);
    assert_refused(&with(example(), 8, 83, "0000007"), 19, 8, 83);
    assert_refused(&with(example(), 8, 53, "000000000007501"), 20, 8, 53);
    assert_refused(&with(with(example(), 8, 60, " "), 8, 83, " "), 7, 8, 60);
}

/// Which six digits are a date: walked from 1 January 2000 to 31 December 2099,
/// each day from the one before.
fn century() -> Vec<bool> {
    const ENDS: &str = "3101 2802 3103 3004 3105 3006 3107 3108 3009 3110 3011 3112";
    let mut is_date = vec![false; 1_000_000];
    let (mut day, mut month, mut year) = (1, 1, 0);
    let mut years_to_leap = 0;
    while year < 100 {
        is_date[day * 10_000 + month * 100 + year] = true;
        let leap = years_to_leap == 0;
        let today = format!("{day:02}{month:02}");
        let ends = today == "2902" || (ENDS.contains(&today) && !(leap && today == "2802"));
        day += 1;
        if ends {
            day = 1;
            month += 1;
        }
        if month == 13 {
            month = 1;
            year += 1;
            years_to_leap = if leap { 3 } else { years_to_leap - 1 };
        }
    }
    is_date
}

#[test]
fn every_six_digits_as_the_date() {
    let is_date = century();
    assert_eq!(is_date.iter().filter(|&&is_date| is_date).count(), 36_525);
    let mut flow = example();
    let accepted = judge(&flow);
    for (date, is_date) in is_date.into_iter().enumerate() {
        put(&mut flow, 14, &format!("{date:06}"));
        let refused = Err(Refusal { number: 17, record: 1, position: 14 });
        assert_eq!(judge(&flow), if is_date { accepted } else { refused }, "{date:06}");
    }
}

// --------------------------------------------------------------- tax codes

/// The letters in the order of what they count in odd places, from 0 on, as the
/// decree's table has it when it is turned round.
const BY_VALUE: &str = "BAKPLCQDREVOSFTGUHMINJWZYX";

/// What stands in the seven places for digits.
const DIGITS: &str = "0123456789LMNPQRSTUV";

fn in_digits_place(place: usize) -> bool {
    [7, 8, 10, 11, 13, 14, 15].contains(&place)
}

/// Whether there can be such a code, told from texts and with no table of
/// numbers.
fn can_be(code: &str) -> bool {
    if let Some(digits) = code.strip_suffix("     ") {
        let value = |(place, digit): (usize, char)| match place % 2 {
            1 => "0246813579".chars().nth(digit.to_digit(10)? as usize)?.to_digit(10),
            _ => digit.to_digit(10),
        };
        let sum: Option<u32> = digits.chars().enumerate().map(value).sum();
        return digits.len() == 11 && sum.map_or(false, |sum| sum % 10 == 0);
    }
    let held = |(place, held): (usize, char)| match in_digits_place(place) {
        true => DIGITS.contains(held),
        false => BY_VALUE.contains(held),
    };
    let value = |(place, held): (usize, char)| {
        let place_from_a = held.to_digit(10).unwrap_or_else(|| held as u32 - 'A' as u32);
        match place % 2 {
            0 => place_from_a,
            _ => BY_VALUE.find((b'A' + place_from_a as u8) as char).unwrap() as u32,
        }
    };
    (1..).zip(code.chars()).all(held)
        && code[15..]
            == ((b'A' + ((1..).zip(code[..15].chars()).map(value).sum::<u32>() % 26) as u8) as char).to_string()
}

#[track_caller]
fn assert_code(code: &str) -> bool {
    let flow = with(example(), 2, 11, code);
    match can_be(code) {
        true => assert_eq!(judge(&flow), judge(&example()), "{code}"),
        false => assert_refused(&flow, 26, 2, 11),
    }
    can_be(code)
}

#[test]
fn codes_of_the_request() {
    assert!(assert_code("RSSMRA85T10A562S"));
    assert!(!assert_code("RSSMRA85T10A562T"));
    for code in ["00000000000     ", "00743110157     ", "12345678903     ", "99999999990     ", "XZXZXZ9VXV9Z9V9J"] {
        assert!(assert_code(code));
    }
    for code in [
        "                ",
        "0000000000000000",
        " 00743110157    ",
        "0074311015      ",
        "007431101570    ",
        "00743110157    0",
        "00743110157A    ",
        "00743110157    ~",
        "0074311015:     ",
        "/0743110157     ",
        "rssmra85t10a562s",
        "RSSMRA85T10A562s",
        "RSSMRA85T10A562 ",
        " RSSMRA85T10A562",
        "RSSMRA85T1OA562S",
    ] {
        assert!(!assert_code(code));
    }
}

#[test]
fn every_character_in_every_place_of_a_code() {
    // Behind each, every last character.
    for (first, passing) in [("RSSMRA85T10A562", 26 * 8 + 20 * 7), ("BABABALVBVLAVLV", 26 * 8 + 20 * 7)] {
        let mut passed = 0;
        for place in 0..15 {
            for byte in 32..=126_u8 {
                let mut code = format!("{first} ").into_bytes();
                code[place] = byte;
                for last in 32..=126 {
                    code[15] = last;
                    passed += usize::from(assert_code(std::str::from_utf8(&code).unwrap()));
                }
            }
        }
        assert_eq!(passed, passing);
    }
}

#[test]
fn every_two_digits_of_a_firms_code() {
    for one in 0..11 {
        for other in one + 1..11 {
            for digits in 0..100 {
                let mut code = *b"00743110157     ";
                (code[one], code[other]) = (b'0' + digits / 10, b'0' + digits % 10);
                assert_code(std::str::from_utf8(&code).unwrap());
            }
        }
    }
    for place in 0..16 {
        for byte in 32..=126 {
            let mut code = *b"00000000000     ";
            code[place] = byte;
            assert_code(std::str::from_utf8(&code).unwrap());
        }
    }
}

#[test]
fn sums_beyond_a_byte() {
    let mut passed = 0;
    for digits in ["9V", "0L", "VV", "U9"] {
        for letters in ["XZ", "YZ", "ZX", "AB"] {
            for last in 'A'..='Z' {
                let in_place = |place: usize| if in_digits_place(place) { digits } else { letters };
                let mut code: String =
                    (1..16).map(|place| &in_place(place)[(place + 1) % 2..=(place + 1) % 2]).collect();
                code.push(last);
                passed += usize::from(assert_code(&code));
            }
        }
    }
    assert_eq!(passed, 16);
}

#[test]
fn the_code_among_other_faults() {
    let wrong = with(example(), 2, 26, "T");
    assert_refused(&wrong, 26, 2, 11);
    for position in [1, 4, 11, 26, 27, 120] {
        assert_refused(&with(wrong.clone(), 2, position, "\t"), 3, 2, position);
    }
    assert_refused(&with(wrong.clone(), 2, 2, "20"), 4, 2, 2);
    for position in 4..=10 {
        assert_refused(&with(wrong.clone(), 2, position, "x"), 7, 2, position);
        assert_refused(&with(wrong.clone(), 2, position, "7"), 8, 2, 4);
    }
    // Before every fault of the records behind it, and after the head's.
    for (record, position, text) in [(3, 1, "\t"), (3, 2, "10"), (3, 4, "x"), (3, 10, "2"), (8, 46, "x")] {
        assert_refused(&with(wrong.clone(), record, position, text), 26, 2, 11);
    }
    assert_refused(&wrong[..2 * RECORD], 26, 2, 11);
    assert_refused(&with(wrong, 1, 14, "310215"), 17, 1, 14);
    // In every delega, in and beside the blocks that are tested at once.
    let sound = longest();
    for record in (2..=537).step_by(5) {
        assert_refused(&with(sound.clone(), record, 18, "~"), 26, record, 11);
    }
}

// ------------------------------------------------------- words and columns

#[test]
fn every_character_in_every_place_of_a_field() {
    for place in 0..15 {
        for byte in 32..=126_u8 {
            let mut digits = *b"123456789012345";
            digits[place] = byte;
            let text = String::from_utf8(digits.to_vec()).unwrap();
            for around in [b' ', b'9', b'~'] {
                let mut record = [around; RECORD];
                put(&mut record, 29, &text);
                assert_eq!(amount(&record, 29), text.parse().ok().filter(|_| byte.is_ascii_digit()));
                put(&mut record, 44, "000000000000007");
                assert_eq!(Amounts::read(&record, 29).is_some(), byte.is_ascii_digit());
                let seven = text[..7].parse().ok().filter(|_| place > 6 || byte.is_ascii_digit());
                assert_eq!(count(&record, 29), seven);
            }
        }
    }
}

#[test]
fn columns_hold_the_most_lines_of_nines() {
    let record = line(1, 17, (MOST, MOST));
    let nines = Amounts::read(&record, 41).unwrap();
    let mut columns = Columns::ZERO;
    for lines in 1..=28 {
        columns = columns.plus(nines);
        assert_eq!(columns.sums(), (lines * MOST, lines * MOST));
    }
}

#[test]
fn sums_beyond_fifteen_digits_are_not_reduced() {
    let two = [line(1, 1, (MOST, 0)), line(1, 1, (1, 0))].concat();
    let begun = [head(), taxpayer(1), numbered("20", 1, "")].concat();
    assert_refused(&[begun, two, balance(1, 1, 0, 0).to_vec()].concat(), 10, 6, 13);
    let part: &[Section] = &[(1, &[(MOST, MOST)])];
    let summary = judge(&flow(&[part, part, part])).unwrap();
    assert_eq!((summary.total, summary.sums[0]), (0, (3 * MOST, 3 * MOST)));
}

#[test]
fn numbers_of_deleghe() {
    let mut number = Number::ZERO;
    for expected in 1..=1100 {
        number = number.next();
        assert!(number.is_in(&taxpayer(expected), b'1'));
        assert!(number.is_in_part(&numbered("40", expected, "17"), b"4000", *b"17"));
    }
    for place in 4..=10 {
        for (record, other) in [(2, "9"), (3, "9"), (4, "9"), (6, "9"), (7, "9")] {
            assert_refused(&with(example(), record, place, other), 8, record, 4);
            assert_refused(&with(example(), record, place, "x"), 7, record, place);
        }
    }
}

// ------------------------------------------------------------------ blocks

#[test]
fn every_byte_in_a_filler() {
    for byte in 0..=255 {
        let mut flow = example();
        flow[3 * RECORD + 59] = byte;
        match byte {
            32..=126 => assert!(judge(&flow).is_ok()),
            _ => assert_refused(&flow, 3, 4, 60),
        }
    }
}

#[test]
fn a_bad_byte_anywhere() {
    let sound = longest();
    for record in 1..=546 {
        for position in [1, 2, 16, 17, 104, 105, 112, 113, 120] {
            let mut flow = sound.clone();
            flow[(record - 1) * RECORD + position - 1] = 127;
            assert_refused(&flow, 3, record, position);
            // The first of two, and not before the fault of an earlier record.
            flow[546 * RECORD - 1] = 31;
            assert_refused(&flow, 3, record, position);
            if record > 2 {
                put(&mut flow, RECORD + 4, "0000002");
                assert_refused(&flow, 8, 2, 4);
            }
        }
    }
}

#[test]
fn a_bad_byte_after_the_end() {
    let mut flow = example();
    flow.extend_from_slice(&[b' '; RECORD]);
    assert_refused(&flow, 4, 9, 2);
    *flow.last_mut().unwrap() = 0;
    assert_refused(&flow, 3, 9, 120);
}
