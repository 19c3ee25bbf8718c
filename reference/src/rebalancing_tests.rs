//! What document 02 says of rebalancing, fact by fact.

use super::layout::Record;
use super::tests::*;
use super::*;

const MOST: u64 = 999_999_999_999_999;

/// The stored fields of `every_kind`, record by record: start and width of each.
const STORED: [(usize, &[(usize, usize)]); 8] = [
    (5, &[(13, 15), (28, 15), (43, 1), (44, 15)]),
    (7, &[(13, 15), (28, 15), (43, 1), (44, 15)]),
    (9, &[(15, 15), (30, 15), (45, 1), (46, 15)]),
    (11, &[(17, 15), (32, 15), (47, 1), (48, 15)]),
    (12, &[(36, 15)]),
    (18, &[(43, 1), (44, 15)]),
    (19, &[(36, 15)]),
    (20, &[(46, 7), (53, 15), (83, 7)]),
];

fn all_stored() -> Vec<(usize, usize, usize)> {
    let fields = |&(record, fields): &(usize, &'static [(usize, usize)])| {
        fields
            .iter()
            .map(move |&(start, width)| (record, start, width))
    };
    STORED.iter().flat_map(fields).collect()
}

/// The flow of every kind of record with all stored fields full of this text.
fn filled(text: &str) -> Vec<u8> {
    let fill = |flow, (record, start, width)| with(flow, record, start, &text.repeat(width));
    all_stored().into_iter().fold(every_kind(), fill)
}

type Listed = Vec<(usize, usize)>;

/// Asks with a list of so many numbers, and looks at every one of them and at
/// every byte of the flow: the flow afterwards and the fields listed.
#[track_caller]
fn asked(flow: &[u8], numbers: usize) -> Result<(Vec<u8>, Listed), Refusal> {
    let before: Vec<u64> = (0..numbers as u64).map(|at| u64::MAX - 7 * at).collect();
    let (mut after, mut list) = (flow.to_vec(), before.clone());
    match rebalance(&mut after, &mut list) {
        Ok(listed) => {
            assert_eq!(list[2 * listed..], before[2 * listed..]);
            let pairs = list[..2 * listed].chunks(2);
            let pairs: Listed = pairs
                .map(|pair| (pair[0] as usize, pair[1] as usize))
                .collect();
            Ok((after, pairs))
        }
        Err(refusal) => {
            assert_eq!(after, flow);
            assert_eq!(list, before);
            Err(refusal)
        }
    }
}

/// A list that is long enough for every flow.
const LONG: usize = 4368;

#[track_caller]
fn assert_mended(flow: &[u8], after: &[u8], listed: &[(usize, usize)]) {
    let need = 2 * listed.len();
    for numbers in [need, need + 1, need + 2, need + 7, LONG] {
        let (mended, pairs) = asked(flow, numbers).unwrap();
        assert_eq!(pairs, listed, "with {numbers} numbers");
        assert!(mended == after, "with {numbers} numbers");
    }
    for numbers in [0, need.saturating_sub(2), need.saturating_sub(1)] {
        if numbers / 2 < listed.len() {
            assert_eq!(asked(flow, numbers), Err(refused(27, 0, 0)));
        }
    }
    // "After it the flow is accepted"; a second rebalancing changes nothing.
    assert!(judge(after).is_ok());
    assert_eq!(asked(after, 0), Ok((after.to_vec(), vec![])));
}

#[track_caller]
fn assert_refused(flow: &[u8], number: u8, record: usize, position: usize) {
    for numbers in [0, 1, 2, 3, LONG, LONG + 1] {
        assert_eq!(asked(flow, numbers), Err(refused(number, record, position)));
    }
}

// ------------------------------------------------------------- what is mended

#[test]
fn an_accepted_flow_comes_back_untouched_with_an_empty_list() {
    let deleghe: [&[Built]; 2] = [&[(1, &[(5, 0)])], &[(17, &[(7, 0)])]];
    for flow in [example(), every_kind(), whole(&deleghe)] {
        assert_mended(&flow, &flow, &[]);
        assert_eq!(asked(&flow, 0), Ok((flow.clone(), vec![])));
        assert_eq!(asked(&flow, 1), Ok((flow.clone(), vec![])));
    }
}

#[test]
fn the_table_has_the_stored_fields_of_every_kind_of_record() {
    // All numeric fields but dates, numbers and the amounts of lines, and the
    // signs, which stand before the section balances.
    let lines = [4, 6, 8, 10, 17];
    let mut fields = Vec::new();
    for (record, numeric) in FIELDS {
        for &(start, width) in numeric {
            if start == 4 || record == 1 || lines.contains(&record) {
                continue;
            }
            if [5, 7, 9, 11, 18].contains(&record) && [44, 46, 48].contains(&start) {
                fields.push((record, start - 1, 1));
            }
            fields.push((record, start, width));
        }
    }
    assert_eq!(fields, all_stored());
}

#[test]
fn each_stored_field_alone() {
    let sound = every_kind();
    for (record, start, width) in all_stored() {
        for text in ["7", " ", "x", "~", "-", "p", "/", ":", "N"] {
            let flow = with(sound.clone(), record, start, &text.repeat(width));
            assert!(flow != sound && judge(&flow).is_err());
            assert_mended(&flow, &sound, &[(record, start)]);
        }
    }
}

#[test]
fn each_character_of_each_stored_field() {
    let sound = every_kind();
    for (record, start, width) in all_stored() {
        for place in start..start + width {
            for byte in 32..=126_u8 {
                let mut flow = sound.clone();
                let at = (record - 1) * 120 + place - 1;
                flow[at] = byte;
                let listed = if flow == sound {
                    vec![]
                } else {
                    vec![(record, start)]
                };
                assert_eq!(asked(&flow, 2), Ok((sound.clone(), listed)));
            }
        }
    }
}

#[test]
fn all_stored_fields_in_the_order_of_the_bytes() {
    let fields = all_stored();
    let listed: Listed = fields.iter().map(|field| (field.0, field.1)).collect();
    assert_eq!(listed[listed.len() - 3..], [(20, 46), (20, 53), (20, 83)]);
    let sound = every_kind();
    for text in [" ", "x", "9"] {
        assert_mended(&filled(text), &sound, &listed);
    }
    // Zeros are right in the total credits and nowhere else.
    let credits = [(5, 28), (7, 28), (9, 30), (11, 32)];
    let others: Listed = listed
        .into_iter()
        .filter(|field| !credits.contains(field))
        .collect();
    assert_mended(&filled("0"), &sound, &others);
}

#[test]
fn two_fields_in_every_pair() {
    let sound = every_kind();
    let fields = all_stored();
    for (nth, &(record, start, width)) in fields.iter().enumerate() {
        for &(other, other_start, other_width) in &fields[nth + 1..] {
            let flow = with(sound.clone(), record, start, &"8".repeat(width));
            let flow = with(flow, other, other_start, &" ".repeat(other_width));
            let listed = [(record, start), (other, other_start)];
            assert_mended(&flow, &sound, &listed);
        }
    }
}

#[test]
fn signs_are_fields_of_their_own() {
    // 01: N when debits are below credits, P in all other cases, zero included.
    let regioni: Built = (5, &[(2500, 0), (0, 10000)]);
    let sound = whole(&[&[(1, &[(7500, 0)]), regioni]]);
    assert_eq!(sound[4 * 120 + 42], b'P');
    assert_eq!(sound[7 * 120 + 44], b'N');
    for sign in ["P", " ", "n", "-", "0"] {
        let flow = with(sound.clone(), 8, 45, sign);
        assert_mended(&flow, &sound, &[(8, 45)]);
    }
    let zero = one(3, &[(5, 5)]);
    assert_mended(&with(zero.clone(), 5, 43, "N"), &zero, &[(5, 43)]);
    // A balance that is turned round by a sign: both are wrong.
    let flow = with(sound.clone(), 8, 45, "P000000000007501");
    assert_mended(&flow, &sound, &[(8, 45), (8, 46)]);
}

#[test]
fn a_line_was_raised_after_balancing() {
    // The line's debit is another than the one that the rest was worked out from.
    let flow = with(example(), 4, 29, "000000000012000");
    let sound = one(5, &[(12000, 0), (0, 2500)]);
    assert_eq!(judge(&flow), Err(refused(10, 6, 15)));
    assert_mended(&flow, &sound, &[(6, 15), (6, 46), (7, 36), (8, 53)]);

    // A credit that turns the section round, in the second of two deleghe.
    let erario: Built = (1, &[(90_000, 0)]);
    let before: &[Built] = &[erario, (5, &[(10000, 0), (0, 2500)])];
    let after: &[Built] = &[erario, (5, &[(10000, 0), (0, 25000)])];
    let first: &[Built] = &[(17, &[(1, 0), (2, 0)])];
    let flow = with(whole(&[first, before]), 13, 44, "000000000025000");
    assert_mended(
        &flow,
        &whole(&[first, after]),
        &[(14, 30), (14, 45), (14, 46), (15, 36), (16, 53)],
    );
}

#[test]
fn a_line_too_few_and_a_delega_too_few() {
    let first: &[Built] = &[(1, &[(5, 0), (6, 1)]), (3, &[(9, 2)])];
    let second: &[Built] = &[(17, &[(7, 0)])];
    // Without record 5, its second line.
    let mut flow = whole(&[first, second]);
    flow.drain(4 * 120..5 * 120);
    let fewer: &[Built] = &[(1, &[(5, 0)]), (3, &[(9, 2)])];
    assert_mended(
        &flow,
        &whole(&[fewer, second]),
        &[(5, 13), (5, 28), (5, 44), (8, 36), (14, 53), (14, 83)],
    );
    // Without its second delega, records 10 to 14.
    let mut flow = whole(&[first, second]);
    flow.drain(9 * 120..14 * 120);
    assert_mended(&flow, &whole(&[first]), &[(10, 46), (10, 53), (10, 83)]);
}

#[test]
fn sums_start_at_zero_for_every_delega() {
    let delega: &[Built] = &[(5, &[(10000, 0), (0, 2500)])];
    let sound = whole(&[delega; 12]);
    let mut flow = sound.clone();
    let mut listed = Vec::new();
    for number in 0..12 {
        let record = 6 + 6 * number;
        flow = with(flow, record, 30, "               ");
        flow = with(flow, record + 1, 36, "000000000000000");
        listed.extend([(record, 30), (record + 1, 36)]);
    }
    assert_mended(&flow, &sound, &listed);
}

#[test]
fn what_is_not_stored_is_not_touched() {
    // All that nobody reads holds letters: 40-18's 13-42, 50-01's 79-93, EF's
    // date and its 68-82 among it.
    let read: &[&[(usize, usize)]] = &[
        &[(2, 2), (14, 6), (20, 20)],
        &[(2, 2), (4, 23)],
        &[(2, 2), (4, 7)],
        &[(2, 2), (4, 9), (27, 30)],
        &[(2, 2), (4, 9), (13, 46)],
        &[(2, 2), (4, 9), (52, 30)],
        &[(2, 2), (4, 9), (13, 46)],
        &[(2, 2), (4, 9), (29, 30)],
        &[(2, 2), (4, 9), (15, 46)],
        &[(2, 2), (4, 9), (31, 30)],
        &[(2, 2), (4, 9), (17, 46)],
        &[(2, 2), (4, 9), (36, 15)],
        &[(2, 2), (4, 9)],
        &[(2, 2), (4, 9)],
        &[(2, 2), (4, 23)],
        &[(2, 2), (4, 7)],
        &[(2, 2), (4, 9), (41, 30)],
        &[(2, 2), (4, 9), (43, 16)],
        &[(2, 2), (4, 9), (36, 15)],
        &[(2, 2), (20, 20), (46, 22), (83, 7)],
    ];
    let sound = every_kind();
    let mut lettered = vec![b'k'; sound.len()];
    for (record, fields) in read.iter().enumerate() {
        for &(start, width) in *fields {
            let place = record * 120 + start - 1..record * 120 + start - 1 + width;
            lettered[place.clone()].copy_from_slice(&sound[place]);
        }
    }
    assert!(judge(&lettered).is_ok());
    assert_mended(&lettered, &lettered, &[]);
    let mut flow = lettered.clone();
    for (record, start, width) in all_stored() {
        flow = with(flow, record, start, &" ".repeat(width));
    }
    let listed: Listed = all_stored()
        .iter()
        .map(|field| (field.0, field.1))
        .collect();
    assert_mended(&flow, &lettered, &listed);
}

#[test]
fn the_longest_flow_and_the_longest_list() {
    let short: &[Built] = &[(5, &[(1, 0)])];
    let mut deleghe = vec![short; 107];
    deleghe.push(&[(1, &[(1, 0); 5])]);
    let sound = whole(&deleghe);
    assert_eq!(sound.len(), 65_520);
    let mut flow = sound.clone();
    for record in 1..=546 {
        let at = (record - 1) * 120;
        let fields: &[(usize, usize)] = match (&flow[at + 1..at + 3], &flow[at + 10..at + 12]) {
            (b"40", b"06") => &[(15, 46)],
            (b"40", b"02") => &[(13, 46)],
            (b"50", _) => &[(36, 15)],
            (b"EF", _) => &[(46, 22), (83, 7)],
            _ => &[],
        };
        for &(start, width) in fields {
            flow = with(flow, record, start, &" ".repeat(width));
        }
    }
    // Five fields for each delega, three in the tail.
    let (after, listed) = asked(&flow, 2 * (5 * 108 + 3)).unwrap();
    assert_eq!(listed.len(), 5 * 108 + 3);
    assert_eq!(listed[..5], [(5, 15), (5, 30), (5, 45), (5, 46), (6, 36)]);
    assert!(after == sound);
    assert_eq!(asked(&flow, 2 * (5 * 108 + 3) - 1), Err(refused(27, 0, 0)));
    flow.push(b' ');
    assert_refused(&flow, 1, 0, 0);
}

// ------------------------------------------------------------ what is refused

/// Faults that remain, each in a flow of every kind of record: where it is told,
/// and the flow with it.
fn remaining_faults() -> Vec<((u8, usize, usize), Vec<u8>)> {
    let sound = every_kind;
    let mut faults = vec![
        ((1, 0, 0), [sound(), vec![b' '; 65_000]].concat()),
        ((2, 0, 0), sound()[..20 * 120 - 1].to_vec()),
        ((2, 0, 0), [sound(), vec![b' ']].concat()),
        ((3, 1, 1), with(sound(), 1, 1, "\u{1f}")),
        ((3, 20, 120), with(sound(), 20, 120, "\u{7f}")),
        ((3, 5, 2), with(sound(), 5, 2, "\n")),
        ((4, 2, 2), with(sound(), 2, 2, "20")),
        ((4, 5, 11), with(sound(), 5, 11, "04")),
        ((4, 12, 2), with(sound(), 12, 2, "EF")),
        ((4, 13, 11), with(sound(), 13, 11, "01")),
        ((4, 20, 2), with(sound(), 20, 2, "F4")),
        ((4, 21, 2), [sound(), tail(2, 21, 45).to_vec()].concat()),
        ((5, 20, 0), sound()[..19 * 120].to_vec()),
        ((5, 2, 0), sound()[..120].to_vec()),
        ((9, 4, 27), with(sound(), 4, 27, &"0".repeat(30))),
        ((9, 6, 52), with(sound(), 6, 52, &"0".repeat(30))),
        ((9, 8, 29), with(sound(), 8, 29, &"0".repeat(30))),
        ((9, 10, 31), with(sound(), 10, 31, &"0".repeat(30))),
        ((9, 17, 41), with(sound(), 17, 41, &"0".repeat(30))),
        ((9, 17, 56), with(sound(), 17, 56, "000000000000001")),
        ((14, 12, 2), with(sound(), 4, 42, "000000000000037")),
        ((16, 1, 20), with(sound(), 1, 39, "/")),
        ((16, 1, 20), with(sound(), 1, 20, ":")),
        ((16, 20, 20), with(sound(), 20, 39, " ")),
        ((16, 20, 20), with(sound(), 20, 20, "s")),
        ((17, 1, 14), with(sound(), 1, 14, "310216")),
        ((26, 2, 11), with(sound(), 2, 11, "RSSMRA85T10A562T")),
        ((26, 15, 11), with(sound(), 15, 26, "a")),
    ];
    // 7 at the very character of every field that is not rewritten, and 8 in
    // every record that has a number.
    let stored = all_stored();
    for (record, fields) in FIELDS {
        for &(start, width) in fields {
            if stored.contains(&(record, start, width)) {
                continue;
            }
            for place in start..start + width {
                let flow = with(sound(), record, place, " ");
                faults.push(((7, record, place), flow));
            }
            if start == 4 {
                faults.push(((8, record, 4), with(sound(), record, 4, "0000003")));
            }
        }
    }
    faults
}

#[test]
fn every_remaining_fault_is_that_of_the_judgement() {
    let mut numbers = Vec::new();
    for ((number, record, position), flow) in remaining_faults() {
        // The lines of a negative delega are not those that the totals are of.
        let judged = judge(&flow).map(drop).unwrap_err();
        let told = if number == 14 {
            (11, 5, 28)
        } else {
            (number, record, position)
        };
        assert_eq!(judged, refused(told.0, told.1, told.2));
        assert_refused(&flow, number, record, position);
        numbers.push(number);
    }
    numbers.sort_unstable();
    numbers.dedup();
    // 6 and 23 have tests of their own.
    assert_eq!(numbers, [1, 2, 3, 4, 5, 7, 8, 9, 14, 16, 17, 26]);
}

#[test]
fn every_remaining_fault_stops_it_behind_and_before_stored_fields_that_are_wrong() {
    for ((number, record, position), flow) in remaining_faults() {
        for text in [" ", "x", "0", "9"] {
            let mut flow = flow.clone();
            for (at, start, width) in all_stored() {
                if at * 120 <= flow.len() {
                    flow = with(flow, at, start, &text.repeat(width));
                }
            }
            assert_refused(&flow, number, record, position);
        }
    }
}

#[test]
fn lines_beyond_the_most() {
    for (subtype, most) in [(1, 6), (3, 4), (5, 4), (7, 4), (17, 28)] {
        let sound = one(subtype, &vec![(1, 0); most]);
        assert_mended(&sound, &sound, &[]);
        let more = one(subtype, &vec![(1, 0); most + 1]);
        assert_refused(&more, 6, 3 + most + 1, 11);
        // The balance record behind it is as wrong as can be.
        let wrong = with(more, 3 + most + 2, 13, &" ".repeat(50));
        assert_refused(&wrong, 6, 3 + most + 1, 11);
    }
}

#[test]
fn a_bad_byte_stops_it_in_a_stored_field_too() {
    for (record, start, width) in all_stored() {
        for place in [start, start + width - 1] {
            for byte in [0, 10, 31, 127, 128, 255] {
                let mut flow = every_kind();
                flow[(record - 1) * 120 + place - 1] = byte;
                assert_refused(&flow, 3, record, place);
                // And where every stored field is wrong, the bad one too.
                let mut flow = filled(" ");
                flow[(record - 1) * 120 + place - 1] = byte;
                assert_refused(&flow, 3, record, place);
            }
        }
    }
}

#[test]
fn faults_10_to_13_15_and_18_to_20_do_not_stop_it() {
    let sound = example();
    for (number, record, position, width) in [
        (10, 6, 15, 15),
        (11, 6, 30, 15),
        (12, 6, 45, 1),
        (13, 6, 46, 15),
        (15, 7, 36, 15),
        (18, 8, 46, 7),
        (19, 8, 83, 7),
        (20, 8, 53, 15),
    ] {
        let wrong = if width == 1 { "N" } else { "0000000" };
        let wrong = if number == 11 { "1111111" } else { wrong };
        let wrong = if [10, 13, 15, 20].contains(&number) {
            "1000000"
        } else {
            wrong
        };
        let flow = with(sound.clone(), record, position, wrong);
        assert_eq!(judge(&flow), Err(refused(number, record, position)));
        assert_mended(&flow, &sound, &[(record, position)]);
        if width > 1 {
            let flow = with(sound.clone(), record, position + width - 1, "A");
            assert_eq!(judge(&flow), Err(refused(7, record, position + width - 1)));
            assert_mended(&flow, &sound, &[(record, position)]);
        }
    }
}

#[test]
fn the_tails_name_stays() {
    // Not equal to the head's: 16, and it is not rewritten.
    let flow = with(filled(" "), 20, 25, "x");
    assert_refused(&flow, 16, 20, 20);
    // The rule of slash and colon is the head's alone, so equal names with one
    // are refused at record 1.
    let flow = with(with(every_kind(), 1, 25, "/"), 20, 25, "/");
    assert_refused(&flow, 16, 1, 20);
    assert_refused(&with(every_kind(), 20, 25, "/"), 16, 20, 20);
}

#[test]
fn checks_of_a_record_go_by_their_numbers() {
    // In a balance record 3, 4, 7, 8; what is stored in it plays no part.
    let flow = with(filled(" "), 9, 4, "000000 ");
    assert_refused(&flow, 7, 9, 10);
    assert_refused(&with(flow.clone(), 9, 11, "08"), 4, 9, 11);
    assert_refused(&with(flow, 9, 60, "\u{1}"), 3, 9, 60);
    // In 50-01 3, 4, 7, 8, 14.
    let flow = with(filled(" "), 4, 42, "000000000000037");
    assert_refused(&flow, 14, 12, 2);
    let flow = with(flow, 12, 4, "0000002");
    assert_refused(&flow, 8, 12, 4);
    let flow = with(flow, 12, 4, "00000 2");
    assert_refused(&flow, 7, 12, 9);
    let flow = with(flow, 12, 11, "02");
    assert_refused(&flow, 4, 12, 11);
    assert_refused(&with(flow, 12, 50, "\u{1}"), 3, 12, 50);
    // In the head 7, 16, 17; in a 10 8, 26; in a line 6, 7, 8, 9.
    let flow = with(filled(" "), 1, 14, "310216SUPPORT/");
    assert_refused(&flow, 16, 1, 20);
    assert_refused(&with(flow, 1, 19, "x"), 7, 1, 19);
    let flow = with(with(filled(" "), 2, 11, "x"), 2, 4, "0000002");
    assert_refused(&flow, 8, 2, 4);
    let flow = with(one(5, &[(1, 0); 5]), 8, 29, "x");
    assert_refused(&with(flow, 8, 4, "9"), 6, 8, 11);
    let flow = with(filled(" "), 8, 29, &"0".repeat(30));
    assert_refused(&with(flow.clone(), 8, 10, "2"), 8, 8, 4);
    assert_refused(&with(with(flow, 8, 10, "2"), 8, 58, "x"), 7, 8, 58);
    // In EF 3, 4, 16.
    let flow = with(filled(" "), 20, 20, "x");
    assert_refused(&with(flow.clone(), 20, 50, "\u{1}"), 3, 20, 50);
    assert_refused(&with(flow, 20, 2, "EG"), 4, 20, 2);
}

#[test]
fn the_first_fault_by_record() {
    let faults: Vec<_> = remaining_faults()
        .into_iter()
        .filter(|(_, flow)| flow.len() == 20 * 120)
        .collect();
    for (nth, ((number, record, position), flow)) in faults.iter().enumerate() {
        // All of them behind each, seven at a time.
        for ((_, other, _), behind) in faults.iter().skip(nth % 7).step_by(7) {
            if other <= record {
                continue;
            }
            // The records up to the first of one, those behind it of the other;
            // a negative delega comes of a line before its 50-01.
            let mut both = flow.clone();
            both[record * 120..].copy_from_slice(&behind[record * 120..]);
            assert_refused(&both, *number, *record, *position);
        }
    }
}

#[test]
fn nothing_stands_after_the_tail() {
    for record in [head(), taxpayer(2), tail(1, 9, 7500)] {
        assert_refused(&[example(), record.to_vec()].concat(), 4, 9, 2);
        // EF's own values are not looked at any more.
        let flow = with(example(), 8, 83, "0000009");
        assert_refused(&[flow, record.to_vec()].concat(), 4, 9, 2);
    }
}

// ------------------------------------------------------------------ 23 and 27

/// Flows of which one stored value has sixteen digits and no other, but for those
/// that must have them along with it; each with the record of its first 50-01.
fn too_large() -> Vec<(Vec<u8>, usize)> {
    let deleghe: [(&[&[Built]], usize); 7] = [
        // A section's total debit, its balance, the final balance and the sum.
        (&[&[(1, &[(MOST, 0), (1, 0)])]], 7),
        // Total debit and total credit: the balance is zero.
        (&[&[(5, &[(MOST, MOST), (1, 1)])]], 7),
        // Total debit and total credit beside another section.
        (
            &[&[(3, &[(5, 0)]), (7, &[(MOST, MOST), (0, 1), (9, 0)])]],
            10,
        ),
        // Section 17's balance; it has no totals.
        (&[&[(17, &[(MOST, 0), (1, 0)])]], 7),
        // The final balance of two sections that fit.
        (&[&[(1, &[(MOST, 0)]), (3, &[(1, 0)])]], 8),
        // The sum of two final balances that fit.
        (&[&[(1, &[(MOST, 0)])], &[(17, &[(1, 0)])]], 6),
        // A total credit alone, in the second delega.
        (
            &[
                &[(1, &[(5, 0)])],
                &[(1, &[(MOST, 0)]), (5, &[(1, MOST), (MOST - 1, 1)])],
            ],
            6,
        ),
    ];
    deleghe
        .iter()
        .map(|&(deleghe, payment)| (blanked(deleghe), payment))
        .collect()
}

/// The flow of these lines with blanks in all stored fields.
fn blanked(deleghe: &[&[Built]]) -> Vec<u8> {
    let mut records: Vec<Record> = vec![head()];
    for (number, sections) in (1..).zip(deleghe) {
        records.push(taxpayer(number));
        records.push(numbered("20", number, ""));
        for &(subtype, lines) in *sections {
            records.extend(lines.iter().map(|&amounts| line(number, subtype, amounts)));
            records.push(numbered("40", number, &format!("{:02}", subtype + 1)));
        }
        records.push(numbered("50", number, "01"));
    }
    records.push(tail(0, 0, 0));
    records.concat()
}

#[test]
fn values_that_do_not_fit_are_refused_23_before_27() {
    for (flow, _) in too_large() {
        // A list of no room: 23 all the same.
        assert_refused(&flow, 23, 0, 0);
    }
    // At the edge everything fits.
    let edges: [&[&[Built]]; 5] = [
        &[&[(1, &[(MOST - 1, 0), (1, 0)])]],
        &[&[(5, &[(MOST, MOST)])]],
        &[&[(17, &[(MOST - 1, 0), (1, 0)])]],
        &[&[(1, &[(MOST - 1, 0)]), (3, &[(1, 0)])]],
        &[&[(1, &[(MOST - 1, 0)])], &[(17, &[(1, 0)])]],
    ];
    for deleghe in edges {
        let flow = blanked(deleghe);
        let (after, _) = asked(&flow, LONG).unwrap();
        assert!(after == whole(deleghe));
        assert!(judge(&after).is_ok());
        assert_eq!(asked(&flow, 0), Err(refused(27, 0, 0)));
    }
}

#[test]
fn remaining_faults_come_before_23_wherever_they_are() {
    for (flow, payment) in too_large() {
        let records = flow.len() / 120;
        assert_refused(&with(flow.clone(), 1, 14, "3x"), 7, 1, 15);
        assert_refused(&with(flow.clone(), payment, 4, "9"), 8, payment, 4);
        assert_refused(&with(flow.clone(), records, 20, "x"), 16, records, 20);
        assert_refused(&with(flow.clone(), records, 120, "\n"), 3, records, 120);
        let cut = flow[..(records - 1) * 120].to_vec();
        assert_refused(&cut, 5, records, 0);
        let longer = [flow.clone(), head().to_vec()].concat();
        assert_refused(&longer, 4, records + 1, 2);
    }
    // A negative delega before the one that does not fit, and behind it.
    let large: &[Built] = &[(1, &[(MOST, 0), (1, 0)])];
    let negative: &[Built] = &[(1, &[(0, 1)])];
    assert_refused(&blanked(&[large, negative]), 14, 12, 2);
    assert_refused(&blanked(&[negative, large]), 14, 6, 2);
    // One that is both: its debits do not fit, its credits less.
    let both: &[Built] = &[(1, &[(MOST, 0), (1, 0)]), (3, &[(0, MOST), (0, 2)])];
    assert_refused(&blanked(&[both]), 14, 10, 2);
}

#[test]
fn a_list_that_is_too_short() {
    // One field, two, and as many as there are.
    let sound = every_kind();
    let fields = all_stored();
    let mut flow = sound.clone();
    for (listed, &(record, start, width)) in (1..).zip(&fields) {
        flow = with(flow, record, start, &"x".repeat(width));
        let need: Listed = fields[..listed].iter().map(|f| (f.0, f.1)).collect();
        for numbers in 0..2 * listed + 5 {
            let answer = asked(&flow, numbers);
            if numbers / 2 < listed {
                assert_eq!(answer, Err(refused(27, 0, 0)), "{numbers} for {listed}");
            } else {
                assert_eq!(answer, Ok((sound.clone(), need.clone())));
            }
        }
    }
}

#[test]
fn remaining_faults_come_before_27() {
    for ((number, record, position), flow) in remaining_faults() {
        let wrong = if flow.len() >= 12 * 120 {
            with(flow, 12, 36, "x")
        } else {
            flow
        };
        // A list of none, of half a pair.
        for numbers in [0, 1] {
            let refusal = refused(number, record, position);
            assert_eq!(asked(&wrong, numbers), Err(refusal));
        }
    }
}

// ------------------------------------------------------------------ at random

#[test]
fn a_rebalanced_flow_is_the_flow_built_of_its_lines() {
    let mut dice = Dice(6);
    let (mut mended, mut negative) = (0, 0);
    for _ in 0..600 {
        let mut deleghe: Vec<_> = (0..=dice.below(4)).map(|_| dice.delega()).collect();
        let before = rebuilt(&deleghe);
        // New amounts for some of the lines, and nothing else written anew.
        let mut flow = before.clone();
        for _ in 0..dice.below(6) {
            let d = dice.below(deleghe.len() as u64) as usize;
            let s = dice.below(deleghe[d].len() as u64) as usize;
            let l = dice.below(deleghe[d][s].1.len() as u64) as usize;
            let subtype = deleghe[d][s].0;
            let (debit, credit) = &mut deleghe[d][s].1[l];
            *debit += dice.below(5000);
            if subtype != 17 {
                *credit += dice.below(4000);
            }
        }
        let after = rebuilt(&deleghe);
        for (record, new) in flow.chunks_exact_mut(120).zip(after.chunks_exact(120)) {
            let is_line = [b"01", b"03", b"05", b"07", b"17"].contains(&&[new[10], new[11]]);
            if &new[1..3] == b"40" && is_line {
                record.copy_from_slice(new);
            }
        }
        let answer = asked(&flow, LONG);
        match judge(&after) {
            Ok(_) => {
                let (bytes, listed) = answer.unwrap();
                assert!(bytes == after);
                assert_mended(&flow, &after, &listed);
                mended += 1;
            }
            Err(refusal) => {
                assert_eq!(refusal.number, 14);
                assert_eq!(answer, Err(refusal));
                negative += 1;
            }
        }
    }
    assert!(mended > 200 && negative > 50, "{mended}, {negative}");
}

#[test]
fn spoiled_flows_are_refused_as_the_judgement_does_or_mended() {
    let mut dice = Dice(66);
    let sound = every_kind();
    let stored = all_stored();
    let is_stored = |record: usize, position: usize| {
        stored
            .iter()
            .any(|&(at, start, width)| at == record && (start..start + width).contains(&position))
    };
    let (mut kept, mut left) = (0, 0);
    for _ in 0..40_000 {
        let mut flow = spoiled(&mut dice, &sound);
        if dice.below(8) == 0 {
            let records = dice.below(22) as usize;
            flow.truncate(records * 120);
        }
        let answer = asked(&flow, LONG);
        match judge(&flow) {
            Ok(_) => assert_eq!(answer, Ok((flow, vec![]))),
            Err(Refusal {
                number: 10..=13 | 15 | 18..=20,
                record,
                ..
            }) => {
                // What comes of it is mended, or refused for what is behind it.
                match answer {
                    Ok((after, listed)) => {
                        assert!(judge(&after).is_ok());
                        assert!(listed.iter().any(|field| field.0 == record));
                    }
                    Err(refusal) => assert!(refusal.record > record || refusal.number == 16),
                }
                left += 1;
            }
            Err(Refusal {
                number: 7,
                record,
                position,
            }) if is_stored(record, position) => {
                assert!(answer.map_or_else(|refusal| refusal.record >= record, |_| true));
                left += 1;
            }
            Err(refusal) => {
                assert_eq!(answer, Err(refusal));
                kept += 1;
            }
        }
    }
    assert!(kept > 5000 && left > 5000, "{kept}, {left}");
}
