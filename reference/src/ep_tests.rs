//! What document 02 says of the F24 EP form, fact by fact.

use super::ep_total::cents;
use super::*;

const MOST_DEBIT: u64 = 999_999_999_999_999;
const MOST_TOTAL: u64 = 99_999_999_999_999;

type Written = Vec<u8>;

/// Writes a text at a position, which counts from 1.
fn put(record: &mut [u8], position: usize, text: &str) {
    record[position - 1..position - 1 + text.len()].copy_from_slice(text.as_bytes());
}

/// An M with this text. What nobody reads holds neither blanks nor digits.
fn m(text: &str) -> Written {
    let mut record = vec![b'#'; 1900];
    put(&mut record, 1, "M");
    put(&mut record, 1873, &format!("{text:<15}"));
    record
}

/// A V with these debits in its rows, counted from 1, and this final balance.
fn v_with(rows: &[(usize, u64)], balance: u64) -> Written {
    let mut record = vec![b'#'; 1900];
    put(&mut record, 1, "V");
    for row in 1..=28 {
        put(&mut record, 100 + 56 * (row - 1), " ");
    }
    for &(row, debit) in rows {
        use_row(&mut record, row, debit);
    }
    put(&mut record, 1788, &format!("{balance:015}"));
    record
}

/// Writes a row's type and its debit.
fn use_row(record: &mut [u8], row: usize, debit: u64) {
    let start = 100 + 56 * (row - 1);
    put(record, start, "F");
    put(record, start + 41, &format!("{debit:015}"));
}

/// A V whose rows add up to its final balance.
fn v(rows: &[(usize, u64)]) -> Written {
    v_with(rows, rows.iter().map(|(_, debit)| debit).sum())
}

/// A V with a sum, in its first row.
fn v_of(sum: u64) -> Written {
    v(&[(1, sum)])
}

/// A V in which a used debit is no number.
fn v_of_letters() -> Written {
    with(v_of(5), 141, "00000000000000x")
}

/// The record with this text at a position.
fn with(mut record: Written, position: usize, text: &str) -> Written {
    put(&mut record, position, text);
    record
}

/// A record of another type.
fn other(kind: u8) -> Written {
    let mut record = v_of(1);
    record[0] = kind;
    record
}

#[track_caller]
fn assert_accepted(records: &[Written], payments: u64, total: u64) {
    let answer = EpSummary { payments, total };
    assert_eq!(judge_ep(&records.concat()), Ok(answer));
}

#[track_caller]
fn assert_refused(records: &[Written], number: u8, record: usize) {
    assert_refused_bytes(&records.concat(), number, record);
}

#[track_caller]
fn assert_refused_bytes(bytes: &[u8], number: u8, record: usize) {
    let position = 0;
    let refusal = Refusal {
        number,
        record,
        position,
    };
    assert_eq!(judge_ep(bytes), Err(refusal));
}

/// The one text of a number, written and not read: digits from behind, a dot
/// before every third where there are at most nine before the comma.
fn text_of(cents: u64) -> String {
    let euros: Vec<char> = (cents / 100).to_string().chars().rev().collect();
    let dots = euros.len() <= 9;
    let mut behind = String::new();
    for (place, digit) in euros.iter().enumerate() {
        if dots && place > 0 && place % 3 == 0 {
            behind.push('.');
        }
        behind.push(*digit);
    }
    let whole: String = behind.chars().rev().collect();
    format!("{whole},{:02}", cents % 100)
}

/// What a text of at most fifteen characters is read as, with spaces behind it.
fn read(text: &str) -> Option<u128> {
    let field = format!("{text:<15}");
    cents(field.as_bytes().try_into().expect("fifteen characters"))
}

/// Numbers at and beside every place where a text gets longer.
fn edges() -> Vec<u64> {
    let mut all = vec![0, 5, 99, 1230, 123_456_789, 12_345_678_901_234];
    for power in 1..=14 {
        let ten = 10_u64.pow(power);
        all.extend([ten - 1, ten, ten + 1, 2 * ten - 1, 9 * ten]);
    }
    all.retain(|&cents| cents <= MOST_TOTAL);
    all
}

#[test]
fn an_m_and_a_v_are_accepted() {
    assert_accepted(&[m("75,00"), v(&[(1, 5000), (2, 2500)])], 1, 7500);
}

#[test]
fn each_m_is_followed_by_one_or_more_v() {
    let records = [m("0,03"), v_of(1), v_of(2), m("0,04"), v_of(4)];
    assert_accepted(&records, 2, 7);
    let many: Vec<Written> = [m("0,09")]
        .into_iter()
        .chain((0..9).map(|_| v_of(1)))
        .collect();
    assert_accepted(&many, 1, 9);
}

#[test]
fn length_none_or_too_many_records_are_30() {
    assert_refused(&[], 30, 0);
    let sound = [m("0,05"), v_of(5)].concat();
    for length in [1, 1899, 1901, 3799] {
        assert_refused_bytes(&sound[..length], 30, 0);
    }
    assert_refused_bytes(&[&sound[..], b" "].concat(), 30, 0);
    assert_refused_bytes(&[&sound[..], b"\n"].concat(), 30, 0);
    assert!(judge_ep(&sound).is_ok());
}

#[test]
fn at_most_ten_thousand_records_are_taken() {
    let pair = [m("0,05"), v_of(5)].concat();
    let most = pair.repeat(5000);
    let answer = EpSummary {
        payments: 5000,
        total: 25_000,
    };
    assert_eq!((most.len(), judge_ep(&most)), (MOST_EP_BYTES, Ok(answer)));
    let one_more = [&most[..], &v_of(0)].concat();
    assert_refused_bytes(&one_more, 30, 0);
    assert_refused_bytes(&[&most[..], b"M"].concat(), 30, 0);
    // The last of them is judged as well.
    let last = [&most[..MOST_EP_BYTES - 1900], &v_of(6)].concat();
    assert_refused_bytes(&last, 33, 9999);
    let last = [&most[..MOST_EP_BYTES - 1900], &m("0,05")].concat();
    assert_refused_bytes(&last, 31, 10_000);
}

#[test]
fn length_comes_before_everything_else() {
    let bytes = [&other(b'X')[..], b" "].concat();
    assert_refused_bytes(&bytes, 30, 0);
    let letters = [m("x"), v_of_letters()].concat();
    assert_refused_bytes(&letters[..3799], 30, 0);
}

#[test]
fn a_byte_1_that_is_neither_m_nor_v_is_31() {
    for kind in 0..=255 {
        if kind != b'M' && kind != b'V' {
            let unknown = || other(kind);
            assert_refused(&[unknown()], 31, 1);
            assert_refused(&[unknown(), m("0,05"), v_of(5)], 31, 1);
            assert_refused(&[m("0,05"), unknown(), v_of(5)], 31, 2);
            assert_refused(&[m("0,05"), v_of(5), unknown(), v_of(5)], 31, 3);
            assert_refused(&[m("0,05"), v_of(5), unknown()], 31, 3);
        }
    }
}

#[test]
fn the_head_and_the_closing_record_are_cut_off_before() {
    assert_refused(&[other(b'A'), m("0,05"), v_of(5)], 31, 1);
    assert_refused(&[m("0,05"), v_of(5), other(b'Z')], 31, 3);
}

#[test]
fn a_v_before_any_m_is_31() {
    assert_refused(&[v_of(5)], 31, 1);
    assert_refused(&[v_of(5), m("0,05"), v_of(5)], 31, 1);
    assert_refused(&[v_of_letters()], 31, 1);
}

#[test]
fn an_m_without_a_v_is_31_at_the_record_after_it() {
    assert_refused(&[m("0,00")], 31, 2);
    assert_refused(&[m("0,00"), m("0,00"), v_of(0)], 31, 2);
    assert_refused(&[m("0,00"), other(b'X'), v_of(0)], 31, 2);
    assert_refused(&[m("0,05"), v_of(5), m("0,00")], 31, 4);
    assert_refused(&[m("0,05"), v_of(5), m("0,00"), m("0,05"), v_of(5)], 31, 4);
    // Its total is not judged.
    assert_refused(&[m("x")], 31, 2);
    assert_refused(&[m("1,00"), m("0,00"), v_of(0)], 31, 2);
    assert_refused(&[m("0,05"), v_of(5), m("x"), other(0)], 31, 4);
}

#[test]
fn row_k_starts_at_100_and_56_times_k_less_1() {
    // 001 prints these places for the debits of rows 1, 2, 12, 27 and 28.
    for (row, at) in [(1, 141), (2, 197), (12, 757), (27, 1597), (28, 1653)] {
        let mut form = v_with(&[], 7);
        put(&mut form, at - 41, "F");
        put(&mut form, at, "000000000000007");
        assert_accepted(&[m("0,07"), form], 1, 7);
        assert_accepted(&[m("0,07"), v(&[(row, 7)])], 1, 7);
    }
}

#[test]
fn there_are_28_rows() {
    let all: Vec<(usize, u64)> = (1..=28).map(|row| (row, 1 << row)).collect();
    let sum = (1 << 29) - 2;
    assert_accepted(&[m(&text_of(sum)), v(&all)], 1, sum);
    for row in 0..28 {
        let mut fewer = all.clone();
        fewer.remove(row);
        assert_refused(&[m(&text_of(sum)), v_with(&fewer, sum)], 33, 2);
        let less = sum - all[row].1;
        assert_refused(&[m(&text_of(less)), v_with(&all, less)], 33, 2);
        assert_accepted(&[m(&text_of(less)), v(&fewer)], 1, less);
    }
    // What would be row 29 lies where 001 has a filler and is never read.
    let mut form = v_of(7);
    put(&mut form, 1668, "F");
    put(&mut form, 1709, "000000000000009");
    assert_accepted(&[m("0,07"), form], 1, 7);
}

#[test]
fn a_row_with_a_blank_type_is_unused_and_its_debit_is_not_read() {
    for row in 1..=28 {
        let start = 100 + 56 * (row - 1);
        for debit in ["000000000000005", "               ", "x00000000000000"] {
            let mut form = v_with(&[], 0);
            put(&mut form, start + 41, debit);
            assert_accepted(&[m("0,00"), form], 1, 0);
        }
    }
}

#[test]
fn a_row_with_any_other_type_is_used() {
    for row in [1, 14, 28] {
        let start = 100 + 56 * (row - 1);
        for kind in 0..=255 {
            let mut form = v_with(&[(row, 5)], 5);
            form[start - 1] = kind;
            let used = kind != 32;
            match used {
                true => assert_accepted(&[m("0,05"), form.clone()], 1, 5),
                false => assert_refused(&[m("0,05"), form.clone()], 33, 2),
            }
            put(&mut form, start + 41, "00000000000000 ");
            put(&mut form, 1788, "000000000000000");
            match used {
                true => assert_refused(&[m("0,00"), form], 32, 2),
                false => assert_accepted(&[m("0,00"), form], 1, 0),
            }
        }
    }
}

#[test]
fn a_used_debit_of_other_than_fifteen_digits_is_32() {
    for row in 1..=28 {
        for place in 0..15 {
            for byte in [b' ', b'/', b':', b'-', b'.', b'x', 0, 9, 0xB0, 255] {
                let mut form = v_with(&[(row, 0)], 0);
                form[100 + 56 * (row - 1) + 41 - 1 + place] = byte;
                assert_refused(&[m("0,00"), form], 32, 2);
            }
        }
    }
}

#[test]
fn a_final_balance_of_other_than_fifteen_digits_is_32() {
    for place in 0..15 {
        for byte in [b' ', b'/', b':', b'+', b',', b'O', 0, 13, 0xB5, 255] {
            let mut form = v_with(&[], 0);
            form[1788 - 1 + place] = byte;
            assert_refused(&[m("0,00"), form], 32, 2);
        }
    }
    assert_refused(&[m("0,00"), with(v(&[]), 1788, &" ".repeat(15))], 32, 2);
}

#[test]
fn row_sums_must_equal_the_final_balance() {
    assert_refused(&[m("0,05"), v_with(&[(1, 5)], 6)], 33, 2);
    assert_refused(&[m("0,05"), v_with(&[(1, 5)], 4)], 33, 2);
    assert_refused(&[m("0,05"), v_with(&[(1, 5)], 0)], 33, 2);
    assert_refused(&[m("0,05"), v_with(&[], 5)], 33, 2);
    assert_refused(&[m("0,05"), v_with(&[(3, 2), (4, 2)], 5)], 33, 2);
    assert_accepted(&[m("0,05"), v_with(&[(3, 2), (4, 3)], 5)], 1, 5);
}

#[test]
fn a_sum_of_sixteen_digits_is_not_its_last_fifteen() {
    let rows = [(1, MOST_DEBIT), (28, 1)];
    assert_refused(&[m("0,00"), v_with(&rows, 0)], 33, 2);
    let rows: Vec<(usize, u64)> = (1..=28).map(|row| (row, MOST_DEBIT)).collect();
    assert_refused(&[m("0,00"), v_with(&rows, MOST_DEBIT - 27)], 33, 2);
}

#[test]
fn every_32_of_a_v_comes_before_its_33() {
    let wrong = v_with(&[(1, 5), (28, 6)], 12);
    assert_refused(&[m("0,05"), wrong.clone()], 33, 2);
    let last_row = with(wrong.clone(), 1653, "00000000000000x");
    assert_refused(&[m("0,05"), last_row], 32, 2);
    let balance = with(wrong, 1788, "00000000000000x");
    assert_refused(&[m("0,05"), balance], 32, 2);
}

#[test]
fn a_v_of_no_rows_and_balance_zero_is_accepted() {
    assert_accepted(&[m("0,00"), v(&[])], 1, 0);
    assert_accepted(&[m("0,05"), v(&[]), v_of(5), v(&[])], 1, 5);
    let zeros: Vec<(usize, u64)> = (1..=28).map(|row| (row, 0)).collect();
    assert_accepted(&[m("0,00"), v(&zeros)], 1, 0);
}

#[test]
fn nothing_else_is_read() {
    for byte in [0, b' ', b'0', b'9', b'V', b'M', 255] {
        let mut payment = vec![byte; 1900];
        put(&mut payment, 1, "M");
        put(&mut payment, 1873, "12,30          ");
        let mut form = vec![byte; 1900];
        put(&mut form, 1, "V");
        for row in 1..=28 {
            put(&mut form, 100 + 56 * (row - 1), " ");
        }
        form[100 + 56 * 6 - 1] = b'F';
        put(&mut form, 100 + 56 * 6 + 41, "000000000001230");
        put(&mut form, 1788, "000000000001230");
        assert_accepted(&[payment, form], 1, 1230);
    }
}

#[test]
fn the_section_balance_is_not_the_final_one() {
    // 001's fields 208 and 211, at 1738 and 1769.
    for at in [1738, 1769] {
        let form = with(v_of(5), at, "000000000000006");
        assert_accepted(&[m("0,05"), form], 1, 5);
        let form = with(v_with(&[(1, 5)], 6), at, "000000000000005");
        assert_refused(&[m("0,05"), form], 33, 2);
    }
}

#[test]
fn the_total_of_an_m_has_these_texts() {
    for (text, sum) in [
        ("0,05", 5),
        ("0,00", 0),
        ("12,30", 1230),
        ("999,99", 99_999),
        ("1.000,00", 100_000),
        ("999.999,99", 99_999_999),
        ("1.000.000,00", 100_000_000),
        ("999.999.999,99", 99_999_999_999),
        ("1000000000,00", 100_000_000_000),
        ("999999999999,99", MOST_TOTAL),
    ] {
        assert_eq!(text_of(sum), text);
        assert_accepted(&[m(text), v_of(sum)], 1, sum);
    }
}

#[test]
fn any_other_text_is_33() {
    for (text, sum) in [
        ("", 0),
        ("0", 0),
        (",00", 0),
        ("0,", 0),
        ("0,0", 0),
        ("0,000", 0),
        ("00,00", 0),
        ("00,05", 5),
        (",05", 5),
        ("0.05", 5),
        ("0,5", 50),
        ("+0,05", 5),
        ("-0,05", 5),
        ("-0,00", 0),
        (" 0,05", 5),
        ("0,05 x", 5),
        ("0,05\0", 5),
        ("0,05.", 5),
        ("0,05,", 5),
        ("0 ,05", 5),
        ("0, 05", 5),
        ("EUR 0,05", 5),
        ("0,05EUR", 5),
        ("1000,00", 100_000),
        ("1,000,00", 100_000),
        ("1,000.00", 100_000),
        ("1.000.00", 100_000),
        ("1.000", 100_000),
        ("1 000,00", 100_000),
        ("1'000,00", 100_000),
        (".1.000,00", 100_000),
        (".000,00", 0),
        ("1..000,00", 100_000),
        ("1.000.,00", 100_000),
        ("10.00,00", 100_000),
        ("100.0,00", 100_000),
        ("0.001.000,00", 100_000),
        ("01.000,00", 100_000),
        ("1000.000,00", 100_000_000),
        ("1.000000,00", 100_000_000),
        ("1000000,00", 100_000_000),
        ("999999999,99", 99_999_999_999),
        ("999.999999,99", 99_999_999_999),
        ("0999999999,99", 99_999_999_999),
        ("1000.000.000,00", 100_000_000_000),
        ("1.000000000,00", 100_000_000_000),
        ("1.000.000.000,0", 100_000_000_000),
        ("1.000.000.000", 100_000_000_000),
        ("01000000000,00", 100_000_000_000),
        ("000000000000,05", 5),
        ("               ", 0),
        ("000000000000000", 0),
    ] {
        assert_refused(&[m(text), v_of(sum)], 33, 1);
        assert_accepted(&[m(&text_of(sum)), v_of(sum)], 1, sum);
    }
}

#[test]
fn a_text_is_read_where_it_is_the_one_written_of_its_number() {
    for sum in edges() {
        let text = text_of(sum);
        assert_eq!(read(&text), Some(u128::from(sum)), "{text}");
        // One character for another, one more and one less: what is still read is
        // the text of what it is read as.
        let characters = ['0', '1', '9', '.', ',', ' ', '+', '-', 'x', '\0'];
        for place in 0..=text.len() {
            for character in characters {
                let (before, behind) = text.split_at(place);
                let rest = behind.get(1..).unwrap_or("");
                for near in [
                    format!("{before}{character}{behind}"),
                    format!("{before}{character}{rest}"),
                    format!("{before}{rest}"),
                ] {
                    if near.len() > 15 {
                        continue;
                    }
                    if let Some(number) = read(&near) {
                        let one = text_of(u64::try_from(number).unwrap());
                        assert_eq!(near.trim_end_matches(' '), one, "{near:?}");
                    }
                }
            }
        }
    }
}

#[test]
fn every_short_text_is_read_as_it_is_written() {
    // All texts of up to six of these characters, and every number below 1.100,00.
    let characters = [b'0', b'1', b'2', b'.', b',', b' '];
    let mut texts: Vec<Vec<u8>> = vec![Vec::new()];
    for length in 0..6 {
        let longer = texts.iter().filter(|text| text.len() == length);
        let more: Vec<Vec<u8>> = longer
            .flat_map(|text| characters.map(|byte| [&text[..], &[byte]].concat()))
            .collect();
        texts.extend(more);
    }
    let mut taken = 0;
    for text in texts {
        let text = std::str::from_utf8(&text).unwrap();
        if let Some(number) = read(text) {
            let one = text_of(u64::try_from(number).unwrap());
            assert_eq!(text.trim_end_matches(' '), one);
            taken += 1;
        }
    }
    // n,nn with two, one or no space behind it, nn,nn with one or none, nnn,nn.
    assert_eq!(taken, 27 * 3 + 54 * 2 + 162);
    for cents in 0..110_000 {
        assert_eq!(read(&text_of(cents)), Some(u128::from(cents)));
    }
}

#[test]
fn spaces_alone_may_follow_the_text() {
    for (text, sum) in [("0,05", 5), ("999.999.999,99", 99_999_999_999)] {
        for place in text.len()..15 {
            for byte in (0..=255).filter(|&byte| byte != b' ') {
                let mut payment = m(text);
                payment[1873 - 1 + place] = byte;
                assert_refused(&[payment, v_of(sum)], 33, 1);
            }
        }
    }
}

#[test]
fn a_sum_above_the_longest_text_has_none() {
    let sum = MOST_TOTAL + 1;
    for text in [
        "1000000000000,0",
        "000000000000,00",
        "0,00",
        "999999999999,99",
        "100000000000000",
        "1000000000000",
        "",
    ] {
        assert_refused(&[m(text), v_of(sum)], 33, 1);
        assert_refused(&[m(text), v_of(MOST_TOTAL), v_of(1)], 33, 1);
    }
    assert_refused(&[m("999999999999,99"), v_of(MOST_DEBIT)], 33, 1);
}

#[test]
fn the_total_equals_the_sum_over_the_v_that_follow() {
    let records = |first: &str, second: &str| {
        let forms = [v_of(100), v(&[(2, 20), (28, 3)])];
        let [one, two] = forms;
        [m(first), one, two, m(second), v_of(4000)]
    };
    assert_accepted(&records("1,23", "40,00"), 2, 4123);
    // The sum of all, of the first or the last alone, of the other M's.
    for first in ["41,23", "1,00", "0,23", "40,00", "1,20", "1,22", "1,24"] {
        assert_refused(&records(first, "40,00"), 33, 1);
    }
    for second in ["41,23", "1,23", "0,00", "39,99", "40,01"] {
        assert_refused(&records("1,23", second), 33, 4);
    }
}

#[test]
fn the_total_is_judged_right_after_the_last_of_its_v() {
    // After every fault of its own V's ..
    assert_refused(&[m("x"), v_of_letters()], 32, 2);
    assert_refused(&[m("x"), v_of(5), v_with(&[(1, 5)], 6)], 33, 3);
    assert_refused(&[m("x"), v_of(5), v_of_letters(), other(0)], 32, 3);
    // .. and before any of the record that follows, or behind it.
    assert_refused(&[m("x"), v_of(5), other(b'X')], 33, 1);
    assert_refused(&[m("x"), v_of(5), m("x")], 33, 1);
    assert_refused(&[m("x"), v_of(5), m("x"), v_of_letters()], 33, 1);
    assert_refused(&[m("0,05"), v_of(5), m("x"), v_of(5), other(0)], 33, 3);
    assert_refused(&[m("x"), v_of(5)], 33, 1);
}

#[test]
fn a_record_that_is_no_v_ends_the_v_of_an_m() {
    let last = || v_of(3);
    assert_refused(&[m("0,05"), v_of(5), other(b'v'), last()], 31, 3);
    assert_refused(&[m("0,08"), v_of(5), other(b'v'), last()], 33, 1);
}

#[test]
fn records_are_judged_one_after_the_other() {
    let wrong = v_with(&[(1, 5)], 6);
    assert_refused(&[m("0,05"), wrong.clone(), v_of_letters()], 33, 2);
    assert_refused(&[m("0,05"), v_of_letters(), wrong.clone()], 32, 2);
    assert_refused(&[m("0,05"), wrong, other(0)], 33, 2);
    assert_refused(&[other(0), m("x"), v_of_letters()], 31, 1);
    assert_refused(
        &[m("0,05"), v_of(5), m("0,05"), v_of_letters(), m("x")],
        32,
        4,
    );
}

#[test]
fn acceptance_answers_the_count_of_m_and_the_sum_of_their_totals() {
    let totals = [0, 5, 100_000, MOST_TOTAL, MOST_TOTAL];
    let records: Vec<Written> = totals
        .iter()
        .flat_map(|&sum| [m(&text_of(sum)), v_of(sum)])
        .collect();
    assert_accepted(&records, 5, 2 * MOST_TOTAL + 100_005);
}

#[test]
fn sums_of_ten_thousand_records_are_kept_whole() {
    let most = [m(&text_of(MOST_TOTAL)), v_of(MOST_TOTAL)].concat();
    let answer = EpSummary {
        payments: 5000,
        total: 5000 * MOST_TOTAL,
    };
    assert_eq!(judge_ep(&most.repeat(5000)), Ok(answer));
    // 9,999 final balances of fifteen nines are above 2^63.
    let bytes = [m("0,00"), v_of(MOST_DEBIT).repeat(9999)].concat();
    assert_refused_bytes(&bytes, 33, 1);
}
