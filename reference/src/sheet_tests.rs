//! What document 02 says of flows written from working sheets, fact by fact.

use super::layout::Record;
use super::tests::*;
use super::*;

const MOST: u64 = 999_999_999_999_999;

// ---------------------------------------------------------------- building

/// A sheet's delega: its records, and those of its five sections.
#[derive(Clone)]
struct Keyed {
    payer: Record,
    domicile: Record,
    lines: [Vec<Record>; 5],
    payment: Record,
}

#[derive(Clone)]
struct Sheet {
    head: Record,
    deleghe: Vec<Keyed>,
    tail: Record,
}

/// The section with this line subtype.
fn index(subtype: u64) -> usize {
    [1, 3, 5, 7, 17].iter().position(|&s| s == subtype).unwrap()
}

/// All that the writer fills is blank.
fn sheet(deleghe: &[&[Built]]) -> Sheet {
    let keyed = |(number, sections): (u64, &&[Built])| {
        let mut lines: [Vec<Record>; 5] = Default::default();
        for &(subtype, amounts) in *sections {
            for &amounts in amounts {
                let mut record = line(1, subtype, amounts);
                put(&mut record, 4, "       ");
                lines[index(subtype)].push(record);
            }
        }
        let blank = |mut record: Record| {
            put(&mut record, 4, "       ");
            record
        };
        Keyed {
            payer: blank(taxpayer(number)),
            domicile: blank(numbered("20", 1, "")),
            lines,
            payment: blank(numbered("50", 1, "01")),
        }
    };
    let mut tail = tail(0, 0, 0);
    put(&mut tail, 20, &" ".repeat(20));
    put(&mut tail, 46, &" ".repeat(22));
    put(&mut tail, 83, &" ".repeat(7));
    Sheet {
        head: head(),
        deleghe: (1..).zip(deleghe).map(keyed).collect(),
        tail,
    }
}

impl Sheet {
    fn bytes(&self) -> Vec<u8> {
        let mut bytes = self.head.to_vec();
        bytes.extend(format!("{:03}", self.deleghe.len()).bytes());
        for delega in &self.deleghe {
            bytes.extend([delega.payer, delega.domicile].concat());
            for lines in &delega.lines {
                bytes.extend(format!("{:02}", lines.len()).bytes());
                bytes.extend(lines.concat());
            }
            bytes.extend(delega.payment);
        }
        bytes.extend(self.tail);
        bytes
    }

    /// The records one after another.
    fn records(&mut self) -> Vec<&mut Record> {
        let mut records = vec![&mut self.head];
        for delega in &mut self.deleghe {
            records.extend([&mut delega.payer, &mut delega.domicile]);
            records.extend(delega.lines.iter_mut().flatten());
            records.push(&mut delega.payment);
        }
        records.push(&mut self.tail);
        records
    }

    /// With `text` in the record of this place among the sheet's records.
    fn with(mut self, place: usize, position: usize, text: &str) -> Self {
        put(&mut self.records()[place - 1][..], position, text);
        self
    }

    /// With every filled column full of this byte.
    fn keyed(mut self, byte: u8) -> Self {
        for record in self.records() {
            let fields: &[(usize, usize)] = match &record[1..3] {
                b"F4" => &[],
                b"50" => &[(4, 10), (36, 50)],
                b"EF" => &[(20, 39), (46, 52), (53, 67), (83, 89)],
                _ => &[(4, 10)],
            };
            for &(first, last) in fields {
                record[first - 1..last].fill(byte);
            }
        }
        self
    }
}

/// Records to be written: 1 F4, 2 10, 3 20, 4 and 5 40-05, 6 40-06, 7 50-01,
/// 8 EF; of the sheet: 1 F4, 2 10, 3 20, 4 and 5 40-05, 6 50-01, 7 EF.
fn example() -> Sheet {
    sheet(&[&[(5, &[(10000, 0), (0, 2500)])]])
}

/// Asks for the flow in a room of this length, and looks at every byte of it.
fn asked(sheet: &[u8], length: usize) -> Result<Vec<u8>, Refusal> {
    let before: Vec<u8> = (0..length).map(|at| (at * 7 % 251) as u8).collect();
    let mut room = before.clone();
    let answer = write(sheet, &mut room);
    match answer {
        Ok(written) => {
            assert_eq!(room[written..], before[written..]);
            room.truncate(written);
            Ok(room)
        }
        Err(refusal) => {
            assert_eq!(room, before);
            Err(refusal)
        }
    }
}

/// More than the flow of any sheet here that is refused for a record.
const AMPLE: usize = 13_000;

#[track_caller]
fn assert_written(sheet: &Sheet, flow: &[u8]) {
    assert!(judge(flow).is_ok());
    for more in [0, 1, 500] {
        assert_eq!(
            asked(&sheet.bytes(), flow.len() + more).as_deref(),
            Ok(flow)
        );
    }
}

#[track_caller]
fn assert_unwritten(sheet: &Sheet, number: u8, record: usize, position: usize) {
    assert_eq!(
        asked(&sheet.bytes(), AMPLE),
        Err(refused(number, record, position))
    );
}

// ----------------------------------------------------------------- written

#[test]
fn the_printed_example_is_written() {
    let flow = one(5, &[(10000, 0), (0, 2500)]);
    assert_eq!(flow.len(), 960);
    assert_written(&example(), &flow);
}

#[test]
fn the_made_balance_records_to_the_byte() {
    let sheet = sheet(&[
        &[
            (1, &[(10, 3)]),
            (3, &[(20, 30)]),
            (5, &[(5, 5)]),
            (7, &[(9, 0), (1, 4)]),
        ],
        &[(17, &[(60, 0), (1, 0)])],
    ]);
    let flow = asked(&sheet.bytes(), AMPLE).unwrap();
    let record = |number: usize| std::str::from_utf8(&flow[(number - 1) * 120..number * 120]);
    let rows = [
        (
            5,
            " 40000000102",
            0,
            "000000000000010000000000000003P000000000000007",
        ),
        (
            7,
            " 40000000104",
            0,
            "000000000000020000000000000030N000000000000010",
        ),
        (
            9,
            " 40000000106",
            2,
            "000000000000005000000000000005P000000000000000",
        ),
        (
            12,
            " 40000000108",
            4,
            "000000000000010000000000000004P000000000000006",
        ),
        (18, " 40000000218", 30, "P000000000000061"),
    ];
    for (number, front, spaces, back) in rows {
        let expected = format!("{front}{}{back}", " ".repeat(spaces));
        assert_eq!(record(number), Ok(&*format!("{expected:<120}")));
    }
}

#[test]
fn sections_with_no_lines_have_no_balance_record() {
    let some: [&[Built]; 4] = [
        &[(1, &[(1, 0)]), (7, &[(2, 0), (3, 0)])],
        &[(3, &[(4, 9)]), (5, &[(5, 0)])],
        &[(17, &[(6, 0); 28])],
        &[
            (1, &[(7, 0); 6]),
            (3, &[(1, 1); 4]),
            (5, &[(1, 1); 4]),
            (7, &[(1, 1); 4]),
        ],
    ];
    assert_written(&sheet(&some), &whole(&some));
    for one in some {
        assert_written(&sheet(&[one]), &whole(&[one]));
    }
}

#[test]
fn whatever_was_keyed_in_a_filled_column() {
    let deleghe: [&[Built]; 2] = [&[(5, &[(8, 3)]), (7, &[(0, 5)])], &[(17, &[(40, 0)])]];
    for byte in 0..=255 {
        assert_written(&sheet(&deleghe).keyed(byte), &whole(&deleghe));
    }
}

#[test]
fn other_columns_are_carried() {
    // Position 1, the filler behind the number, EF's date and 68-82.
    let mut flow = one(5, &[(10000, 0), (0, 2500)]);
    let mut keyed = example();
    for (place, record, position, text) in [
        (1, 1, 1, "~"),
        (2, 2, 27, "NAME"),
        (4, 4, 13, "ab"),
        (4, 4, 59, "c"),
        (6, 7, 35, "x"),
        (6, 7, 51, "y"),
        (6, 7, 79, "zzz"),
        (7, 8, 14, "/:/:/:"),
        (7, 8, 40, "a"),
        (7, 8, 45, "b"),
        (7, 8, 68, "999"),
        (7, 8, 82, "c"),
        (7, 8, 90, "d"),
        (7, 8, 120, "e"),
    ] {
        keyed = keyed.with(place, position, text);
        flow = with(flow, record, position, text);
    }
    assert_written(&keyed, &flow);
}

#[test]
fn deleghe_are_numbered_and_added_up_anew() {
    let one: &[Built] = &[(1, &[(7, 2)])];
    let deleghe = vec![one; 108];
    let flow = whole(&deleghe);
    assert_eq!(flow.len(), 542 * 120);
    assert_written(&sheet(&deleghe), &flow);
    assert_eq!(judge(&flow).unwrap().total, 540);
}

#[test]
fn zero_balances_and_large_sums_are_written() {
    let deleghe: [&[Built]; 3] = [
        &[(1, &[(7500, 0)]), (5, &[(2500, 0), (0, 10000)])],
        &[(3, &[(MOST, MOST)])],
        &[(17, &[(MOST - 5, 0), (5, 0)])],
    ];
    assert_written(&sheet(&deleghe), &whole(&deleghe));
}

// ---------------------------------------------------------------- 24, 25, 1

#[test]
fn a_sheet_that_ends_early_or_has_bytes_left() {
    let bytes = example().bytes();
    assert_eq!(bytes.len(), 853);
    for length in 0..bytes.len() {
        assert_eq!(asked(&bytes[..length], AMPLE), Err(refused(24, 0, 0)));
    }
    for more in ["\n", " ", "0", "EF"] {
        let longer = [&bytes[..], more.as_bytes()].concat();
        assert_eq!(asked(&longer, AMPLE), Err(refused(24, 0, 0)));
    }
    let receipt = numbered("50", 1, "02");
    let longer = [&bytes[..733], &receipt[..], &bytes[733..]].concat();
    assert_eq!(asked(&longer, AMPLE), Err(refused(24, 0, 0)));
}

#[test]
fn a_count_that_is_not_digits() {
    let bytes = example().bytes();
    let counts = [
        120, 121, 122, 363, 364, 365, 366, 367, 368, 609, 610, 611, 612,
    ];
    for at in counts {
        // What is no digit is no count; other digits lead elsewhere: early, or to bytes left.
        for byte in (0..=255_u8).filter(|&byte| byte != bytes[at]) {
            let mut wrong = bytes.clone();
            wrong[at] = byte;
            assert_eq!(
                asked(&wrong, AMPLE),
                Err(refused(24, 0, 0)),
                "{byte} at {at}"
            );
        }
    }
}

#[test]
fn a_room_that_is_too_short() {
    let bytes = example().bytes();
    for length in 0..960 {
        assert_eq!(asked(&bytes, length), Err(refused(25, 0, 0)));
    }
    assert!(asked(&bytes, 960).is_ok());
    // 24 comes first, and 25 before any fault of a record.
    assert_eq!(asked(&bytes[1..], 0), Err(refused(24, 0, 0)));
    let wrong = example().with(1, 1, "\n").bytes();
    assert_eq!(asked(&wrong, 959), Err(refused(25, 0, 0)));
    assert_eq!(asked(&wrong, 960), Err(refused(3, 1, 1)));
    assert_eq!(asked(&sheet(&[]).bytes(), 239), Err(refused(25, 0, 0)));
}

#[test]
fn more_than_546_records() {
    let short: &[Built] = &[(5, &[(1, 0)])];
    let mut deleghe = vec![short; 107];
    deleghe.push(&[(1, &[(1, 0); 5])]);
    let flow = whole(&deleghe);
    assert_eq!(flow.len(), 65_520);
    assert_written(&sheet(&deleghe), &flow);
    let long: &[Built] = &[(1, &[(1, 0); 6])];
    deleghe[107] = long;
    let bytes = sheet(&deleghe).bytes();
    assert_eq!(asked(&bytes, 65_520), Err(refused(25, 0, 0)));
    assert_eq!(asked(&bytes, 65_639), Err(refused(25, 0, 0)));
    assert_eq!(asked(&bytes, 65_640), Err(refused(1, 0, 0)));
    // Before any fault of a record.
    let wrong = sheet(&deleghe).with(1, 2, "\0\0").bytes();
    assert_eq!(asked(&wrong, 66_000), Err(refused(1, 0, 0)));
}

#[test]
fn the_longest_sheet() {
    // 181 deleghe without lines: 545 records.
    let none: &[Built] = &[];
    let bytes = sheet(&vec![none; 181]).bytes();
    assert_eq!(bytes.len(), 67_213);
    assert_eq!(asked(&bytes, 65_400), Err(refused(4, 4, 2)));
    assert_eq!(asked(&bytes, 65_399), Err(refused(25, 0, 0)));
    let bytes = sheet(&vec![none; 999]).bytes();
    assert_eq!(asked(&bytes, 2999 * 120 - 1), Err(refused(25, 0, 0)));
    assert_eq!(asked(&bytes, 2999 * 120), Err(refused(1, 0, 0)));
}

// --------------------------------------------------------- what is in a slot

#[test]
fn a_record_that_is_not_of_its_slots_kind() {
    // Place in the sheet, record in the flow, type of the slot.
    let slots = [
        (1, 1, "F4"),
        (2, 2, "10"),
        (3, 3, "20"),
        (4, 4, "40"),
        (5, 5, "40"),
        (6, 7, "50"),
        (7, 8, "EF"),
    ];
    for (place, record, own) in slots {
        for kind in ["F4", "10", "20", "40", "50", "EF", "  ", "ef", "4 "] {
            if kind != own {
                assert_unwritten(&example().with(place, 2, kind), 4, record, 2);
            }
        }
    }
    for (place, record, own) in [(4, 4, 5), (5, 5, 5), (6, 7, 1)] {
        for subtype in (0..100).filter(|&subtype| subtype != own) {
            let sheet = example().with(place, 11, &format!("{subtype:02}"));
            assert_unwritten(&sheet, 4, record, 11);
        }
        for subtype in ["  ", " 5", "5 ", "O5", "O1"] {
            assert_unwritten(&example().with(place, 11, subtype), 4, record, 11);
        }
    }
    // 11-12 of the others is no subtype.
    for place in [1, 3, 7] {
        assert!(asked(&example().with(place, 11, "99").bytes(), AMPLE).is_ok());
    }
}

#[test]
fn the_slot_comes_before_the_order() {
    let erario: Built = (1, &[(1, 0)]);
    let imu: Built = (7, &[(1, 0)]);
    let ident: Built = (17, &[(1, 0)]);
    // After 40-08 the order says 2, after 40-02 it says 11.
    let after_imu = sheet(&[&[imu, ident]]);
    assert_unwritten(&after_imu, 4, 6, 2);
    assert_unwritten(&after_imu.with(5, 11, "05"), 4, 6, 11);
    let after_erario = sheet(&[&[erario, ident]]);
    assert_unwritten(&after_erario, 4, 6, 11);
    assert_unwritten(&after_erario.with(5, 2, "50"), 4, 6, 2);
    // These might stand there in a flow.
    let two = sheet(&[&[(1, &[(1, 0), (2, 0)]), (3, &[(1, 0)])]]);
    assert_unwritten(&two.clone().with(4, 11, "03"), 4, 4, 11);
    assert_unwritten(&two.with(5, 11, "02"), 4, 5, 11);
    let tail_for_payer = sheet(&[&[erario], &[erario]]).with(6, 2, "EF");
    assert_unwritten(&tail_for_payer, 4, 7, 2);
    let none = sheet(&[&[]]);
    assert_unwritten(&none.clone().with(4, 2, "40").with(4, 11, "05"), 4, 4, 2);
    assert_unwritten(&none.clone().with(4, 11, "02"), 4, 4, 11);
    assert_unwritten(&none, 4, 4, 2);
    // Which of the two it was.
    let told = |sheet: &Sheet| {
        write_or_tell(&sheet.bytes(), &mut [0; 2000])
            .unwrap_err()
            .by_slot
    };
    assert!(!told(&none) && told(&none.clone().with(4, 11, "02")));
}

#[test]
fn what_is_held_to_the_order() {
    assert_unwritten(&sheet(&[]), 4, 2, 2);
    assert_unwritten(&sheet(&[&[]]), 4, 4, 2);
    assert_unwritten(&sheet(&[&[(5, &[(1, 0)])], &[]]), 4, 9, 2);
    for (subtype, position) in [(1, 11), (3, 11), (5, 11), (7, 2)] {
        let beside: &[Built] = &[(subtype, &[(1, 0)]), (17, &[(1, 0)])];
        assert_unwritten(&sheet(&[beside]), 4, 6, position);
    }
}

#[test]
fn characters_outside_what_is_filled() {
    let sound = example().keyed(b'\n');
    for place in 1..=7 {
        let record = [1, 2, 3, 4, 5, 7, 8][place - 1];
        let filled: &[(usize, usize)] = match place {
            1 => &[],
            2..=5 => &[(4, 10)],
            6 => &[(4, 10), (36, 50)],
            _ => &[(20, 39), (46, 52), (53, 67), (83, 89)],
        };
        for position in 1..=120 {
            let wrong = sound.clone().with(place, position, "\u{7f}");
            let taken = filled.iter().any(|&(a, b)| (a..=b).contains(&position));
            if taken {
                assert!(asked(&wrong.bytes(), AMPLE).is_ok());
            } else {
                assert_unwritten(&wrong, 3, record, position);
            }
        }
    }
    // By the slot, whatever record stands in it; and 3 before 4.
    assert_unwritten(&example().with(6, 2, "20").with(6, 36, "\n"), 4, 7, 2);
    assert_unwritten(&example().with(3, 2, "50").with(3, 36, "\n"), 3, 3, 36);
    assert_unwritten(&example().with(7, 2, "F4").with(7, 20, "\n"), 4, 8, 2);
}

// ------------------------------------------------------------ other faults

#[test]
fn lines_beyond_the_most() {
    for (subtype, most) in [(1, 6), (3, 4), (5, 4), (7, 4), (17, 28)] {
        let lines = vec![(1, 0); 99];
        assert!(asked(&sheet(&[&[(subtype, &lines[..most])]]).bytes(), AMPLE).is_ok());
        for count in [most + 1, most + 2, 99] {
            let sheet = sheet(&[&[(subtype, &lines[..count])]]);
            assert_unwritten(&sheet, 6, 3 + most + 1, 11);
            // 3 and 4 of that record first, 7 after it.
            assert_unwritten(&sheet.clone().with(4 + most, 120, "\n"), 3, 4 + most, 120);
            assert_unwritten(&sheet.clone().with(4 + most, 11, "99"), 4, 4 + most, 11);
            assert_unwritten(&sheet.clone().with(4 + most, 4, "x"), 6, 4 + most, 11);
        }
    }
}

#[test]
fn line_amounts() {
    for (subtype, debit_at) in [(1, 27), (3, 52), (5, 29), (7, 31), (17, 41)] {
        assert_unwritten(&sheet(&[&[(subtype, &[(0, 0)])]]), 9, 4, debit_at);
    }
    assert_unwritten(&sheet(&[&[(17, &[(1, 0), (5, 1)])]]), 9, 5, 56);
    assert_unwritten(&sheet(&[&[(17, &[(0, 5)])]]), 9, 4, 56);
}

#[test]
fn the_very_character_of_a_line() {
    for (subtype, debit_at, credit_at) in [
        (1, 27, 42),
        (3, 52, 67),
        (5, 29, 44),
        (7, 31, 46),
        (17, 41, 56),
    ] {
        // The second delega's first line is the sheet's ninth record and the
        // flow's tenth. Nothing in a filled column is looked at.
        let lines: &[Built] = &[(subtype, &[(1, 0), (2, 0)])];
        for keyed in [b' ', b'x', b'\n', b'7'] {
            let sound = sheet(&[lines, lines]).keyed(keyed);
            for place in 0..15 {
                for start in [debit_at, credit_at] {
                    let one = sound.clone().with(9, start + place, " ");
                    assert_unwritten(&one, 7, 10, start + place);
                    // Of two in a field the first.
                    for second in place + 1..15 {
                        let two = one.clone().with(9, start + second, "/");
                        assert_unwritten(&two, 7, 10, start + place);
                    }
                }
                // Of two fields the debit, even at its last place.
                let both = sound.clone().with(9, debit_at + place, ":");
                for text in ["-", "               "] {
                    let both = both.clone().with(9, credit_at, text);
                    assert_unwritten(&both, 7, 10, debit_at + place);
                }
            }
            // Of two records the first.
            let later = sound.clone().with(10, debit_at, " ");
            assert_unwritten(&later.with(9, credit_at + 14, "x"), 7, 10, credit_at + 14);
        }
    }
    let example = example().with(4, 29, "00000000000750 ");
    assert_unwritten(&example, 7, 4, 43);
}

#[test]
fn the_very_character_of_the_date() {
    for place in 0..6 {
        for text in [" ", "/", ":", "x"] {
            let one = example().keyed(b' ').with(1, 14 + place, text);
            assert_unwritten(&one, 7, 1, 14 + place);
            for second in place + 1..6 {
                let two = one.clone().with(1, 14 + second, " ");
                assert_unwritten(&two, 7, 1, 14 + place);
            }
        }
        // EF's date is no field.
        assert!(asked(&example().with(7, 14 + place, " ").bytes(), AMPLE).is_ok());
    }
}

#[test]
fn a_count_has_no_place() {
    // Both a count and an amount before it: the sheet is none.
    let mut bytes = example().with(4, 29, " ").bytes();
    bytes[612] = b' ';
    assert_eq!(asked(&bytes, AMPLE), Err(refused(24, 0, 0)));
}

#[test]
fn negative_deleghe() {
    let regioni: Built = (5, &[(2500, 0), (0, 10000)]);
    assert_unwritten(&sheet(&[&[(1, &[(7499, 0)]), regioni]]), 14, 9, 2);
    assert!(asked(&sheet(&[&[(1, &[(7500, 0)]), regioni]]).bytes(), AMPLE).is_ok());
    // Sums start at zero for every delega.
    assert_unwritten(&sheet(&[&[(1, &[(9, 0)])], &[(7, &[(1, 2)])]]), 14, 11, 2);
    // 3 and 4 of that record first, and later records after it.
    let negative = sheet(&[&[(7, &[(1, 2)])]]);
    assert_unwritten(&negative.clone().with(5, 120, "\n"), 3, 6, 120);
    assert_unwritten(&negative.clone().with(5, 11, "02"), 4, 6, 11);
    assert_unwritten(&negative.with(6, 2, "\n\n"), 14, 6, 2);
}

#[test]
fn names_and_dates() {
    for (position, text) in [(20, "/"), (39, "/"), (20, ":"), (39, ":")] {
        assert_unwritten(&example().with(1, position, text), 16, 1, 20);
        // The tail's never.
        assert!(asked(&example().with(7, position, text).bytes(), AMPLE).is_ok());
    }
    for date in DATES {
        let flow = one(5, &[(10000, 0), (0, 2500)]);
        assert_written(&example().with(1, 14, date), &with(flow, 1, 14, date));
    }
    for date in NO_DATES {
        assert_unwritten(&example().with(1, 14, date), 17, 1, 14);
        // EF's own is not read.
        assert!(asked(&example().with(7, 14, date).bytes(), AMPLE).is_ok());
    }
    assert_unwritten(&example().with(1, 14, "0099 0"), 7, 1, 18);
    assert_unwritten(&example().with(1, 14, "31021 "), 7, 1, 19);
    // 7, then 16, then 17.
    for date in ["009900", "310215", "290215", "310416"] {
        let both = example().with(1, 14, date).with(1, 39, ":");
        assert_unwritten(&both, 16, 1, 20);
        assert_unwritten(&both.clone().with(1, 14, "x"), 7, 1, 14);
        assert_unwritten(&both.with(1, 19, "x"), 7, 1, 19);
    }
    // 17 before the faults of later records and 23, after 24 and 25.
    let wrong = example().with(1, 14, "310215").with(2, 1, "\n");
    assert_unwritten(&wrong, 17, 1, 14);
    assert_eq!(asked(&wrong.bytes(), 959), Err(refused(25, 0, 0)));
    assert_eq!(asked(&wrong.bytes()[..852], 0), Err(refused(24, 0, 0)));
}

#[test]
fn tax_codes() {
    let flow = one(5, &[(10000, 0), (0, 2500)]);
    for code in CODES {
        // As keyed, whatever stands in the number's columns.
        for byte in [b' ', b'9', b'x', b'\n'] {
            let sheet = example().keyed(byte).with(2, 11, code);
            assert_written(&sheet, &with(flow.clone(), 2, 11, code));
        }
    }
    for code in NO_CODES {
        for byte in [b' ', b'9', b'x', b'\n'] {
            let sheet = example().keyed(byte).with(2, 11, code);
            assert_unwritten(&sheet, 26, 2, 11);
        }
    }
    // The second delega's record 10 is the sheet's eighth and the flow's
    // ninth, since a balance record is made before it.
    let lines: &[Built] = &[(5, &[(1, 0), (2, 0), (3, 0)])];
    for code in NO_CODES {
        let sheet = sheet(&[lines, lines]).with(8, 11, code);
        assert_unwritten(&sheet, 26, 9, 11);
        assert_unwritten(&sheet.with(2, 11, code), 26, 2, 11);
    }
}

#[test]
fn where_the_code_stands_among_the_faults() {
    let wrong = example().with(2, 11, "RSSMRA85T10A562T");
    // 3 of its record but in the number, and 4 by the slot.
    for position in [1, 3, 11, 26, 120] {
        assert_unwritten(&wrong.clone().with(2, position, "\n"), 3, 2, position);
    }
    for kind in ["F4", "20", "40", "EF"] {
        assert_unwritten(&wrong.clone().with(2, 2, kind), 4, 2, 2);
    }
    // The number is filled, so that 7 and 8 can't come up.
    for number in ["x", "9999999", "\n"] {
        assert_unwritten(&wrong.clone().with(2, 4, number), 26, 2, 11);
    }
    // Later records, 23, 24 and 25.
    assert_unwritten(&wrong.clone().with(3, 1, "\n"), 26, 2, 11);
    assert_unwritten(&wrong.clone().with(3, 2, "10"), 26, 2, 11);
    assert_unwritten(&wrong.clone().with(1, 14, "310215"), 17, 1, 14);
    let unfit = sheet(&[&[(5, &[(MOST, 0), (1, 0)])]]);
    assert_unwritten(&unfit.with(2, 26, "T"), 26, 2, 11);
    assert_eq!(asked(&wrong.bytes(), 959), Err(refused(25, 0, 0)));
    assert_eq!(asked(&wrong.bytes()[..852], AMPLE), Err(refused(24, 0, 0)));
}

#[test]
fn sums_that_do_not_fit() {
    let one: Built = (1, &[(1, 0)]);
    let too: &[(u64, u64)] = &[(MOST, 0), (1, 0)];
    let unfit: [&[&[Built]]; 8] = [
        &[&[(5, too)]],
        // Both totals, and a balance of zero.
        &[&[(7, &[(MOST, MOST), (1, 1)])]],
        // The total credit alone.
        &[&[(1, &[(2, 0)]), (5, &[(MOST, MOST), (0, 1)])]],
        // A balance, of a section without totals and of one with N.
        &[&[(17, too)]],
        &[&[
            (1, &[(MOST, 0)]),
            (3, &[(MOST, 0)]),
            (7, &[(0, MOST), (0, 1)]),
        ]],
        // The final balance alone, the tail's sum alone.
        &[&[(1, &[(MOST, 0)]), (7, &[(1, 0)])]],
        &[&[(1, &[(MOST, 0)])], &[(17, &[(1, 0)])]],
        &[&[(3, too)], &[one]],
    ];
    for deleghe in unfit {
        let sound = sheet(deleghe);
        assert_unwritten(&sound, 23, 0, 0);
        // After every fault of every record.
        let mut last = sound.clone();
        let records = last.records().len();
        let flow = whole(deleghe).len() / 120;
        assert_unwritten(&sound.clone().with(records, 120, "\n"), 3, flow, 120);
        assert_unwritten(&sound.clone().with(1, 14, "32"), 17, 1, 14);
        assert_unwritten(&sound.clone().with(1, 14, "310499"), 17, 1, 14);
    }
    assert_unwritten(&sheet(&[&[(5, too)], &[(5, &[(0, 1)])]]), 14, 12, 2);
    assert_unwritten(&sheet(&[&[(5, too)], &[]]), 4, 10, 2);
}
