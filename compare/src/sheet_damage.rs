//! Sheets to be written from: sound, damaged in one place or more, or wild,
//! with a room of some length. What a damaged one is answered is for the
//! library and the reference to say, since damages meet.

use crate::codes;
use crate::columns::{Kind::*, *};
use crate::damage;
use crate::dates;
use crate::heads;
use crate::payers;
use crate::rng::Rng;
use crate::sevens;
use crate::sheet::{self, filled, read, Part, Sheet, Size};
use crate::sound::{self, get, put, DelegaPlan, Plan, Pool, SectionPlan};

/// A sheet and the length of the room for its flow.
pub struct Case {
    pub sheet: Vec<u8>,
    pub room: usize,
    /// The number that the generator says, where it knows it, and the flow.
    pub known: Option<u64>,
    pub flow: Vec<u8>,
}

/// What a damage aims at.
#[derive(Clone, Copy, PartialEq)]
enum Aim {
    Character,
    SlotType,
    SlotSubtype,
    OrderType,
    OrderSubtype,
    Most,
    Digit,
    LineRule,
    Negative,
    Name,
    Date,
    Code,
    Unfit,
    CountDigit,
    CountOff,
    Length,
    Room,
}

/// Each alike, but for digits, which have their places, the date, which is wrong
/// in seven ways, and the tax code, in ten.
const AIMS: [Aim; 24] = [
    Aim::Character,
    Aim::SlotType,
    Aim::SlotSubtype,
    Aim::OrderType,
    Aim::OrderSubtype,
    Aim::Most,
    Aim::Digit,
    Aim::Digit,
    Aim::LineRule,
    Aim::Negative,
    Aim::Name,
    Aim::Date,
    Aim::Date,
    Aim::Date,
    Aim::Code,
    Aim::Code,
    Aim::Code,
    Aim::Code,
    Aim::Code,
    Aim::Unfit,
    Aim::CountDigit,
    Aim::CountOff,
    Aim::Length,
    Aim::Room,
];

/// Any case.
pub fn any_case(rng: &mut Rng, pool: &Pool) -> Case {
    let size = match rng.below(1000) {
        0..=149 => Size::Flow(sound::Size::Least),
        150..=549 => Size::Flow(sound::Size::Tiny),
        550..=829 => Size::Flow(sound::Size::Small),
        830..=954 => Size::Flow(sound::Size::Medium),
        955..=963 => Size::Flow(sound::Size::Large),
        964..=973 => Size::Records(rng.pick(&[545, 546, 546, 546])),
        974..=987 => Size::Records(rng.pick(&[547, 547, 547, 548, 550])),
        988..=996 => Size::Records(rng.between(548, 900) as usize),
        997 => Size::Records(rng.between(900, 3000) as usize),
        998 => Size::Deleghe(rng.pick(&[109, 110, 255, 256, 257, 300, 512, 513, 999])),
        _ => Size::Deleghe(rng.between(0, 999) as usize),
    };
    case_of(rng, pool, size)
}

/// The same with the size given.
pub fn case_of(rng: &mut Rng, pool: &Pool, size: Size) -> Case {
    let plan = sheet::plan(rng, size);
    let over = plan.deleghe.iter().map(DelegaPlan::records).sum::<usize>() + 2 > MOST_RECORDS;
    match rng.below(100) {
        // Those of more than 546 records are mostly refused for that.
        0..=13 => sound_case(rng, pool, &plan),
        14..=69 if over => sound_case(rng, pool, &plan),
        14..=18 => {
            let mut case = wild(rng, pool, &plan);
            case.known = None;
            case
        }
        19..=77 => damaged(rng, pool, plan, 1),
        78..=89 => damaged(rng, pool, plan, 2),
        _ => {
            let damages = rng.between(3, 5);
            damaged(rng, pool, plan, damages)
        }
    }
}

/// The number that a sheet of this plan is answered where nothing else than a
/// sum can be wrong.
fn says(flow: &[u8], room: usize, unfit: bool) -> u64 {
    match flow.len() {
        length if length > room => 25,
        length if length > MOST_BYTES => 1,
        // F4 and EF alone.
        length if length == 2 * RECORD => 4,
        _ if unfit => 23,
        _ => 0,
    }
}

fn sound_case(rng: &mut Rng, pool: &Pool, plan: &Plan) -> Case {
    let made = sheet::write(rng, pool, plan);
    let (sheet, length) = (made.bytes(), made.flow.len());
    // The room that is long enough for any flow is not for these.
    let short = length > MOST_BYTES && rng.one_in(8);
    let room = if short { too_short(rng, length, sheet.len()) } else { enough(rng, length) };
    let known = Some(says(&made.flow, room, false));
    Case { sheet, room, known, flow: made.flow }
}

/// A room that is long enough for so many bytes.
fn enough(rng: &mut Rng, length: usize) -> usize {
    match rng.below(100) {
        0..=54 => length,
        55..=64 => length + 1,
        65..=69 => length + RECORD,
        70..=96 => length + rng.place(3 * RECORD),
        97 => length.max(rng.pick(&[MOST_BYTES, MOST_BYTES + 1, 65_536, 65_537, 65_535, 70_000])),
        98 => length.max(rng.pick(&[131_072, 131_073, 66_000])),
        _ => length + rng.place(8000),
    }
}

/// A room that is too short for so many bytes.
fn too_short(rng: &mut Rng, length: usize, sheet: usize) -> usize {
    match rng.below(8) {
        0..=3 if length > MOST_BYTES => MOST_BYTES,
        0..=2 => length - 1,
        3 => length - 1 - rng.place(RECORD),
        4 => length - RECORD,
        5 => 0,
        6 => sheet.min(length - 1),
        _ => rng.place(length),
    }
}

/// A sheet damaged this many times.
fn damaged(rng: &mut Rng, pool: &Pool, mut plan: Plan, damages: u64) -> Case {
    let aims: Vec<Aim> = (0..damages).map(|_| rng.pick(&AIMS)).collect();
    for &aim in &aims {
        in_plan(rng, &mut plan, aim);
    }
    let mut sheet = sheet::write(rng, pool, &plan);
    for &aim in &aims {
        in_parts(rng, &mut sheet, aim);
    }
    let mut bytes = sheet.bytes();
    let mut known = None;
    if aims.contains(&Aim::Length) {
        in_length(rng, &mut bytes);
        // A part of a sheet, or one with more behind it, is none.
        known = Some(24).filter(|_| damages == 1);
    }
    // Sometimes the room is short because the sheet is longer than it was.
    let length = sheet.flow.len();
    let room = if aims.contains(&Aim::Room) { too_short(rng, length, bytes.len()) } else { enough(rng, length) };
    if damages == 1 && (aims[0] == Aim::Room || aims[0] == Aim::Unfit) {
        known = Some(says(&sheet.flow, room, aims[0] == Aim::Unfit));
    }
    let wrong = match aims[0] {
        _ if damages > 1 => None,
        Aim::Digit => sevens::in_sheet(&bytes).map(|_| 7),
        Aim::Date => heads::fault(&bytes).map(|(number, _)| number),
        Aim::Code => payers::fault(&sheet::payers(&bytes)).map(|(_, number)| number),
        _ => None,
    };
    if let Some(number) = wrong {
        // Where there is no delega it is in the head, and F4 comes before 4.
        known = Some(match says(&sheet.flow, room, false) {
            0 | 4 => number,
            other => other,
        });
    }
    Case { sheet: bytes, room, known, flow: sheet.flow }
}

/// Damages in the plan, where all else stays right.
fn in_plan(rng: &mut Rng, plan: &mut Plan, aim: Aim) {
    if plan.deleghe.is_empty() {
        return;
    }
    let at = rng.place(plan.deleghe.len());
    match aim {
        Aim::OrderType => match rng.below(3) {
            0 if plan.deleghe.len() < 4 => plan.deleghe.clear(),
            1 => beside(rng, &mut plan.deleghe[at], true),
            _ => plan.deleghe[at].sections.clear(),
        },
        Aim::OrderSubtype => beside(rng, &mut plan.deleghe[at], false),
        Aim::Most => {
            damage::too_many_lines(rng, &mut plan.deleghe[at]);
            if let Some(section) = plan.deleghe[at].sections.first_mut().filter(|_| rng.one_in(12)) {
                section.lines.resize(rng.between(30, 99) as usize, (1, 0));
            }
        }
        Aim::LineRule => damage::line_rule(rng, &mut plan.deleghe[at]),
        Aim::Negative => {
            damage::negative(rng, plan);
        }
        Aim::Unfit => unfit(rng, plan, at),
        _ => (),
    }
}

/// Section 17 beside others, of which the last is IMU or another.
fn beside(rng: &mut Rng, delega: &mut DelegaPlan, after_imu: bool) {
    delega.sections.retain(|section| section.section < if after_imu { IDENTIFYING } else { IDENTIFYING - 1 });
    let last = if after_imu { IDENTIFYING - 1 } else { rng.place(IDENTIFYING - 1) };
    if delega.sections.is_empty() || (after_imu && delega.sections.iter().all(|section| section.section != last)) {
        delega.sections.push(SectionPlan { section: last, lines: vec![(5, 0)] });
    }
    let lines = vec![(rng.between(1, 9), 0); if rng.one_in(3) { rng.between(1, 30) as usize } else { 1 }];
    delega.sections.push(SectionPlan { section: IDENTIFYING, lines });
}

/// A total, balance, final balance or sum that needs more than fifteen digits,
/// by one cent or by much; no delega becomes negative.
fn unfit(rng: &mut Rng, plan: &mut Plan, at: usize) {
    let over = if rng.one_in(2) { 1 } else { 1 + rng.wide(MOST_AMOUNT - 1) };
    let most = MOST_AMOUNT;
    let section = rng.place(IDENTIFYING);
    let one = |section, lines: &[(u64, u64)]| SectionPlan { section, lines: lines.to_vec() };
    let sections = match rng.below(8) {
        // A total debit, with its balance.
        0 => vec![one(section, &[(most, 0), (over, 0)])],
        // Both totals alone.
        1 => vec![one(section, &[(most, most), (over, over)])],
        // The total credit alone, and the total debit alone.
        2 => vec![one(0, &[(1, 0)]), one(1 + rng.place(3), &[(most, most), (0, 1)])],
        3 => vec![one(section, &[(most, 0), (over, over)])],
        // A balance, of section 17 and of one whose sign is N.
        4 => {
            let mut lines = vec![(1, 0); rng.between(1, 26) as usize];
            lines.extend([(most, 0), (over, 0)]);
            vec![one(IDENTIFYING, &lines)]
        }
        5 => vec![one(0, &[(most, 0)]), one(1, &[(over, 0)]), one(3, &[(0, most), (0, over)])],
        // The final balance alone.
        6 => vec![one(0, &[(most, 0)]), one(1 + rng.place(3), &[(over, 0)])],
        // The tail's sum alone.
        _ => {
            if plan.deleghe.len() < 2 {
                let again = plan.deleghe[0].clone();
                plan.deleghe.push(again);
            }
            let (first, second) = (at % plan.deleghe.len(), (at + 1) % plan.deleghe.len());
            plan.deleghe[second].sections = vec![one(section, &[(over, 0)])];
            plan.deleghe[first].sections = vec![one(rng.place(5), &[(most, 0)])];
            return;
        }
    };
    plan.deleghe[at].sections = sections;
}

fn in_parts(rng: &mut Rng, sheet: &mut Sheet, aim: Aim) {
    // Another damage may have taken the last of them away.
    if sheet.counts().is_empty() || sheet.places(|_| true).is_empty() {
        return;
    }
    match aim {
        Aim::Character => bad_characters(rng, sheet),
        Aim::SlotType => wrong_type(rng, sheet),
        Aim::SlotSubtype => wrong_subtype(rng, sheet),
        Aim::Digit => non_digit(rng, sheet),
        Aim::LineRule if rng.one_in(3) => {
            if let Some((Line(section), record)) = any(rng, sheet, |slot| matches!(slot, Line(_))) {
                put(record, SECTIONS[section].debit, AMOUNT, 0);
                put(record, SECTIONS[section].credit, AMOUNT, 0);
            }
        }
        Aim::Name => wrong_name(rng, sheet),
        Aim::Date => {
            if let Some((_, record)) = any(rng, sheet, |slot| slot == Head) {
                dates::spoil(rng, record);
            }
        }
        Aim::Code => wrong_code(rng, sheet),
        Aim::CountDigit => {
            let mut counts = sheet.counts();
            let at = rng.pick(&counts);
            // Large counts are few.
            counts.retain(|&at| matches!(&sheet.parts[at], Part::Count(digits) if get(digits, 1, digits.len()) >= 9));
            let at = if counts.is_empty() || rng.one_in(2) { at } else { rng.pick(&counts) };
            no_digits(rng, sheet.count(at));
        }
        Aim::CountOff => count_off(rng, sheet),
        _ => (),
    }
}

/// A character that is no digit, mostly one that a careless reader would take
/// for the number that was there.
fn no_digits(rng: &mut Rng, count: &mut [u8]) {
    let width = count.len();
    let number = get(count, 1, width);
    let last = width - 1;
    let place = rng.place(width);
    match rng.below(8) {
        0 => count[place] = rng.pick(b"/: Oo-+.,\0\n\xb0\xff"),
        1 => count[place] = rng.next() as u8,
        2 => count[place] |= 128,
        3 => count[place] = count[place].wrapping_sub(b'0'),
        // Ten more in the last place, ten less before it; or one less than 0.
        4 if number >= 10 => {
            put(count, 1, width, number - 10);
            count[last] = count[last].wrapping_add(10);
        }
        5 if number % 10 == 9 => {
            put(count, 1, width, number + 1);
            count[last] = b'/';
        }
        _ => {
            // Zeros in front that are none, or all of them.
            let zero = rng.pick(b"  /O\0+-");
            let upto = if rng.one_in(3) { width } else { place + 1 };
            count[..upto].iter_mut().filter(|byte| **byte == b'0').for_each(|byte| *byte = zero);
        }
    }
}

/// A record of such a slot.
fn any<'a>(
    rng: &mut Rng,
    sheet: &'a mut Sheet,
    wanted: impl Fn(Kind) -> bool,
) -> Option<(Kind, &'a mut sheet::Record)> {
    let places = sheet.places(wanted);
    if places.is_empty() {
        return None;
    }
    Some(sheet.record(rng.pick(&places)))
}

/// Bytes outside 32 to 126, where they are looked at and where they are not.
fn bad_characters(rng: &mut Rng, sheet: &mut Sheet) {
    for _ in 0..if rng.one_in(4) { rng.between(2, 4) } else { 1 } {
        let byte = match rng.below(3) {
            0 => rng.pick(&[0, 9, 10, 13, 31, 127, 128, 160, 255]),
            1 => rng.below(32) as u8,
            _ => rng.between(127, 255) as u8,
        };
        let wanted = rng.pick(&[None, None, None, Some(Payment), Some(Tail), Some(Head)]);
        if let Some((slot, record)) = any(rng, sheet, |slot| wanted.map_or(true, |kind| slot == kind)) {
            let place = match (rng.below(6), filled(slot)) {
                (0, _) => rng.pick(&[0, 1, 2, 118, 119]),
                // Beside a filled field, or in it.
                (1 | 2, fields) if !fields.is_empty() => {
                    let (start, width) = rng.pick(fields);
                    rng.pick(&[start - 2, start - 1 + width])
                }
                (3, fields) if !fields.is_empty() => {
                    let (start, width) = rng.pick(fields);
                    start - 1 + rng.place(width)
                }
                _ => rng.place(RECORD),
            };
            record[place] = byte;
        }
    }
}

/// The type of another kind, with its subtype or without; or another record.
fn wrong_type(rng: &mut Rng, sheet: &mut Sheet) {
    let places = sheet.places(|_| true);
    let at = if rng.one_in(3) { rng.pick(&[places[0], places[places.len() - 1]]) } else { rng.pick(&places) };
    match rng.below(7) {
        6 => {
            // One character of the type.
            let place = TYPE - 1 + rng.place(2);
            sheet.record(at).1[place] = rng.pick(b" 012456EFefO");
        }
        0 | 1 => {
            let bytes = match rng.below(3) {
                0 => {
                    rng.pick(&[*b"30", *b"4 ", *b" 4", *b"05", *b"f4", *b"ef", *b"F5", *b"01", *b"04", *b"60", *b"E4"])
                }
                _ => rng.pick(&KINDS).type_bytes(),
            };
            sheet.record(at).1[TYPE - 1..=TYPE].copy_from_slice(&bytes);
        }
        2 => {
            let kind = rng.pick(&KINDS);
            become_kind(sheet.record(at).1, kind);
        }
        3 => {
            // What the order would let stand: the tail for the next delega, a
            // new delega or a receipt for the tail, a line for the payment.
            let (slot, record) = sheet.record(at);
            let kind = match slot {
                Payer => rng.pick(&[Tail, Receipt]),
                Tail => rng.pick(&[Payer, Receipt]),
                Payment => Line(rng.place(5)),
                Line(_) => Payment,
                _ => rng.pick(&KINDS),
            };
            become_kind(record, kind);
        }
        _ => {
            // Two records exchanged.
            let other = rng.pick(&places);
            let (one, two) = (*sheet.record(at).1, *sheet.record(other).1);
            *sheet.record(at).1 = two;
            *sheet.record(other).1 = one;
        }
    }
}

fn become_kind(record: &mut [u8], kind: Kind) {
    record[TYPE - 1..=TYPE].copy_from_slice(&kind.type_bytes());
    if let Some(subtype) = kind.subtype() {
        put(record, SUBTYPE, 2, subtype);
    }
}

/// Another subtype, the type kept.
fn wrong_subtype(rng: &mut Rng, sheet: &mut Sheet) {
    if rng.one_in(4) {
        move_line(rng, sheet);
        return;
    }
    let only_payments = rng.one_in(3);
    let wanted = |slot| slot == Payment || (!only_payments && matches!(slot, Line(_)));
    if let Some((slot, record)) = any(rng, sheet, wanted) {
        match (rng.below(6), slot) {
            (0, _) => {
                let bytes = rng.pick(&[*b"  ", *b" 1", *b"1 ", *b"0A", *b"O1", *b"0/", *b"0:"]);
                record[SUBTYPE - 1..=SUBTYPE].copy_from_slice(&bytes);
            }
            (1, _) if rng.one_in(2) => put(record, SUBTYPE, 2, rng.below(100)),
            (1, _) => record[SUBTYPE - 1 + rng.place(2)] = rng.pick(b" 0123578Oo"),
            (2, Line(section)) => put(record, SUBTYPE, 2, SECTIONS[section].line + 1),
            (3, Line(section)) => put(record, SUBTYPE, 2, SECTIONS[(section + 1) % 5].line),
            (_, Payment) => put(record, SUBTYPE, 2, rng.between(2, 3)),
            _ => put(record, SUBTYPE, 2, SECTIONS[rng.place(5)].line),
        }
    }
}

/// A line counted among those of the section before or after its own.
fn move_line(rng: &mut Rng, sheet: &mut Sheet) {
    let is_line = |at: usize| matches!(sheet.parts.get(at), Some(Part::Record(Line(_), _)));
    // Counts of two sections, with nothing but lines between them.
    let counts = sheet.counts();
    let pairs = counts.windows(2).map(|pair| (pair[0], pair[1]));
    let pairs: Vec<(usize, usize)> =
        pairs.filter(|&(a, b)| (a + 1..b).all(is_line) && (b > a + 1 || is_line(b + 1))).collect();
    if pairs.is_empty() {
        return;
    }
    let (a, b) = rng.pick(&pairs);
    let onward = b > a + 1 && (!is_line(b + 1) || rng.one_in(2));
    let (less, more) = if onward { (a, b) } else { (b, a) };
    for (at, by) in [(less, 99), (more, 1)] {
        let lines = get(sheet.count(at), 1, 2);
        put(sheet.count(at), 1, 2, (lines + by) % 100);
    }
    let at = if onward { b - 1 } else { b };
    sheet.parts.swap(at, at + 1);
}

/// Non-digits in a field that is read, and often in another of the record, which
/// may be one that is filled.
fn non_digit(rng: &mut Rng, sheet: &mut Sheet) {
    let head = rng.one_in(3);
    if let Some((slot, record)) = any(rng, sheet, |slot| if head { slot == Head } else { matches!(slot, Line(_)) }) {
        damage::spoil(rng, record, &read(slot));
        if slot != Head && rng.one_in(2) {
            damage::spoil(rng, record, &slot.numeric());
        }
    }
}

/// "/" and ":" in the head's name, beside it, or in the tail's.
fn wrong_name(rng: &mut Rng, sheet: &mut Sheet) {
    let place = damage::name_place(rng);
    let byte = rng.pick(b"////::::.0;9");
    let which = rng.below(6);
    for (slot, here) in [(Head, which != 0), (Tail, which < 2)] {
        if let Some((_, record)) = any(rng, sheet, |kind| kind == slot && here) {
            record[place] = byte;
        }
    }
}

/// No tax code, often in the last delega, and now and then something wrong in
/// the record behind it as well.
fn wrong_code(rng: &mut Rng, sheet: &mut Sheet) {
    let places = sheet.places(|slot| slot == Payer);
    if places.is_empty() {
        return;
    }
    let at = if rng.one_in(3) { places[places.len() - 1] } else { rng.pick(&places) };
    codes::spoil(rng, sheet.record(at).1);
    if rng.one_in(8) && matches!(sheet.parts.get(at + 1), Some(Part::Record(..))) {
        codes::spoil_otherwise(rng, sheet.record(at + 1).1);
    }
}

/// A count that is not that of what follows, or more or fewer parts.
fn count_off(rng: &mut Rng, sheet: &mut Sheet) {
    let at = rng.pick(&sheet.counts());
    let width = sheet.count(at).len();
    let old = get(sheet.count(at), 1, width);
    match rng.below(8) {
        0 | 1 => put(sheet.count(at), 1, width, old + 1),
        2 => put(sheet.count(at), 1, width, old.saturating_sub(1)),
        3 => put(sheet.count(at), 1, width, rng.pick(&[0, 1, 10, 99, 100, 999])),
        4 => {
            // The tail, or any part, is missing.
            let last = sheet.parts.len() - 1;
            let at = if rng.one_in(2) { last } else { rng.place(sheet.parts.len()) };
            sheet.parts.remove(at);
        }
        5 => {
            let at = rng.place(sheet.parts.len());
            let again = sheet.parts[at].clone();
            sheet.parts.insert(at, again);
        }
        6 => {
            // A section that is counted and has no line, the tail in its place.
            put(sheet.count(at), 1, width, old + 1);
            let again = sheet.parts[sheet.parts.len() - 1].clone();
            sheet.parts.insert(at + 1, again);
        }
        _ => {
            // Line ends, as an editor has them.
            let parts = std::mem::take(&mut sheet.parts);
            sheet.parts = parts.into_iter().flat_map(|part| [part, Part::LineEnd]).collect();
        }
    }
}

/// Cut somewhere, or with something behind its end.
fn in_length(rng: &mut Rng, bytes: &mut Vec<u8>) {
    let length = bytes.len();
    match rng.below(8) {
        0 => bytes.truncate(length.saturating_sub(1)),
        1 => bytes.truncate(length.saturating_sub(RECORD)),
        2 => bytes.truncate(rng.place(length)),
        3 => bytes.truncate(rng.pick(&[0, 0, 1, 119, 120, 122, 123])),
        4 => bytes.truncate(length.saturating_sub(1 + rng.place(RECORD + 20))),
        5 => bytes.push(rng.pick(b"\n 0\0")),
        6 => bytes.extend_from_slice(&[b' '; RECORD]),
        _ => {
            let more = 1 + rng.place(2 * RECORD);
            let again: Vec<u8> = bytes[length - more.min(length)..].to_vec();
            bytes.extend(again);
        }
    }
}

/// Changes that aim at nothing.
fn wild(rng: &mut Rng, pool: &Pool, plan: &Plan) -> Case {
    let mut case = sound_case(rng, pool, plan);
    let bytes = &mut case.sheet;
    let length = bytes.len();
    match rng.below(6) {
        0 => {
            for _ in 0..rng.between(1, 3) {
                bytes[rng.place(length)] = 32 + rng.below(95) as u8;
            }
        }
        1 => {
            for _ in 0..rng.between(1, 3) {
                bytes[rng.place(length)] ^= 1 << rng.below(8);
            }
        }
        2 => {
            let digits: Vec<usize> = (0..length).filter(|&at| bytes[at].is_ascii_digit()).collect();
            bytes[rng.pick(&digits)] = b'0' + rng.below(10) as u8;
        }
        3 => {
            let printable = rng.one_in(2);
            let random = |_| if printable { 32 + rng.below(95) as u8 } else { rng.next() as u8 };
            *bytes = (0..500).map(random).collect();
            bytes.truncate(rng.place(500));
        }
        4 => {
            // Moved along by some bytes.
            bytes.rotate_left(1 + rng.place(119));
        }
        _ => {
            // The front of one sheet and the back of another.
            let next = sheet::plan(rng, Size::Flow(sound::Size::Small));
            let other = sheet::write(rng, pool, &next).bytes();
            bytes.truncate(rng.place(length + 1));
            bytes.extend_from_slice(&other[rng.place(other.len())..]);
        }
    }
    case
}
