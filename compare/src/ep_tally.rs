//! How often what came up in judgements of the F24 EP form.

use crate::calls::NO_ROOM;
use crate::ep_beside::BESIDE;
use crate::ep_columns::*;
use crate::ep_damage::*;
use crate::ep_fields::FIELDS;
use crate::ep_judging::Left;
use crate::ep_large::LARGES;
use crate::ep_orders::{LENGTHS, ORDERS};
use crate::ep_sound::{PATTERNS, TOO_LARGE};
use crate::ep_texts::TEXTS;
use crate::sorts;

/// The answers in the order of the tally: 31 and 33 by what stands there.
#[rustfmt::skip]
pub const ANSWERS: [(u64, &str); 12] = [
    (0, "0 accepted"), (30, "30 length"), (31, "31 a V first"), (31, "31 an M behind an M"),
    (31, "31 the end behind an M"), (31, "31 unknown behind an M"), (31, "31 unknown elsewhere"),
    (32, "32 digits"), (33, "33 of a V"), (33, "33 of the first M"), (33, "33 of a later M"), (NO_ROOM, "100 room"),
];

/// Which of the answers it is.
pub fn answer_of(bytes: &[u8], code: u64, record: u64) -> usize {
    let kind = |at: u64| bytes.get(at as usize * RECORD).copied();
    let place = |name: &str| ANSWERS.iter().position(|answer| answer.1 == name).expect("a name of the table");
    match code {
        31 => place(match (kind(record - 1), record) {
            (None, _) => "31 the end behind an M",
            (Some(b'V'), _) => "31 a V first",
            (Some(b'M'), _) => "31 an M behind an M",
            (_, record) if record > 1 && kind(record - 2) == Some(b'M') => "31 unknown behind an M",
            _ => "31 unknown elsewhere",
        }),
        33 => place(match (kind(record - 1), record) {
            (Some(b'V'), _) => "33 of a V",
            (_, 1) => "33 of the first M",
            _ => "33 of a later M",
        }),
        _ => ANSWERS.iter().position(|answer| answer.0 == code).unwrap_or_else(|| panic!("{code} answers nothing")),
    }
}

/// The total of an accepted M by its text, each with the most cents.
#[rustfmt::skip]
const TOTALS: [(u64, &str); 12] = [
    (0, "0,00"), (99, "to 0,99"), (99_998, "to 999,98"), (99_999, "999,99"), (100_000, "1.000,00"),
    (99_999_999, "to 999.999,99"), (99_999_999_998, "to 999.999.999,98"), (99_999_999_999, "999.999.999,99"),
    (100_000_000_000, "1000000000,00"), (MOST_TOTAL - 3, "to 999999999999,96"), (MOST_TOTAL - 1, "and two more"),
    (MOST_TOTAL, "999999999999,99"),
];

/// The record that is told, or the number of them.
#[rustfmt::skip]
const RECORDS: [(u64, &str); 8] = [
    (1, "1"), (2, "2"), (3, "3"), (6, "4 to 6"), (20, "7 to 20"), (255, "21 to 255"), (2000, "256 to 2,000"),
    (u64::MAX, "more"),
];

#[derive(Default)]
pub struct Tally {
    answers: [u64; ANSWERS.len()],
    families: [u64; FAMILIES.len()],
    lengths: [u64; LENGTHS.len()],
    orders: [u64; ORDERS.len()],
    fields: [u64; FIELDS.len()],
    texts: [u64; TEXTS.len()],
    too_large: [u64; TOO_LARGE.len()],
    beside: [u64; BESIDE.len()],
    wilds: [u64; WILDS.len()],
    larges: [u64; LARGES.len()],
    /// Of accepted records.
    patterns: [u64; PATTERNS.len()],
    totals: [u64; TOTALS.len()],
    accepted: [u64; RECORDS.len()],
    /// Of refused ones.
    refused: [u64; RECORDS.len()],
    /// Known by the plan: accepted and refused.
    known: [u64; 2],
    /// Bytes in all, and calls at the start.
    bytes: u64,
    pub first: u64,
}

/// The first of a table's rows that a number does not pass.
fn up_to(table: &[(u64, &str)], number: u64) -> usize {
    table.iter().position(|row| number <= row.0).unwrap_or(table.len() - 1)
}

impl Tally {
    pub fn no_room(&mut self) {
        self.answers[ANSWERS.len() - 1] += 1;
    }

    pub fn count(&mut self, case: &Case, left: &Left) {
        let Case { bytes, family, sort, .. } = case;
        self.answers[answer_of(bytes, left.code, left.answer[0])] += 1;
        self.families[*family] += 1;
        let sorts: &mut [u64] = match *family {
            LENGTH => &mut self.lengths,
            ORDER => &mut self.orders,
            FIELD => &mut self.fields,
            TEXT => &mut self.texts,
            TOO => &mut self.too_large,
            TWO => &mut self.beside,
            WILD => &mut self.wilds,
            LARGE => &mut self.larges,
            _ => &mut [],
        };
        sorts.iter_mut().skip(*sort).take(1).for_each(|count| *count += 1);
        self.bytes += bytes.len() as u64;
        if let Some(known) = case.known {
            self.known[usize::from(known[0] != 0)] += 1;
        }
        if left.code == 0 {
            self.accepted[up_to(&RECORDS, (bytes.len() / RECORD) as u64)] += 1;
            if case.known.is_some() && *family != LARGE {
                self.patterns[case.pattern] += 1;
                case.sums.iter().for_each(|&sum| self.totals[up_to(&TOTALS, sum)] += 1);
            }
        } else if left.code > 30 {
            self.refused[up_to(&RECORDS, left.answer[0])] += 1;
        }
    }

    /// What comes up least: an answer, a family, a sort of each, rows, a total.
    pub fn rarest(&self) -> [Option<(u64, String)>; 10] {
        [
            sorts::rarest(&self.answers, &ANSWERS, "ep"),
            sorts::rarest(&self.lengths, &LENGTHS, "ep, length:"),
            sorts::rarest(&self.orders, &ORDERS, "ep, order:"),
            sorts::rarest(&self.fields, &FIELDS, "ep, field:"),
            sorts::rarest(&self.texts, &TEXTS, "ep, text:"),
            sorts::rarest(&self.too_large, &TOO_LARGE, "ep, no text:"),
            sorts::rarest(&self.beside, &BESIDE, "ep, two:"),
            sorts::rarest(&self.wilds, &WILDS, "ep, wild:"),
            sorts::rarest(&self.patterns, &PATTERNS, "ep, rows:"),
            sorts::rarest(&self.totals, &TOTALS, "ep, total:"),
        ]
    }

    /// The sort of large sets that came up least.
    pub fn rarest_large(&self) -> [Option<(u64, String)>; 1] {
        [sorts::rarest(&self.larges, &LARGES, "ep, large:")]
    }

    pub fn print(&self) {
        self.print_answers();
        sorts::print("records", &self.families, &FAMILIES, "ep");
        sorts::print("a length that is none", &self.lengths, &LENGTHS, "ep");
        sorts::print("an order that is none", &self.orders, &ORDERS, "ep");
        sorts::print("a field of a V", &self.fields, &FIELDS, "ep");
        sorts::print("a total's text", &self.texts, &TEXTS, "ep");
        sorts::print("a sum that has no text", &self.too_large, &TOO_LARGE, "ep");
        sorts::print("two faults, one told", &self.beside, &BESIDE, "ep");
        sorts::print("wild", &self.wilds, &WILDS, "ep");
        sorts::print("10,000 records or about", &self.larges, &LARGES, "ep");
        sorts::print("rows used, of accepted records", &self.patterns, &PATTERNS, "ep");
        sorts::print("total, of an accepted M", &self.totals, &TOTALS, "ep");
        sorts::print("accepted, by records", &self.accepted, &RECORDS, "ep");
        sorts::print("refused, by the record told", &self.refused, &RECORDS, "ep");
        let [accepted, refused] = self.known;
        println!("known by the plan: {accepted} accepted, {refused} refused; {} bytes in all", self.bytes);
        println!("calls before the first case: {}", self.first);
    }

    pub fn print_answers(&self) {
        sorts::print("answer", &self.answers, &ANSWERS, "ep");
    }
}
