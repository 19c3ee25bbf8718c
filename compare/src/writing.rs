//! Lets the library and the reference write the flow of the same sheet into
//! rooms of the same bytes, and compares everything that either leaves behind.

use crate::calls::NO_ROOM;
use crate::columns::{COUNT, RECORD, TAIL_DELEGHE};
use crate::ffi;
use crate::heads::{self, Dates};
use crate::lent::{Lent, Place};
use crate::payers::{self, Codes};
use crate::report;
use crate::rival::{self, WRITE_NEEDS};
use crate::rng::Rng;
use crate::sevens::{self, Sevens};
use crate::sheet;
use crate::sheet_damage::Case;
use crate::sound::get;
use std::io;
use std::path::Path;

/// The longest sheet and the longest room that are tried.
const MOST_SHEET: usize = 600_000;
const MOST_ROOM: usize = 700_000;
/// More numbers than the answer needs.
const MOST_ANSWER: usize = WRITE_NEEDS + 5;

/// What a call answered and what it left.
pub struct Left {
    code: u64,
    answer: Vec<u64>,
    room: Vec<u8>,
}

/// A sheet on which the sides are not the same, or not as they must be.
pub struct Difference {
    why: String,
    sheet: Vec<u8>,
    room: Vec<u8>,
    answer: Vec<u64>,
    reference: Left,
    library: Left,
}

pub struct Writings {
    sheet: Lent,
    room: Lent,
    answer: Lent,
    pub tally: Tally,
}

impl Writings {
    pub fn new() -> Self {
        Writings {
            sheet: Lent::new(MOST_SHEET),
            room: Lent::new(MOST_ROOM),
            answer: Lent::new(8 * MOST_ANSWER),
            tally: Tally::default(),
        }
    }

    /// Compares a case, now and then with too little room for the answer first.
    pub fn compare(&mut self, rng: &mut Rng, case: &Case) -> Result<u64, Box<Difference>> {
        if rng.one_in(16) {
            let numbers = rng.place(WRITE_NEEDS);
            let short = Case { sheet: case.sheet.clone(), room: case.room, known: Some(NO_ROOM), flow: Vec::new() };
            self.compare_with(rng, &short, numbers)?;
        }
        let numbers = WRITE_NEEDS + if rng.one_in(2) { 0 } else { rng.place(5) };
        self.compare_with(rng, case, numbers)
    }

    fn compare_with(&mut self, rng: &mut Rng, case: &Case, numbers: usize) -> Result<u64, Box<Difference>> {
        assert!(case.sheet.len() <= MOST_SHEET && case.room <= MOST_ROOM && numbers <= MOST_ANSWER);
        let (first, step) = (rng.next(), rng.next() | 1);
        let before: Vec<u8> = (0..case.room as u64).map(|at| (first ^ at.wrapping_mul(step)) as u8).collect();
        let answer: Vec<u64> = (0..numbers as u64).map(|at| first.wrapping_add(at.wrapping_mul(step))).collect();

        let mut reference = Left { code: 0, answer: answer.clone(), room: before.clone() };
        reference.code = rival::write(&case.sheet, &mut reference.room, &mut reference.answer);
        let (library, left) = self.ask_library(rng, &case.sheet, &before, &answer);

        let why = if library.code != reference.code {
            "what the library answers".to_string()
        } else if library.answer != reference.answer {
            "the answer's numbers".to_string()
        } else if library.room != reference.room {
            "the room".to_string()
        } else if let Some(what) = left {
            what.to_string()
        } else {
            match unlike(case, &before, &reference) {
                None => {
                    let way = way(&case.sheet, case.room, reference.code);
                    self.tally.count(case, way.expect("no such answer was let through"), &reference);
                    return Ok(reference.code);
                }
                Some(why) => why,
            }
        };
        let sheet = case.sheet.clone();
        Err(Box::new(Difference { why, sheet, room: before, answer, reference, library }))
    }

    /// What the library left, and what else it wrote to, if it did.
    fn ask_library(
        &mut self,
        rng: &mut Rng,
        sheet: &[u8],
        before: &[u8],
        answer: &[u64],
    ) -> (Left, Option<&'static str>) {
        let mut place = || match rng.below(4) {
            0 => Place::Start,
            1 => Place::Within(1 + rng.place(63)),
            _ => Place::End,
        };
        let sheet_part = self.sheet.part(sheet.len(), place());
        let room_part = self.room.part(before.len(), place());
        let place = if rng.one_in(2) { Place::End } else { Place::Start };
        let answer_part = self.answer.part(8 * answer.len(), place);
        let lent = self.sheet.bytes(&sheet_part);
        lent.copy_from_slice(sheet);
        let room = self.room.bytes(&room_part);
        room.copy_from_slice(before);
        let numbers = self.answer.numbers(&answer_part);
        numbers.copy_from_slice(answer);
        let code = ffi::write(lent, room, numbers);
        let left = Left { code, answer: numbers.to_vec(), room: room.to_vec() };
        let wrong = if *lent != *sheet {
            Some("the sheet was written to")
        } else if !self.sheet.kept(&sheet_part) || !self.room.kept(&room_part) || !self.answer.kept(&answer_part) {
            Some("bytes beside the lent memory were written")
        } else {
            None
        };
        (left, wrong)
    }
}

/// In what both sides are wrong: what is refused leaves the room as it was,
/// what is written is accepted, and what the generator knows is so.
fn unlike(case: &Case, before: &[u8], left: &Left) -> Option<String> {
    if let Some(known) = case.known {
        if known != left.code {
            return Some(format!("the generator says {known}"));
        }
    }
    if left.code == 7 {
        if let Err(why) = sevens::told(sevens::in_sheet(&case.sheet), &left.answer) {
            return Some(why);
        }
    }
    if let Some(why) = heads::unlike(&case.sheet, left.code, &left.answer) {
        return Some(why);
    }
    if let Some(why) = payers::unlike(|| sheet::payers(&case.sheet), left.code, &left.answer) {
        return Some(why);
    }
    if way(&case.sheet, case.room, left.code).is_none() {
        return Some("both give a number that answers no sheet".to_string());
    }
    if left.code != 0 {
        return Some("the room, though nothing is written".to_string()).filter(|_| left.room != before);
    }
    let length = left.answer[0] as usize;
    if length > before.len() || left.room[length..] != before[length..] {
        return Some("the room past the flow".to_string());
    }
    let flow = &left.room[..length];
    if let Err(refusal) = reference::judge(flow) {
        return Some(format!("what is written is {refusal}"));
    }
    let known = case.known.is_some() && *flow != case.flow[..];
    Some("not the flow that the generator says".to_string()).filter(|_| known)
}

/// The answers to a sheet in the order of the tally: 4 comes in four ways.
pub const WAYS: [&str; 18] = [
    "0 written",
    "1",
    "3",
    "4 slot, at 2",
    "4 slot, at 11",
    "4 order, at 2",
    "4 order, at 11",
    "6",
    "7",
    "9",
    "14",
    "16",
    "17",
    "23",
    "24",
    "25",
    "26",
    "100 room",
];

/// The place in that order; `None` for a number that answers no sheet.
pub fn way(sheet: &[u8], room: usize, code: u64) -> Option<usize> {
    if code == 4 {
        let refused = reference::write_or_tell(sheet, &mut vec![0; room]).err()?;
        return Some(3 + usize::from(refused.refusal.position != 2) + if refused.by_slot { 0 } else { 2 });
    }
    WAYS.iter().position(|way| way.split(' ').next() == Some(code.to_string().as_str()))
}

/// How often each answer came up.
#[derive(Default)]
pub struct Tally {
    counts: [u64; WAYS.len()],
    /// Sheets written by the records of the flow and by its deleghe, and those
    /// with bytes of the room past it.
    records: [u64; 6],
    deleghe: [u64; 5],
    past: u64,
    /// Answers that the generator knew.
    known: u64,
    /// Where 7 was told.
    pub sevens: Sevens,
    pub dates: Dates,
    pub codes: Codes,
}

impl Tally {
    fn count(&mut self, case: &Case, way: usize, left: &Left) {
        self.counts[way] += 1;
        self.known += u64::from(case.known.is_some());
        self.dates.count(&case.sheet, left.code);
        self.codes.count(|| sheet::payers(&case.sheet), left.code, &left.answer);
        if left.code == 7 {
            sevens::in_sheet(&case.sheet).iter().for_each(|character| self.sevens.count(character));
        }
        if left.code != 0 {
            return;
        }
        let length = left.answer[0] as usize;
        self.past += u64::from(length < case.room);
        let flow = &left.room[..length];
        self.records[size(flow.len() / RECORD, &[8, 16, 64, 256, 545])] += 1;
        let deleghe = get(&flow[length - RECORD..], TAIL_DELEGHE, COUNT) as usize;
        self.deleghe[size(deleghe, &[1, 3, 16, 64])] += 1;
    }

    /// The answer that came up least, calls with too little room left aside.
    pub fn rarest(&self) -> (u64, &'static str) {
        let answers = self.counts.iter().zip(WAYS).take(WAYS.len() - 1);
        answers.map(|(&times, way)| (times, way)).min().unwrap_or((0, ""))
    }

    pub fn print(&self) {
        println!("{:<16} {:>10}", "answer", "write");
        for (way, count) in WAYS.iter().zip(&self.counts) {
            match count {
                0 => println!("{way:<16} {:>10}", "-"),
                count => println!("{way:<16} {count:>10}"),
            }
        }
        let line = |what: &str, names: &[&str], counts: &[u64]| {
            let parts: Vec<String> = names.iter().zip(counts).map(|(name, count)| format!("{name}: {count}")).collect();
            println!("sheets written by {what}: {}", parts.join(", "));
        };
        line("records", &["7-8", "9-16", "17-64", "65-256", "257-545", "546"], &self.records);
        line("deleghe", &["1", "2-3", "4-16", "17-64", "65-108"], &self.deleghe);
        println!("sheets written into a longer room: {}", self.past);
        println!("answers that the generator knew: {}", self.known);
        self.sevens.print("write");
        self.dates.print("write");
        self.codes.print("write");
    }
}

/// Which of the ranges that end at these numbers one is in.
fn size(number: usize, ends: &[usize]) -> usize {
    ends.iter().take_while(|&&end| number > end).count()
}

impl Difference {
    /// Writes `sheet`, the room before and after, and `difference.txt`.
    pub fn write(&self, folder: &Path, case: &str) -> io::Result<String> {
        let files: [(&str, &[u8]); 4] = [
            ("sheet", &self.sheet),
            ("room-before", &self.room),
            ("room-reference", &self.reference.room),
            ("room-library", &self.library.room),
        ];
        report::write_files(folder, &files, self.text(case))
    }

    fn text(&self, case: &str) -> String {
        let mut text = format!("case: {case}\ndiffers: {}\n", self.why);
        let (sheet, room) = (self.sheet.len(), self.room.len());
        text += &format!("call: f24_write, sheet of {sheet} bytes, room of {room} bytes\n");
        text += &format!("answer before: {:?}\n", self.answer);
        for (name, left) in [(ffi::NAME, &self.library), ("reference", &self.reference)] {
            text += &format!("{name}: answers {}, answer after {:?}\n", left.code, left.answer);
            let changed: Vec<usize> = (0..room).filter(|&at| self.room[at] != left.room[at]).collect();
            text += &match (changed.first(), changed.last()) {
                (Some(&first), Some(&last)) => {
                    format!("  changed {} bytes of the room, from {} to {}\n", changed.len(), place(first), place(last))
                }
                _ => "  left the room as it came\n".to_string(),
            };
        }
        let (one, other) = (&self.library.room, &self.reference.room);
        if let Some(at) = (0..room).find(|&at| one[at] != other[at]) {
            text += &format!("first byte that differs after the call: {}, {} and {}\n", place(at), one[at], other[at]);
        }
        text
    }
}

/// A place in the room, counted from 0, as record and position of the flow.
fn place(at: usize) -> String {
    format!("record {} position {}", at / RECORD + 1, at % RECORD + 1)
}
