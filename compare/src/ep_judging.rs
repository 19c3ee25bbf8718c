//! Lets the library and the reference judge the same records of the F24 EP form, and
//! compares everything that either leaves behind. What both leave is held to what the
//! generator says of the records.

use crate::calls::{EP_ROOM, NO_ROOM};
use crate::ep_account::Told;
use crate::ep_columns::{MOST_RECORDS, RECORD};
use crate::ffi;
use crate::lent::{canary, Lent, Place};
use crate::report;
use crate::rival;
use crate::rng::Rng;
use std::io;
use std::path::Path;

/// The longest that is tried.
pub const LONGEST: usize = (MOST_RECORDS + 10) * RECORD;

/// So many numbers more than the answer needs are lent at most.
pub const MORE: usize = 5;

/// What a call answered and what it left of the answer's room.
#[derive(Clone, PartialEq)]
pub struct Left {
    pub code: u64,
    pub answer: Vec<u64>,
}

pub type Compared<T> = Result<T, Box<Difference>>;

/// A call on which the sides are not the same, or not as they must be.
pub struct Difference {
    why: String,
    records: Vec<u8>,
    before: Vec<u64>,
    library: Left,
    reference: Left,
    /// What the library left of the records.
    after: Vec<u8>,
}

/// The memory that is lent to the library.
pub struct Sides {
    records: Lent,
    answer: Lent,
}

impl Sides {
    pub fn new() -> Self {
        Sides { records: Lent::new(LONGEST), answer: Lent::new(8 * (EP_ROOM + MORE)) }
    }

    /// Compares a call with an answer of so many numbers, and what both sides leave with
    /// what the generator says.
    pub fn compare(&mut self, rng: &mut Rng, records: &[u8], room: usize, says: Told) -> Compared<Left> {
        assert!(records.len() <= LONGEST && room <= EP_ROOM + MORE);
        let before = canary(rng, room);
        let mut reference = Left { code: 0, answer: before.clone() };
        reference.code = rival::ep_judge(records, &mut reference.answer);

        let place = match rng.below(4) {
            0 => Place::Start,
            1 => Place::Within(1 + rng.place(63)),
            _ => Place::End,
        };
        let records_part = self.records.part(records.len(), place);
        let any_end = if rng.one_in(2) { Place::End } else { Place::Start };
        let answer_part = self.answer.part(8 * room, any_end);
        self.records.bytes(&records_part).copy_from_slice(records);
        let answer = self.answer.numbers(&answer_part);
        answer.copy_from_slice(&before);
        let code = ffi::ep_judge(self.records.bytes(&records_part), answer);
        let library = Left { code, answer: answer.to_vec() };

        let why = if library != reference {
            format!("{} by the {}", what_differs(&library, &reference), ffi::NAME)
        } else if self.records.bytes(&records_part) != records {
            format!("the records were written to by the {}", ffi::NAME)
        } else if !self.records.kept(&records_part) || !self.answer.kept(&answer_part) {
            "bytes beside the lent memory were written".to_string()
        } else {
            let says = said(says, &before);
            if says == reference {
                return Ok(reference);
            }
            let told = &says.answer[..room.min(EP_ROOM)];
            format!("{}: the generator says {} {told:?}", what_differs(&reference, &says), says.code)
        };
        let after = self.records.bytes(&records_part).to_vec();
        Err(Box::new(Difference { why, records: records.to_vec(), before, library, reference, after }))
    }
}

/// What a call leaves by what the generator says of it with room for its answer.
fn said([code, one, other]: Told, before: &[u64]) -> Left {
    let mut left = Left { code, answer: before.to_vec() };
    match left.answer.get_mut(..EP_ROOM) {
        Some(answer) => answer.copy_from_slice(&[one, other]),
        None => left.code = NO_ROOM,
    }
    left
}

fn what_differs(one: &Left, other: &Left) -> &'static str {
    if one.code != other.code {
        "what is answered"
    } else {
        "the answer's numbers"
    }
}

impl Difference {
    /// A plan that says otherwise than all others.
    pub fn of_plan(why: String, records: &[u8], left: &Left) -> Box<Self> {
        let (library, reference) = (left.clone(), left.clone());
        let (records, after) = (records.to_vec(), records.to_vec());
        Box::new(Difference { why, records, before: Vec::new(), library, reference, after })
    }

    /// Writes `records`, `after-library` and `difference.txt`.
    pub fn write(&self, folder: &Path, case: &str) -> io::Result<String> {
        let files: [(&str, &[u8]); 2] = [("records", &self.records), ("after-library", &self.after)];
        report::write_files(folder, &files, self.text(case))
    }

    fn text(&self, case: &str) -> String {
        let (length, records) = (self.records.len(), self.records.len() / RECORD);
        let kinds: String = self.records.chunks(RECORD).take(60).map(|record| char::from(record[0])).collect();
        let mut text = format!("case: {case}\ndiffers: {}\n", self.why);
        text += &format!("call: f24_ep_judge, {length} bytes, {records} records, types {kinds:?}\n");
        text += &format!("answer before: {:?}\n", self.before);
        for (name, left) in [(ffi::NAME, &self.library), ("reference", &self.reference)] {
            text += &format!("{name}: answers {}, answer after {:?}\n", left.code, left.answer);
        }
        if let Some(at) = (0..length).find(|&at| self.records[at] != self.after[at]) {
            let (record, position) = (at / RECORD + 1, at % RECORD + 1);
            text += &format!("first byte written to: record {record} position {position}\n");
        }
        text
    }
}
