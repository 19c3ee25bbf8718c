//! A call that is lent a flow, a list of numbers, now and then a record of sums, and
//! an answer, made on both sides from the same contents. Everything that either
//! leaves behind is compared, and what both leave is held to what the generator says.

use crate::calls::{Call, MOST_NUMBERS, NO_ROOM, WRONG_RECORD};
use crate::columns::RECORD;
use crate::ffi;
use crate::heads;
use crate::lent::{canary, Lent, Place};
use crate::payers;
use crate::quick;
use crate::report;
use crate::rival;
use crate::rng::Rng;
use std::io;
use std::path::Path;

/// The longest flow that is tried.
const MOST_FLOW: usize = 160_000;

/// What is lent to a call.
pub struct Rooms<'a> {
    pub flow: &'a mut [u8],
    pub list: &'a mut [u64],
    /// The record; empty where the call takes none.
    pub kept: &'a mut [u64],
    pub answer: &'a mut [u64],
}

/// Makes the call.
type Made = fn(Rooms) -> u64;

/// Which call it is, and how a difference in it is told.
pub struct ListCall {
    /// What it does, as `a rebalancing`, and its name.
    pub what: &'static str,
    pub name: &'static str,
    pub library: Made,
    pub reference: Made,
    /// The library's call without a record, which must leave the same where the record
    /// is right.
    pub plain: Option<Made>,
    /// The longest list that is lent.
    pub most_list: usize,
    /// How many numbers the record has, none where the call takes none, and how many
    /// the answer needs.
    pub record: usize,
    pub needs: usize,
    /// The file that the list of a difference goes to, where the call reads the list.
    pub list_file: Option<&'static str>,
    /// What the text of a difference has behind the list's length, and what it has of
    /// a side, from what it was lent and what it left.
    pub tell_list: fn(&[u64]) -> String,
    pub tell_left: fn(&Left, &Left) -> String,
}

/// So many numbers more than a record has or an answer needs are lent at most.
pub const MORE: usize = 5;

/// What a call is lent, and an answer of so many numbers.
pub struct Asked<'a> {
    pub flow: &'a [u8],
    pub list: Vec<u64>,
    pub kept: Vec<u64>,
    pub room: usize,
}

/// What a call answered and what it left.
#[derive(Clone, PartialEq)]
pub struct Left {
    pub code: u64,
    pub flow: Vec<u8>,
    pub list: Vec<u64>,
    pub kept: Vec<u64>,
    pub answer: Vec<u64>,
}

impl Left {
    fn rooms(&mut self) -> Rooms<'_> {
        Rooms { flow: &mut self.flow, list: &mut self.list, kept: &mut self.kept, answer: &mut self.answer }
    }
}

/// What the generator says of a call with room for its answer.
pub struct Says<'a> {
    /// The number of the refusal, 0 where there is none, its record and position.
    pub told: [u64; 3],
    /// Where there is none: the answer's number, if it has one, the list's first
    /// numbers, the record and the flow afterwards.
    pub number: Option<usize>,
    pub list: &'a [u64],
    pub kept: &'a [u64],
    pub flow: &'a [u8],
}

impl Says<'_> {
    /// What the call leaves.
    fn left(&self, before: &Left, call: &ListCall) -> Left {
        let mut left = before.clone();
        if before.answer.len() < call.needs || before.kept.len() < call.record {
            left.code = NO_ROOM;
            return left;
        }
        left.code = self.told[0];
        if left.code == 0 {
            self.number.iter().for_each(|&number| left.answer[0] = number as u64);
            left.list[..self.list.len()].copy_from_slice(self.list);
            left.kept[..self.kept.len()].copy_from_slice(self.kept);
            left.flow.copy_from_slice(self.flow);
        } else {
            left.answer[..2].copy_from_slice(&self.told[1..]);
        }
        left
    }
}

pub type Compared<T> = Result<T, Box<Difference>>;

/// The memory that is lent to the library for such a call.
pub struct Sides {
    call: &'static ListCall,
    flow: Lent,
    list: Lent,
    kept: Lent,
    answer: Lent,
}

impl Sides {
    pub fn new(call: &'static ListCall) -> Self {
        Sides {
            call,
            flow: Lent::new(MOST_FLOW),
            list: Lent::new(8 * call.most_list),
            kept: Lent::new(8 * (call.record + MORE)),
            answer: Lent::new(8 * (call.needs + MORE)),
        }
    }

    /// Compares a call, and what both sides leave with what the generator says.
    pub fn compare(&mut self, rng: &mut Rng, asked: Asked, says: &Says) -> Compared<Left> {
        let call = self.call;
        let Asked { flow, list, kept, room } = asked;
        assert!(flow.len() <= MOST_FLOW && list.len() <= call.most_list);
        assert!(kept.len() <= call.record + MORE && room <= call.needs + MORE);
        let before = Left { code: 0, flow: flow.to_vec(), list, kept, answer: canary(rng, room) };
        let mut reference = before.clone();
        reference.code = (call.reference)(reference.rooms());
        let (library, beside) = self.ask_library(rng, &before);

        let why = if library != reference {
            format!("{} by the {}", what_differs(&library, &reference), ffi::NAME)
        } else if beside {
            "bytes beside the lent memory were written".to_string()
        } else {
            let says = says.left(&before, call);
            let other = Some(&says).filter(|says| **says != reference).map(|says| {
                let told = &says.answer[..says.answer.len().min(call.needs)];
                let kept = &says.kept[..says.kept.len().min(call.record)];
                let kept = if call.record > 0 { format!(", record {kept:?}") } else { String::new() };
                format!("{}: the generator says {} {told:?}{kept}", what_differs(&reference, says), says.code)
            });
            let other = other
                .or_else(|| call.plain.and_then(|plain| unlike_plain(plain, &before, &reference)))
                .or_else(|| heads::unlike(flow, reference.code, &reference.answer))
                .or_else(|| payers::unlike(|| payers::in_flow(flow), reference.code, &reference.answer));
            match other {
                None => return Ok(reference),
                Some(why) => why,
            }
        };
        Err(Box::new(Difference { call, why, before, reference, library }))
    }

    /// What the library left, and whether it wrote to anything beside it.
    fn ask_library(&mut self, rng: &mut Rng, before: &Left) -> (Left, bool) {
        let place = match rng.below(4) {
            0 => Place::Start,
            1 => Place::Within(1 + rng.place(63)),
            _ => Place::End,
        };
        let mut any_end = || if rng.one_in(2) { Place::End } else { Place::Start };
        let flow_part = self.flow.part(before.flow.len(), place);
        let list_part = self.list.part(8 * before.list.len(), any_end());
        let answer_part = self.answer.part(8 * before.answer.len(), any_end());
        let kept_place = if self.call.record > 0 { any_end() } else { Place::End };
        let kept_part = self.kept.part(8 * before.kept.len(), kept_place);
        let rooms = Rooms {
            flow: self.flow.bytes(&flow_part),
            list: self.list.numbers(&list_part),
            kept: self.kept.numbers(&kept_part),
            answer: self.answer.numbers(&answer_part),
        };
        rooms.flow.copy_from_slice(&before.flow);
        rooms.list.copy_from_slice(&before.list);
        rooms.kept.copy_from_slice(&before.kept);
        rooms.answer.copy_from_slice(&before.answer);
        let code = (self.call.library)(rooms);
        let left = Left {
            code,
            flow: self.flow.bytes(&flow_part).to_vec(),
            list: self.list.numbers(&list_part).to_vec(),
            kept: self.kept.numbers(&kept_part).to_vec(),
            answer: self.answer.numbers(&answer_part).to_vec(),
        };
        let same = self.flow.kept(&flow_part) && self.list.kept(&list_part);
        let same = same && self.kept.kept(&kept_part) && self.answer.kept(&answer_part);
        (left, !same)
    }

    /// What a call left that is not as it must be, with as much of the list and the record
    /// before it as is to be told.
    pub fn wrong(&self, why: String, flow: &[u8], list: &[u64], kept: &[u64], left: &Left) -> Box<Difference> {
        let (list, kept, answer) = (list.to_vec(), kept.to_vec(), Vec::new());
        let before = Left { code: 0, flow: flow.to_vec(), list, kept, answer };
        Box::new(Difference { call: self.call, why, before, reference: left.clone(), library: left.clone() })
    }
}

/// Why the call without a record does not leave the same, unless the record was wrong or
/// nothing was read.
fn unlike_plain(plain: Made, before: &Left, left: &Left) -> Option<String> {
    if matches!(left.code, WRONG_RECORD | NO_ROOM) {
        return None;
    }
    let mut other = before.clone();
    other.code = plain(other.rooms());
    other.kept.copy_from_slice(&left.kept);
    Some(&other).filter(|other| **other != *left).map(|other| {
        let (told, answer) = (what_differs(left, other), &other.answer);
        format!("{told}: the call without a record answers {} {answer:?}", other.code)
    })
}

fn what_differs(one: &Left, other: &Left) -> &'static str {
    if one.code != other.code {
        "what is answered"
    } else if one.answer != other.answer {
        "the answer's numbers"
    } else if one.list != other.list {
        "the list"
    } else if one.kept != other.kept {
        "the record"
    } else {
        "the flow"
    }
}

/// Why a flow that such a call left is not accepted by all.
pub fn refused(flow: &[u8]) -> Option<String> {
    let mut room = [0; MOST_NUMBERS];
    let judged = [
        (ffi::NAME, ffi::call(&Call::Judge, &mut flow.to_vec(), &mut room)),
        ("reference", rival::call(&Call::Judge, &mut flow.to_vec(), &mut room)),
        (quick::NAME, quick::judge(flow, &mut room)),
    ];
    judged.iter().find(|(_, code)| *code != 0).map(|(name, code)| format!("afterwards the {name} refuses it {code}"))
}

/// A call on which the sides are not the same, or not as they must be.
pub struct Difference {
    call: &'static ListCall,
    why: String,
    before: Left,
    reference: Left,
    library: Left,
}

impl Difference {
    /// What the call does.
    pub fn what(&self) -> &'static str {
        self.call.what
    }

    /// Writes `flow`, `after-reference`, `after-library` and `difference.txt`, and the
    /// list where the call reads it.
    pub fn write(&self, folder: &Path, case: &str) -> io::Result<String> {
        let numbers: Vec<String> = self.before.list.iter().map(u64::to_string).collect();
        let numbers = numbers.join(" ") + "\n";
        let mut files: Vec<(&str, &[u8])> = vec![
            ("flow", &self.before.flow),
            ("after-reference", &self.reference.flow),
            ("after-library", &self.library.flow),
        ];
        files.extend(self.call.list_file.map(|name| (name, numbers.as_bytes())));
        report::write_files(folder, &files, self.text(case))
    }

    fn text(&self, case: &str) -> String {
        let Left { flow, list, kept, answer, .. } = &self.before;
        let (length, records) = (flow.len(), flow.len() / RECORD);
        let mut text = format!("case: {case}\ndiffers: {}\n", self.why);
        text += &format!("call: {}, flow of {length} bytes, {records} records, ", self.call.name);
        text += &format!("list of {} numbers{}\n", list.len(), (self.call.tell_list)(list));
        text += &format!("answer before: {answer:?}\n");
        if self.call.record > 0 {
            text += &format!("record before: {kept:?}\n");
        }
        for (name, left) in [(ffi::NAME, &self.library), ("reference", &self.reference)] {
            text += &format!("{name}: answers {}, answer after {:?}\n", left.code, left.answer);
            if self.call.record > 0 {
                text += &format!("  record after: {:?}\n", left.kept);
            }
            text += &(self.call.tell_left)(&self.before, left);
        }
        let (one, other) = (&self.library, &self.reference);
        if let Some(at) = (0..length).find(|&at| one.flow[at] != other.flow[at]) {
            let (one, other) = (one.flow[at], other.flow[at]);
            text += &format!("first byte that differs after the call: {}, {one} and {other}\n", report::place(at));
        }
        if let Some(at) = (0..one.list.len()).find(|&at| one.list[at] != other.list[at]) {
            let (one, other) = (one.list[at], other.list[at]);
            text += &format!("first number of the list that differs: [{at}], {one} and {other}\n");
        }
        text
    }
}
