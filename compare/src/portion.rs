//! Makes each call of a judgement by portions on the library and on the
//! reference, from the same bytes, state and rooms, and compares everything that
//! either leaves behind. What both leave is held to what every call owes.

use crate::calls::{FOREIGN, NOT_ENDED, NO_ROOM, PORTION_ROOM, STATE_ROOM};
use crate::columns::{MOST_BYTES, MOST_RECORDS, RECORD};
use crate::ffi;
use crate::forged;
use crate::lent::{canary, Lent, Place};
use crate::report;
use crate::rival;
use crate::rng::Rng;
use std::io;
use std::path::Path;

/// The longest flow that is tried.
const MOST_FLOW: usize = 160_000;
/// More numbers than a state and an answer need.
const MOST_STATE: usize = STATE_ROOM + 5;
const MOST_ANSWER: usize = PORTION_ROOM + 5;

pub type Numbers = [u64; STATE_ROOM];

/// What a call answered and what it left.
#[derive(Clone, PartialEq)]
pub struct Left {
    pub code: u64,
    pub state: Vec<u64>,
    pub answer: Vec<u64>,
}

/// What a call with enough room gave: the numbers that are written to the
/// answer, and the state.
#[derive(Clone, PartialEq)]
pub struct Gave {
    pub code: u64,
    pub answer: Vec<u64>,
    pub state: Numbers,
}

impl Gave {
    fn of(left: &Left) -> Self {
        let answer = left.answer[..written(left.code)].to_vec();
        Gave { code: left.code, answer, state: first_numbers(&left.state) }
    }
}

/// A call on which the sides are not the same, or not as they must be.
pub struct Difference {
    why: String,
    flow: Vec<u8>,
    portion: u64,
    before: Left,
    reference: Left,
    library: Left,
}

pub type Compared<T> = Result<T, Box<Difference>>;

pub struct Portions {
    flow: Lent,
    state: Lent,
    answer: Lent,
    /// Calls by their answer.
    pub answers: [u64; ANSWERS.len()],
    /// Calls of `f24_start`: with room, and with too little.
    pub starts: [u64; 2],
}

impl Portions {
    pub fn new() -> Self {
        Portions {
            flow: Lent::new(MOST_FLOW),
            state: Lent::new(8 * MOST_STATE),
            answer: Lent::new(8 * MOST_ANSWER),
            answers: [0; ANSWERS.len()],
            starts: [0; 2],
        }
    }

    /// The first state, with room that is enough or more than that, now and then
    /// with too little first.
    pub fn start(&mut self, rng: &mut Rng) -> Compared<Numbers> {
        if rng.one_in(16) {
            let short = rng.place(STATE_ROOM);
            self.start_with(rng, short)?;
        }
        let room = STATE_ROOM + if rng.one_in(2) { 0 } else { rng.place(5) };
        self.start_with(rng, room).map(|left| first_numbers(&left.state))
    }

    pub fn start_with(&mut self, rng: &mut Rng, room: usize) -> Compared<Left> {
        let before = canary(rng, room);
        let mut reference = Left { code: 0, state: before.clone(), answer: Vec::new() };
        reference.code = rival::start(&mut reference.state);
        let part = self.state.part(8 * room, any_end(rng));
        let lent = self.state.numbers(&part);
        lent.copy_from_slice(&before);
        let code = ffi::start(lent);
        let library = Left { code, state: lent.to_vec(), answer: Vec::new() };
        self.starts[usize::from(code == NO_ROOM)] += 1;
        let why = if library != reference {
            "the first state"
        } else if !self.state.kept(&part) {
            BESIDE
        } else if (code == NO_ROOM) != (room < STATE_ROOM) || !matches!(code, 0 | NO_ROOM) {
            "both answer so to a start"
        } else if code == 0 && (library.state[0] != 1 || library.state[1..STATE_ROOM] != [0; STATE_ROOM - 1]) {
            "the generator says that a start is 1 and zeros"
        } else {
            return Ok(reference);
        };
        let before = Left { code: 0, state: before, answer: Vec::new() };
        Err(Box::new(Difference { why: why.to_string(), flow: Vec::new(), portion: 0, before, reference, library }))
    }

    /// Compares a call with rooms that are enough or more than that, now and then
    /// with too little in one or both first.
    pub fn compare(&mut self, rng: &mut Rng, flow: &[u8], portion: u64, state: &Numbers) -> Compared<Gave> {
        if rng.one_in(16) {
            let rooms = match rng.below(4) {
                0 => (rng.place(STATE_ROOM), PORTION_ROOM),
                1 => (STATE_ROOM, rng.place(PORTION_ROOM)),
                2 => (STATE_ROOM - 1, PORTION_ROOM - 1),
                _ => (rng.place(STATE_ROOM), rng.place(PORTION_ROOM)),
            };
            self.compare_with(rng, flow, portion, state, rooms)?;
        }
        let mut more = || if rng.one_in(2) { 0 } else { rng.place(5) };
        let rooms = (STATE_ROOM + more(), PORTION_ROOM + more());
        let left = self.compare_with(rng, flow, portion, state, rooms)?;
        Ok(Gave::of(&left))
    }

    /// The same with rooms for so many numbers, of the state and of the answer.
    pub fn compare_with(
        &mut self,
        rng: &mut Rng,
        flow: &[u8],
        portion: u64,
        state: &Numbers,
        (state_room, answer_room): (usize, usize),
    ) -> Compared<Left> {
        assert!(flow.len() <= MOST_FLOW && state_room <= MOST_STATE && answer_room <= MOST_ANSWER);
        let mut numbers = canary(rng, state_room);
        let kept = state_room.min(STATE_ROOM);
        numbers[..kept].copy_from_slice(&state[..kept]);
        let before = Left { code: 0, state: numbers, answer: canary(rng, answer_room) };

        let mut reference = before.clone();
        reference.code = rival::judge_portion(flow, portion, &mut reference.state, &mut reference.answer);
        let (library, wrong) = self.ask_library(rng, flow, portion, &before);

        let why = if library.code != reference.code {
            "what is answered".to_string()
        } else if library.answer != reference.answer {
            "the answer's numbers".to_string()
        } else if library.state != reference.state {
            "the state".to_string()
        } else if let Some(what) = wrong {
            what.to_string()
        } else if let Some(why) = unlike(flow, portion, &before, &reference) {
            why
        } else {
            self.answers[way(reference.code).expect("no such answer was let through")] += 1;
            return Ok(reference);
        };
        Err(Box::new(Difference { why, flow: flow.to_vec(), portion, before, reference, library }))
    }

    /// What the library left, and what else it wrote to, if it did.
    fn ask_library(&mut self, rng: &mut Rng, flow: &[u8], portion: u64, before: &Left) -> (Left, Option<&'static str>) {
        let place = match rng.below(4) {
            0 => Place::Start,
            1 => Place::Within(1 + rng.place(63)),
            _ => Place::End,
        };
        let flow_part = self.flow.part(flow.len(), place);
        let state_part = self.state.part(8 * before.state.len(), any_end(rng));
        let answer_part = self.answer.part(8 * before.answer.len(), any_end(rng));
        let lent = self.flow.bytes(&flow_part);
        lent.copy_from_slice(flow);
        let state = self.state.numbers(&state_part);
        state.copy_from_slice(&before.state);
        let answer = self.answer.numbers(&answer_part);
        answer.copy_from_slice(&before.answer);
        let code = ffi::judge_portion(lent, portion, state, answer);
        let left = Left { code, state: state.to_vec(), answer: answer.to_vec() };
        let wrong = if *lent != *flow {
            Some("the flow was written to")
        } else if !self.flow.kept(&flow_part) || !self.state.kept(&state_part) || !self.answer.kept(&answer_part) {
            Some(BESIDE)
        } else {
            None
        };
        (left, wrong)
    }
}

const BESIDE: &str = "bytes beside the lent memory were written";

fn any_end(rng: &mut Rng) -> Place {
    if rng.one_in(2) {
        Place::End
    } else {
        Place::Start
    }
}

fn first_numbers(room: &[u64]) -> Numbers {
    let mut state = [0; STATE_ROOM];
    state.copy_from_slice(&room[..STATE_ROOM]);
    state
}

/// How many numbers are written to the answer.
fn written(code: u64) -> usize {
    match code {
        0 => PORTION_ROOM,
        NO_ROOM => 0,
        NOT_ENDED | FOREIGN => 1,
        _ => 3,
    }
}

/// In what both sides are wrong: what every call owes, whatever the state is.
fn unlike(flow: &[u8], portion: u64, before: &Left, left: &Left) -> Option<String> {
    let too_short = before.state.len() < STATE_ROOM || before.answer.len() < PORTION_ROOM;
    if way(left.code).is_none() || too_short != (left.code == NO_ROOM) {
        return Some(format!("both answer {}", left.code));
    }
    let stay = |what: &str, from: usize, was: &[u64], is: &[u64]| {
        Some(format!("numbers of {what} that must stay")).filter(|_| was[from..] != is[from..])
    };
    let kept = if matches!(left.code, NO_ROOM | FOREIGN) { 0 } else { STATE_ROOM };
    if let Some(why) = stay("the answer", written(left.code), &before.answer, &left.answer)
        .or_else(|| stay("the state", kept, &before.state, &left.state))
    {
        return Some(why);
    }
    if left.code == NO_ROOM {
        return None;
    }
    let gave = Gave::of(left);
    if let Some(known) = forged::known(&first_numbers(&before.state), flow.len()) {
        let Gave { code, answer, state } = &known;
        return Some(format!("the generator says {code} {answer:?}, state {state:?}")).filter(|_| known != gave);
    }
    gone_on(&before.state, portion, &gave)
}

/// The same of a call that goes on with a flow, from a state.
fn gone_on(before: &[u64], portion: u64, gave: &Gave) -> Option<String> {
    let passed = before[4];
    let stands = match gave.code {
        NOT_ENDED => [1, 0, 0, 0],
        0 => [2, 0, 0, 0],
        1 | 2 | FOREIGN => return Some(format!("the generator says that it is not {}", gave.code)),
        code => [3, code, gave.answer[1], gave.answer[2]],
    };
    if gave.state[..4] != stands {
        return Some(format!("the generator says that a state then starts with {stands:?}"));
    }
    if portion == 0 && (gave.code != NOT_ENDED || gave.state[4..] != before[4..STATE_ROOM]) {
        return Some("the generator says that a portion of zero ends nothing and leaves the state".to_string());
    }
    let examined = gave.answer[0];
    let allowed = examined >= passed && examined - passed <= portion && examined <= MOST_RECORDS as u64;
    Some(format!("{examined} examined after {passed} with a portion of {portion}")).filter(|_| !allowed)
}

/// Whether a flow is neither too long nor cut.
pub fn is_whole(length: usize) -> bool {
    length > 0 && length <= MOST_BYTES && length % RECORD == 0
}

/// The answers in the order of the tally.
#[rustfmt::skip]
pub const ANSWERS: [(u64, &str); 25] = [
    (0, "0 accepted"), (1, "1"), (2, "2"), (3, "3"), (4, "4"), (5, "5"), (6, "6"), (7, "7"), (8, "8"), (9, "9"),
    (10, "10"), (11, "11"), (12, "12"), (13, "13"), (14, "14"), (15, "15"), (16, "16"), (17, "17"), (18, "18"),
    (19, "19"), (20, "20"), (26, "26"), (NO_ROOM, "100 room"), (NOT_ENDED, "101 not ended"), (FOREIGN, "102 foreign"),
];

fn way(code: u64) -> Option<usize> {
    ANSWERS.iter().position(|&(answer, _)| answer == code)
}

impl Difference {
    /// What a call gave that is not what it must.
    pub fn of(why: String, flow: &[u8], portion: u64, state: &Numbers, gave: &Gave) -> Box<Self> {
        let before = Left { code: 0, state: state.to_vec(), answer: Vec::new() };
        let left = Left { code: gave.code, state: gave.state.to_vec(), answer: gave.answer.clone() };
        let (flow, library) = (flow.to_vec(), left.clone());
        Box::new(Difference { why, flow, portion, before, reference: left, library })
    }

    /// Writes `flow` and `difference.txt`.
    pub fn write(&self, folder: &Path, case: &str) -> io::Result<String> {
        report::write_files(folder, &[("flow", &self.flow)], self.text(case))
    }

    fn text(&self, case: &str) -> String {
        let mut text = format!("case: {case}\ndiffers: {}\n", self.why);
        let (length, records) = (self.flow.len(), self.flow.len() / RECORD);
        text += &format!("flow of {length} bytes, {records} records, portion of {}\n", self.portion);
        text += &format!("state before: {:?}\nanswer before: {:?}\n", self.before.state, self.before.answer);
        for (name, left) in [(ffi::NAME, &self.library), ("reference", &self.reference)] {
            text += &format!("{name}: answers {}, answer after {:?}\n", left.code, left.answer);
            text += &format!("  state after: {:?}\n", left.state);
        }
        let (one, other) = (&self.library.state, &self.reference.state);
        if let Some(at) = (0..one.len()).find(|&at| one[at] != other[at]) {
            text += &format!("first number of the state that differs: [{at}], {} and {}\n", one[at], other[at]);
        }
        text
    }
}
