//! Makes each call on the library and on the reference, from the same bytes,
//! and compares everything that either leaves behind. The fast judge, which
//! judges and no more, is held to the reference's judgement, and all of them to
//! what the generator says of the head, of the records 10 and of the lines.

use crate::calls::{Call, MOST_NUMBERS, NO_ROOM, OLD_ROOMS};
use crate::ffi;
use crate::heads;
use crate::lent::{Lent, Place};
use crate::lines;
use crate::payers;
use crate::quick;
use crate::rival;
use crate::rng::Rng;
use std::ops::Range;

/// More room than any answer needs.
const MOST_ROOM: usize = MOST_NUMBERS + 5;
/// The longest flow that is tried.
const MOST_FLOW: usize = 160_000;

/// What a call answered and what it left.
pub struct Left {
    pub code: u64,
    pub room: Vec<u64>,
    pub flow: Vec<u8>,
}

/// A call on which the sides are not the same.
pub struct Difference {
    pub call: Call,
    pub flow: Vec<u8>,
    pub room: Vec<u64>,
    pub reference: Left,
    /// Those that were compared with it, with their names.
    pub others: Vec<(&'static str, Left)>,
    /// Bytes or numbers beside the lent ones were written.
    pub beside: bool,
    /// What the generator says, where all sides are the same and it is not.
    pub says: Option<String>,
}

pub type Compared<T> = Result<T, Box<Difference>>;

pub struct Comparer {
    lent: Lent,
    lent_room: Lent,
    after: Vec<u8>,
    room: Vec<u64>,
    quick_room: Vec<u64>,
    pub tally: Tally,
}

impl Comparer {
    pub fn new() -> Self {
        Comparer {
            lent: Lent::new(MOST_FLOW),
            lent_room: Lent::new(8 * MOST_ROOM),
            after: Vec::new(),
            room: Vec::new(),
            quick_room: Vec::new(),
            tally: Tally::new(),
        }
    }

    /// The flow as the last call left it, on both sides.
    pub fn after(&self) -> &[u8] {
        &self.after
    }

    /// The room as the last call left it, on both sides.
    pub fn room(&self) -> &[u64] {
        &self.room
    }

    /// Compares a call with room that is enough, or more than that.
    pub fn compare(&mut self, rng: &mut Rng, call: Call, flow: &[u8]) -> Compared<u64> {
        let numbers = call.needs() + if rng.one_in(2) { 0 } else { rng.place(5) };
        self.tallied(rng, call, flow, numbers)
    }

    /// Compares a call with too little room, often with as much as was enough in
    /// the header's first version.
    pub fn compare_short(&mut self, rng: &mut Rng, call: Call, flow: &[u8]) -> Compared<()> {
        let numbers = match call {
            Call::Judge | Call::Delega { .. } if rng.one_in(2) => rng.pick(&OLD_ROOMS),
            _ => rng.place(call.needs()),
        };
        self.tallied(rng, call, flow, numbers).map(drop)
    }

    /// Compares a call with every room, from none to the longest. No tally counts
    /// these.
    pub fn compare_rooms(&mut self, rng: &mut Rng, call: Call, flow: &[u8]) -> Compared<()> {
        for numbers in 0..=MOST_ROOM {
            let code = self.compare_with(rng, call, flow, numbers)?;
            assert!((code == NO_ROOM) == (numbers < call.needs()), "{call} with {numbers} numbers of room: {code}");
        }
        Ok(())
    }

    /// Compares a judgement that no tally counts.
    pub fn compare_untallied(&mut self, rng: &mut Rng, flow: &[u8]) -> Compared<u64> {
        self.compare_with(rng, Call::Judge, flow, Call::Judge.needs())
    }

    fn tallied(&mut self, rng: &mut Rng, call: Call, flow: &[u8], numbers: usize) -> Compared<u64> {
        let code = self.compare_with(rng, call, flow, numbers)?;
        self.tally.count(&call, code);
        Ok(code)
    }

    fn compare_with(&mut self, rng: &mut Rng, call: Call, flow: &[u8], numbers: usize) -> Compared<u64> {
        assert!(flow.len() <= MOST_FLOW && numbers <= MOST_ROOM);
        if matches!(call, Call::Correct { .. }) {
            same_judgement(flow)?;
        }
        let (first, step) = (rng.next(), rng.next() | 1);
        let before: Vec<u64> = (0..numbers as u64).map(|k| first.wrapping_add(k.wrapping_mul(step))).collect();

        self.room.clone_from(&before);
        self.after.clear();
        self.after.extend_from_slice(flow);
        let code = rival::call(&call, &mut self.after, &mut self.room);
        let quick = self.ask_quick(&call, flow, &before);
        let (library, lent) = self.ask_library(rng, &call, flow, &before);

        let quick_same = quick.map_or(true, |quick| quick == code && self.quick_room == self.room);
        let beside = !self.lent.kept(&lent.flow) || !self.lent_room.kept(&lent.room);
        let room = self.lent_room.numbers(&lent.room).to_vec();
        let left = self.lent.bytes(&lent.flow);
        let mut says = None;
        if library == code && room == self.room && *left == self.after[..] && quick_same && !beside {
            says = heads::unlike(flow, code, &self.room)
                .or_else(|| payers::unlike(|| payers::in_flow(flow), code, &self.room))
                .or_else(|| lines::unlike(&call, flow, code, &self.room));
            if says.is_none() {
                return Ok(code);
            }
        }
        let mut others = vec![(ffi::NAME, Left { code: library, room, flow: left.to_vec() })];
        if let Some(code) = quick {
            others.push((quick::NAME, Left { code, room: self.quick_room.clone(), flow: flow.to_vec() }));
        }
        let reference = Left { code, room: self.room.clone(), flow: self.after.clone() };
        Err(Box::new(Difference { call, flow: flow.to_vec(), room: before, reference, others, beside, says }))
    }

    /// The fast judge's answer where the call is a judgement.
    fn ask_quick(&mut self, call: &Call, flow: &[u8], before: &[u64]) -> Option<u64> {
        if *call != Call::Judge {
            return None;
        }
        self.quick_room.clear();
        self.quick_room.extend_from_slice(before);
        Some(quick::judge(flow, &mut self.quick_room))
    }

    /// The library's answer, and what was lent to it.
    fn ask_library(&mut self, rng: &mut Rng, call: &Call, flow: &[u8], before: &[u64]) -> (u64, Parts) {
        let place = match rng.below(4) {
            0 => Place::Start,
            1 => Place::Within(1 + rng.place(63)),
            _ => Place::End,
        };
        let part = self.lent.part(flow.len(), place);
        let place = if rng.one_in(2) { Place::End } else { Place::Start };
        let room_part = self.lent_room.part(8 * before.len(), place);
        let lent = self.lent.bytes(&part);
        lent.copy_from_slice(flow);
        let room = self.lent_room.numbers(&room_part);
        room.copy_from_slice(before);
        (ffi::call(call, lent, room), Parts { flow: part, room: room_part })
    }
}

/// Where the flow and the room lie that were lent to the library.
struct Parts {
    flow: Range<usize>,
    room: Range<usize>,
}

/// Compares the fast judge with the reference alone, on a flow that is about to
/// be corrected and may not have been judged by itself.
fn same_judgement(flow: &[u8]) -> Compared<()> {
    let before = vec![0; MOST_NUMBERS];
    let (mut room, mut quick_room) = (before.clone(), before.clone());
    let mut after = flow.to_vec();
    let code = rival::call(&Call::Judge, &mut after, &mut room);
    let quick = quick::judge(flow, &mut quick_room);
    if quick == code && quick_room == room {
        return Ok(());
    }
    let others = vec![(quick::NAME, Left { code: quick, room: quick_room, flow: flow.to_vec() })];
    let reference = Left { code, room, flow: after };
    let (call, flow) = (Call::Judge, flow.to_vec());
    Err(Box::new(Difference { call, flow, room: before, reference, others, beside: false, says: None }))
}

/// The answers in the order of the tally, the last for too little room.
const ANSWERS: [u64; 26] =
    [0, 1, 2, 3, 4, 5, 6, 7, 8, 9, 10, 11, 12, 13, 14, 15, 16, 17, 18, 19, 20, 21, 22, 23, 26, NO_ROOM];

/// How often each call was answered how.
pub struct Tally {
    counts: [[u64; ANSWERS.len()]; 4],
}

impl Tally {
    fn new() -> Self {
        Tally { counts: [[0; ANSWERS.len()]; 4] }
    }

    fn count(&mut self, call: &Call, code: u64) {
        self.counts[call.index()][way(code)] += 1;
    }

    pub fn of(&self, call: usize, code: u64) -> u64 {
        self.counts[call][way(code)]
    }

    /// Calls with enough room.
    pub fn calls(&self, call: usize) -> u64 {
        self.counts[call][..ANSWERS.len() - 1].iter().sum()
    }

    pub fn print(&self) {
        println!("{:<10} {:>10} {:>10} {:>10} {:>10}", "answer", "judge", "delega", "find", "correct");
        for code in ANSWERS {
            let name = match code {
                0 => "0 done".to_string(),
                NO_ROOM => "100 room".to_string(),
                code => code.to_string(),
            };
            print!("{name:<10}");
            for call in 0..4 {
                match self.of(call, code) {
                    0 => print!(" {:>10}", "-"),
                    count => print!(" {count:>10}"),
                }
            }
            println!();
        }
    }
}

/// The place of an answer in the tally.
fn way(code: u64) -> usize {
    ANSWERS.iter().position(|&answer| answer == code).unwrap_or_else(|| panic!("{code} answers no call on a flow"))
}
