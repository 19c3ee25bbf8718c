//! The cases of a run that are series of calls of a judgement by portions. Every
//! call is compared; of a series from the start every answer and every state is
//! known beforehand, from the flow's judgement and from its records.

use crate::calls::{Call, NOT_ENDED, PORTION_ROOM, STATE_ROOM};
use crate::columns::RECORD;
use crate::ffi;
use crate::forged::Edge;
use crate::passed;
use crate::portion::{Compared, Difference, Gave, Numbers, Portions, ANSWERS};
use crate::quick;
use crate::rng::Rng;
use crate::series_sorts::SORTS;
use crate::sorts::{self, Least};
use crate::sound::{self, Pool};
use crate::{at, progress, trap, Failure};
use std::fs;

/// So many series are compared where no number is given. In a run of so many each
/// answer, each sort and each end of a forged number comes up this often at least.
pub const FULL: u64 = 200_000;
const FEWEST: u64 = 100;

/// The sides, and how often what came up.
pub struct Series {
    pub portions: Portions,
    sorts: [u64; SORTS.len()],
    /// Forged numbers by their place, at the last that is allowed and at the
    /// first that is foreign.
    edges: [[u64; STATE_ROOM]; 2],
    /// Series from the start by the calls they took.
    calls: [u64; 5],
    /// Portions of zero from a state that goes on, by their answer.
    zeros: [u64; 3],
}

impl Series {
    pub fn new() -> Self {
        Series {
            portions: Portions::new(),
            sorts: [0; SORTS.len()],
            edges: [[0; STATE_ROOM]; 2],
            calls: [0; 5],
            zeros: [0; 3],
        }
    }

    /// Compares a call.
    pub fn call(&mut self, rng: &mut Rng, flow: &[u8], portion: u64, state: &Numbers) -> Compared<Gave> {
        let gave = self.portions.compare(rng, flow, portion, state)?;
        if portion == 0 && state[0] == 1 {
            let way = match gave.code {
                NOT_ENDED => 0,
                1 | 2 => 1,
                _ => 2,
            };
            self.zeros[way] += 1;
        }
        Ok(gave)
    }

    /// Counts a forged number.
    pub fn forged(&mut self, place: usize, edge: Edge) {
        match edge {
            Edge::Allowed => self.edges[0][place] += 1,
            Edge::Foreign => self.edges[1][place] += 1,
            Edge::Neither => (),
        }
    }

    /// What comes up least: an answer, a sort, a forged number.
    fn rarest(&self) -> [Option<(u64, String)>; 3] {
        let places = (0..STATE_ROOM).flat_map(|place| {
            let [allowed, foreign] = [self.edges[0][place], self.edges[1][place]];
            [(allowed, format!("portion [{place}] at its most")), (foreign, format!("portion [{place}] above it"))]
        });
        [
            sorts::rarest(&self.portions.answers, &ANSWERS, "portion"),
            sorts::rarest(&self.sorts, &SORTS, "portion"),
            places.min(),
        ]
    }

    /// Says what came up least, and whether that was too seldom for so many series
    /// to say much.
    pub fn is_seldom(&self, many: u64) -> bool {
        Least { full: FULL, fewest: FEWEST }.is_missed(self.rarest(), many, "series")
    }

    pub fn print(&self, many: u64) {
        if many == 0 {
            return;
        }
        sorts::print("answer", &self.portions.answers, &ANSWERS, "portion");
        sorts::print("series", &self.sorts, &SORTS, "portion");
        let [started, short] = self.portions.starts;
        println!("starts: {started}, with too little room: {short}");
        let [one, few, more, many, most] = self.calls;
        println!("series from the start by calls: 1: {one}, 2-3: {few}, 4-16: {more}, 17-128: {many}, more: {most}");
        let [not_ended, lengths, foreign] = self.zeros;
        println!("portions of zero that go on: {not_ended} not ended, {lengths} refused 1 or 2, {foreign} foreign");
        let [allowed, above] = self.edges.map(|counts| counts.iter().sum::<u64>());
        println!("forged numbers: {allowed} at their most, {above} above it");
    }
}

fn differs(seed: u64, index: u64, difference: Box<Difference>) -> Failure {
    let case = format!("seed {seed}, series {index} (once more: again {seed} series {index})");
    Failure::SeriesDiffers(case, difference)
}

/// So many series, and calls with rooms of every length before them.
pub fn compare(pool: &Pool, seed: u64, many: u64) -> Result<Series, Failure> {
    let mut series = Series::new();
    if many > 0 {
        trap::at(trap::ROOM, 0, 0);
        every_room(pool)?;
    }
    for index in 0..many {
        trap::at(trap::SERIES, seed, index);
        case(&mut series, pool, seed, index)?;
        progress(index, many, "series");
    }
    Ok(series)
}

/// One series.
fn case(series: &mut Series, pool: &Pool, seed: u64, index: u64) -> Result<(), Failure> {
    let mut rng = Rng::new(seed, 17, index);
    let sort = rng.place(SORTS.len());
    series.sorts[sort] += 1;
    (SORTS[sort].0)(series, &mut rng, pool).map_err(|difference| differs(seed, index, difference))
}

/// The same once more.
pub fn again(pool: &Pool, seed: u64, index: u64) -> Result<(), Failure> {
    trap::at(trap::SERIES, seed, index);
    let mut series = Series::new();
    case(&mut series, pool, seed, index)?;
    series.print(1);
    println!("no difference");
    Ok(())
}

/// Files, a flow each: by portions of 1, of 3 and of as many as there are.
pub fn compare_files(files: &[&str]) -> Result<(), Failure> {
    let mut series = Series::new();
    for file in files {
        let flow = fs::read(file).map_err(|error| at(file, error))?;
        let mut rng = Rng::new(flow.len() as u64, 18, 0);
        for portion in [1, 3, u64::MAX] {
            let name = format!("{file} by portions of {portion}");
            from_start(&mut series, &mut rng, &flow, |_| portion)
                .map_err(|difference| Failure::SeriesDiffers(name, difference))?;
        }
    }
    series.print(1);
    println!("no difference");
    Ok(())
}

/// Rooms of every length, for a start and for calls that are answered in every
/// way. No tally counts these.
fn every_room(pool: &Pool) -> Result<(), Failure> {
    rooms(pool).map_err(|difference| Failure::SeriesDiffers("rooms of every length".to_string(), difference))
}

fn rooms(pool: &Pool) -> Compared<()> {
    let mut series = Series::new();
    let mut rng = Rng::new(24, 19, 0);
    let flow = sound::write(&mut rng, pool, &sound::printed()).bytes;
    for room in 0..=STATE_ROOM + 5 {
        series.portions.start_with(&mut rng, room)?;
    }
    let start = series.portions.start(&mut rng)?;
    let refused = series.portions.compare(&mut rng, b"", 0, &start)?.state;
    for (state, portion) in [(start, 3), (start, u64::MAX), (refused, 1), ([0; STATE_ROOM], 1)] {
        for state_room in 0..=STATE_ROOM + 5 {
            for answer_room in 0..=PORTION_ROOM + 5 {
                series.portions.compare_with(&mut rng, &flow, portion, &state, (state_room, answer_room))?;
            }
        }
    }
    Ok(())
}

/// What the judgement of a flow says of every series on it.
pub struct Known {
    code: u64,
    /// What is written to the answer behind the number of records examined.
    answer: Vec<u64>,
    /// Records that must be examined, and those of them that pass.
    pub needed: u64,
    passed: u64,
}

impl Known {
    /// The library's judgement and the fast judge's, which must be the same.
    pub fn of(flow: &[u8]) -> Self {
        let (mut room, mut other) = ([0; 14], [0; 14]);
        let code = ffi::call(&Call::Judge, &mut flow.to_vec(), &mut room);
        let same = quick::judge(flow, &mut other) == code && room == other;
        assert!(same, "a flow of {} bytes is judged {code} {room:?} and otherwise by the fast judge", flow.len());
        let all = (flow.len() / RECORD) as u64;
        let (written, needed, passed) = match code {
            0 => (14, all, all),
            1 | 2 => (2, 0, 0),
            5 => (2, all, all),
            _ => (2, room[0], room[0] - 1),
        };
        Known { code, answer: room[..written].to_vec(), needed, passed }
    }

    /// What a call gives by which so many records have been allowed in all.
    fn gives(&self, flow: &[u8], allowed: u64) -> Gave {
        if allowed < self.needed {
            let state = passed::says(flow, allowed as usize, allowed > 0);
            return Gave { code: NOT_ENDED, answer: vec![allowed], state };
        }
        let mut state = passed::says(flow, self.passed as usize, self.needed > 0);
        state[0] = if self.code == 0 { 2 } else { 3 };
        if self.code > 0 {
            state[1..4].copy_from_slice(&[self.code, self.answer[0], self.answer[1]]);
        }
        let answer = [&[self.needed], &self.answer[..]].concat();
        Gave { code: self.code, answer, state }
    }
}

/// A series on one flow up to its end. All that it gives is known.
pub fn from_start(
    series: &mut Series,
    rng: &mut Rng,
    flow: &[u8],
    mut next: impl FnMut(&mut Rng) -> u64,
) -> Compared<Gave> {
    let known = Known::of(flow);
    let mut state = series.portions.start(rng)?;
    let (mut allowed, mut calls) = (0_u64, 0);
    loop {
        let portion = next(rng);
        let gave = series.call(rng, flow, portion, &state)?;
        allowed = allowed.saturating_add(portion);
        calls += 1;
        let says = known.gives(flow, allowed);
        if gave != says {
            let why = format!("the generator says {} {:?}, state {:?}", says.code, says.answer, says.state);
            return Err(Difference::of(why, flow, portion, &state, &gave));
        }
        if gave.code != NOT_ENDED {
            let ends = [1, 3, 16, 128];
            series.calls[ends.iter().take_while(|&&end| calls > end).count()] += 1;
            return Ok(gave);
        }
        state = gave.state;
    }
}
