//! Some hundred generated judgements by portions, five calls each, with the
//! reference's answers, as the data and the expected output of a run program.

use crate::calls::STATE_ROOM;
use crate::columns::*;
use crate::damage;
use crate::forged;
use crate::frames;
use crate::portion::Numbers;
use crate::rng::Rng;
use crate::sound::{self, Amounts, Pool, Size};
use reference::{judge_portion, Answer, Answered, State};
use std::io::{self, Write};

/// No more bytes than this in all.
const MOST_WRITTEN: usize = 1_500_000;
/// Large flows are dear: so many that are longer than a flow may be, and so many
/// others of more than this many bytes.
const MOST_TOO_LONG: usize = 2;
const LARGE: usize = 40 * RECORD;
const MOST_LARGE: usize = 5;
/// Calls of a case.
const CALLS: usize = 5;

/// So many cases whose last call is answered alike, that all answers come up.
fn most_alike(code: u64) -> u64 {
    match code {
        0 | 101 => 50,
        102 => 34,
        _ => 8,
    }
}

/// Where a case starts from.
const FROM: [&str; 3] = ["the start", "a judgement's state", "a forged state"];

/// A case: the portions of its calls, its flow and its first state.
struct Case {
    portions: [u64; CALLS],
    flow: Vec<u8>,
    state: Numbers,
}

/// Writes `count` cases to one file and the lines that the run program prints for
/// them to another; prints how often each answer comes up.
pub fn write(seed: u64, count: u64, data_to: &str, stdout_to: &str) -> io::Result<()> {
    let pool = Pool::new(seed);
    let (mut data, mut lines) = (Vec::new(), Vec::new());
    let (mut answers, mut last, mut from) = ([0_u64; 103], [0_u64; 103], [0_u64; FROM.len()]);
    let (mut written, mut too_long, mut large, mut index) = (0, 0, 0, 0);
    while written < count {
        let mut rng = Rng::new(seed, 20, index);
        index += 1;
        let kind = (written % FROM.len() as u64) as usize;
        let case = any(&mut rng, &pool, kind, written == 0);
        let mut printed = Vec::new();
        let codes = print(&mut printed, &case)?;
        let end = codes[CALLS - 1];
        if last[end as usize] == most_alike(end) {
            continue;
        }
        match case.flow.len() {
            length if length > MOST_BYTES + RECORD => continue,
            length if length > MOST_BYTES && too_long == MOST_TOO_LONG => continue,
            length if length > MOST_BYTES => too_long += 1,
            length if length > LARGE && large == MOST_LARGE => continue,
            length if length > LARGE => large += 1,
            _ => (),
        }
        written += 1;
        from[kind] += 1;
        let name = format!("portion_{written:04}");
        put(&mut data, &name, &case)?;
        writeln!(lines, "{name}")?;
        lines.append(&mut printed);
        last[end as usize] += 1;
        codes.iter().for_each(|&code| answers[code as usize] += 1);
        frames::within(MOST_WRITTEN, &data, written, "cases")?;
    }
    frames::save([data_to, stdout_to], &data, &lines, written, "cases")?;
    say(&from, &answers, &last);
    Ok(())
}

/// Prints how often what came up.
fn say(from: &[u64], answers: &[u64], last: &[u64]) {
    for (name, times) in FROM.iter().zip(from) {
        println!("from {name}: {times}");
    }
    for (code, times) in answers.iter().enumerate().filter(|(_, &times)| times > 0) {
        println!("{code:>3} {times:>4} calls, the last of {} cases", last[code]);
    }
}

/// The frame of a case: that of a call with five numbers, and the state behind it.
fn put(data: &mut Vec<u8>, name: &str, case: &Case) -> io::Result<()> {
    frames::write_call(data, name, case.portions, &case.flow)?;
    writeln!(data, "{}", case.state.map(|number| format!("{number:020}")).join(" "))
}

/// What the run program prints for the calls, each from the state that the one
/// before handed back, and the answers' numbers.
fn print(out: &mut impl Write, case: &Case) -> io::Result<[u64; CALLS]> {
    let mut state = State::of(&case.state);
    let mut codes = [0; CALLS];
    for (code, portion) in codes.iter_mut().zip(case.portions) {
        let answered = judge_portion(&case.flow, portion, &state);
        let numbers = numbers(&answered);
        writeln!(out, "{}", spaced(&numbers))?;
        *code = numbers[0];
        state = answered.state;
    }
    writeln!(out, "STATE {}", spaced(&state.numbers()))?;
    Ok(codes)
}

/// The returned number and what is written to the answer.
fn numbers(answered: &Answered) -> Vec<u64> {
    let examined = answered.examined;
    match answered.answer {
        Answer::NotEnded => vec![101, examined],
        Answer::Foreign => vec![102, 0],
        Answer::Ended(Err(refusal)) => {
            vec![u64::from(refusal.number), examined, refusal.record as u64, refusal.position as u64]
        }
        Answer::Ended(Ok(summary)) => {
            let reference::Summary { deleghe, records, total, lines, sums } = summary;
            let mut numbers = vec![0, examined, deleghe, records as u64, total, lines];
            numbers.extend(sums.iter().flat_map(|&(debit, credit)| [debit, credit]));
            numbers
        }
    }
}

fn spaced(numbers: &[u64]) -> String {
    let words: Vec<String> = numbers.iter().map(u64::to_string).collect();
    words.join(" ")
}

/// A case of this kind; the first has as many records as there may be.
fn any(rng: &mut Rng, pool: &Pool, kind: usize, first: bool) -> Case {
    let flow = if first { most_records(rng, pool) } else { any_flow(rng, pool) };
    let state = match kind {
        0 => State::start().numbers(),
        1 if rng.one_in(2) => of_flow(rng, &flow),
        1 => {
            let other = any_flow(rng, pool);
            of_flow(rng, &other)
        }
        _ => forged_state(rng, &flow),
    };
    let left = (records(&flow)).saturating_sub(state[4].min(MOST_RECORDS as u64)).max(1);
    let portions = [(); CALLS].map(|()| portion(rng, left));
    Case { portions, flow, state }
}

fn most_records(rng: &mut Rng, pool: &Pool) -> Vec<u8> {
    let plan = sound::plan_of(rng, MOST_RECORDS, Amounts::Wide);
    sound::write(rng, pool, &plan).bytes
}

/// A small flow: half of them sound, some others of no flow's length.
fn any_flow(rng: &mut Rng, pool: &Pool) -> Vec<u8> {
    let size = match rng.below(100) {
        0..=29 => Size::Least,
        30..=79 => Size::Tiny,
        _ => Size::Small,
    };
    match rng.below(16) {
        0..=7 => {
            let plan = sound::plan(rng, size);
            sound::write(rng, pool, &plan).bytes
        }
        8 => vec![b' '; rng.pick(&[0, 0, 1, 119, 121, 959, MOST_BYTES + 1])],
        _ => damage::flow_of(rng, pool, size).flow,
    }
}

fn records(flow: &[u8]) -> u64 {
    (flow.len() / RECORD) as u64
}

/// A portion of what is left, so that five often reach the end and often don't;
/// zeros among them, and some that are huge.
fn portion(rng: &mut Rng, left: u64) -> u64 {
    match rng.below(16) {
        0 | 1 => 0,
        2 | 3 => 1,
        4 => rng.pick(&[u64::MAX, 1 << 63, 1 << 32, (1 << 61) + 1, left + 1]),
        5 => left,
        _ => rng.between(1, left / 3 + 1),
    }
}

/// A state of a flow's own judgement.
fn of_flow(rng: &mut Rng, flow: &[u8]) -> Numbers {
    let most = records(flow).min(MOST_RECORDS as u64);
    let portion = if rng.one_in(4) { u64::MAX } else { rng.between(0, most.saturating_sub(1)) };
    judge_portion(flow, portion, &State::start()).state.numbers()
}

/// A state that no judgement handed back: of all its numbers one, two, a refusal
/// or all.
fn forged_state(rng: &mut Rng, flow: &[u8]) -> Numbers {
    let mut state = of_flow(rng, flow);
    match rng.below(8) {
        0 => forged::forge_refusal(rng, &mut state),
        1 => {
            let passed = rng.below(records(flow).clamp(1, MOST_RECORDS as u64));
            let last = state;
            state = forged::anything(rng, passed);
            state[7..9].copy_from_slice(&last[7..9]);
        }
        more => {
            for _ in 0..1 + more % 2 {
                let place = rng.place(STATE_ROOM);
                forged::forge(rng, &mut state, place);
            }
        }
    }
    state
}
