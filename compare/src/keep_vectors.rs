//! Some hundred generated series of calls with a record and the reference's answers,
//! as the data and the expected output of a run program.

use crate::calls::{Record, SUMS_ROOM, WRONG_RECORD};
use crate::columns::MOST_BYTES;
use crate::drop_flows;
use crate::frames;
use crate::keep_calls::{Ask, COLUMNS};
use crate::keep_flows::{self, Held, Next};
use crate::keep_meddling;
use crate::keep_tally;
use crate::rng::Rng;
use crate::sound::{self, Pool, Size};
use crate::vectors;
use reference::{Kept, Refusal};
use std::io::{self, Write};

/// No more bytes than this in all.
const MOST_WRITTEN: usize = 1_300_000;
/// Large flows are dear, since each step has its bytes: one that is longer than a flow
/// may be, by one byte, with one step; one of so many deleghe, the first; no other of more
/// than so many bytes.
const MANY: usize = 20;
const LARGEST: usize = 1440;
/// The second has as many steps as a case may have.
const MOST_STEPS: u64 = 40;
/// The run program's list has no more numbers than this, and of a drop so many cases have
/// one of more than these.
const LONGEST_LIST: usize = 600;
const LONG_LIST: usize = 40;
const MOST_LONG: u64 = 2;

/// A step, and what comes of it.
struct Step {
    ask: Ask,
    /// The record that it is lent, where it is not the one handed back before.
    own: Option<Record>,
    /// The whole lent flow afterwards.
    after: Vec<u8>,
    /// What the run program prints.
    lines: Vec<u8>,
    code: u64,
    /// The one sum that 29 was answered for, where the others are right.
    wrong: Option<usize>,
}

/// A flow and its steps.
struct Case {
    flow: Vec<u8>,
    /// What the run program prints of the flow, and the number it is refused with.
    first: String,
    code: u64,
    steps: Vec<Step>,
}

/// So many are left in a row before an answer that came up once more often is seldom too.
const MOST_LEFT: u64 = 2000;

/// What has been written so far: cases, their steps, answers by call, sums that were wrong
/// alone, cases with a long list.
#[derive(Default)]
struct Written {
    cases: u64,
    steps: u64,
    answers: [[u64; 30]; 4],
    wrong: [u64; SUMS_ROOM],
    long: u64,
    too_long: bool,
    /// What came up so often is seldom, and cases left since one was taken.
    seldom: u64,
    left: u64,
}

impl Written {
    fn is_seldom(&self, call: usize, code: u64) -> bool {
        self.answers[call][code as usize] <= self.seldom
    }

    fn has_seldom(&self, step: &Step) -> bool {
        let wrong = step.wrong.filter(|&at| self.wrong[at] <= self.seldom);
        self.is_seldom(step.ask.index(), step.code) || wrong.is_some()
    }

    /// Takes a case or leaves it. Of six one has a dropping that is done, two are of a flow
    /// that a series may well go on from, and three have an answer that came up seldom.
    fn takes(&mut self, case: &Case, goes_on: bool) -> bool {
        let lists = || case.steps.iter().map(|step| step.ask.named());
        let done = |call: usize| case.steps.iter().any(|step| step.ask.index() == call && step.code == 0);
        let too_long = case.flow.len() == MOST_BYTES + 1 && !self.too_long;
        let long = lists().any(|list| list > LONG_LIST);
        let takes = match self.cases {
            0 => (1..4).all(done) && lists().any(|list| list > 9),
            1 => (1..4).all(done),
            _ if too_long => true,
            _ if case.flow.len() > LARGEST || (long && self.long == MOST_LONG) => false,
            cases if cases % 6 == 0 => done(3),
            cases if cases % 2 == 0 => goes_on && (done(1) || done(2)),
            _ => self.is_seldom(0, case.code) || case.steps.iter().any(|step| self.has_seldom(step)),
        };
        self.left = if takes { 0 } else { self.left + 1 };
        if self.left > MOST_LEFT {
            self.seldom += 1;
            self.left = 0;
        }
        if takes {
            self.cases += 1;
            self.long += u64::from(long);
            self.too_long |= too_long;
            self.answers[0][case.code as usize] += 1;
            for step in &case.steps {
                self.steps += 1;
                self.answers[step.ask.index()][step.code as usize] += 1;
                step.wrong.iter().for_each(|&at| self.wrong[at] += 1);
            }
        }
        takes
    }
}

/// Writes `count` cases to one file, and the lines that the run program prints for them
/// to another; prints how often each answer came up.
pub fn write(seed: u64, count: u64, data_to: &str, stdout_to: &str) -> io::Result<()> {
    let pool = Pool::new(seed);
    let (mut data, mut lines) = (Vec::new(), Vec::new());
    let mut written = Written::default();
    let mut index = 0;
    while written.cases < count {
        let mut rng = Rng::new(seed, 35, index);
        index += 1;
        let (case, goes_on) = any_case(&mut rng, &pool, written.cases);
        if !written.takes(&case, goes_on) {
            continue;
        }
        let name = format!("random-{:04}", written.cases);
        frame(&mut data, &name, &case)?;
        writeln!(lines, "{name}\n{}", case.first)?;
        case.steps.iter().for_each(|step| lines.extend(&step.lines));
        frames::within(MOST_WRITTEN, &data, written.cases, "cases")?;
    }
    frames::save([data_to, stdout_to], &data, &lines, written.cases, "cases")?;
    println!("{} steps, 29 for one sum alone: {:?}", written.steps, written.wrong);
    let answers = written.answers.map(|counts| keep_tally::ANSWERS.map(|code| counts.get(code as usize).copied()));
    keep_tally::print_answers(&answers.map(|counts| counts.map(Option::unwrap_or_default)));
    Ok(())
}

/// A case, and whether a series may well go on from its flow. The first two are of their
/// own kind.
fn any_case(rng: &mut Rng, pool: &Pool, nth: u64) -> (Case, bool) {
    let plan = match (nth, rng.below(10)) {
        (0, _) => drop_flows::of_one_line(rng, MANY, &[3, 15]),
        (1, _) => drop_flows::of_one_line(rng, 2, &[]),
        (_, 0..=6) => sound::plan(rng, Size::Least),
        _ => drop_flows::small(rng),
    };
    let (mut held, goes_on) = match nth {
        0 | 1 => (Held::of(plan, rng.next(), pool), true),
        _ => {
            let (held, start) = keep_flows::start_of(plan, rng, pool);
            (held, keep_meddling::goes_on(start))
        }
    };
    let steps = match (nth, held.flow.len()) {
        (0, _) => 4,
        (1, _) => MOST_STEPS,
        (_, length) if length > LARGEST => 1,
        _ => rng.pick(&[1, 1, 1, 1, 1, 2, 2, 2, 3]),
    };
    (case_of(rng, pool, &mut held, steps), goes_on)
}

/// The flow that is held, and so many steps.
fn case_of(rng: &mut Rng, pool: &Pool, held: &mut Held, steps: u64) -> Case {
    let made = Kept::made(&held.flow);
    held.record = made.as_ref().map_or([0; SUMS_ROOM], Kept::numbers);
    let first = match &made {
        Ok(kept) => sums_line(&kept.numbers()),
        Err(refusal) => refusal.to_string(),
    };
    let code = made.map_or_else(|refusal| u64::from(refusal.number), |_| 0);
    let mut case = Case { flow: held.flow.clone(), first, code, steps: Vec::new() };
    let mut handed = held.record;
    while (case.steps.len() as u64) < steps {
        let next = held.next(rng, pool, true);
        if next.ask != Ask::Keep && next.ask.named() <= LONGEST_LIST {
            // What a step before was lent of its own and handed back is lent on now and
            // then.
            let own = Some(next.record).filter(|record| *record != handed && !rng.one_in(8));
            let (step, record) = step_of(held, next, own, handed);
            case.steps.push(step);
            handed = record;
        }
    }
    case
}

/// A step and the record that it hands back, by the reference.
fn step_of(held: &mut Held, next: Next, own: Option<Record>, handed: Record) -> (Step, Record) {
    let mut after = next.flow.clone();
    let mut kept = Kept::of(&own.unwrap_or(handed));
    let (answer, length) = answered(&next.ask, &mut after, &mut kept);
    let record = kept.numbers();
    let mut lines = match &answer {
        Ok(lines) => lines.clone(),
        Err(refusal) => format!("{refusal}\n"),
    }
    .into_bytes();
    lines.extend(format!("{}\nSAME\n", sums_line(&record)).bytes());
    if answer.is_ok() {
        vectors::print(&mut lines, &after[..length]).expect("a vector can be written to");
        held.goes_on(&next, &after, &record);
    }
    let code = answer.map_or_else(|refusal| u64::from(refusal.number), |_| 0);
    let mut others = (0..SUMS_ROOM).filter(|&at| code == WRONG_RECORD && record[at] != next.account.before[at]);
    let wrong = others.next().filter(|_| others.next().is_none());
    (Step { ask: next.ask, own, after, lines, code, wrong }, record)
}

/// What the run program prints of a call that is done, or the refusal, and the length of
/// what is left.
fn answered(ask: &Ask, flow: &mut [u8], kept: &mut Kept) -> (Result<String, Refusal>, usize) {
    let mut length = flow.len();
    let answer = match ask {
        Ask::Keep => unreachable!("no step makes a record"),
        &Ask::Correct([delega, subtype, place, debit, credit]) => {
            kept.correct(flow, delega, subtype, place, debit, credit).map(|()| "MADE\n".to_string())
        }
        Ask::Rebalance(list) => {
            let mut list = vec![0; *list];
            kept.rebalance(flow, &mut list).map(|listed| {
                let changed =
                    list[..2 * listed].chunks_exact(2).map(|pair| format!("CHANGED {} {}\n", pair[0], pair[1]));
                format!("REBALANCED {listed}\n") + &changed.collect::<String>()
            })
        }
        Ask::Drop(numbers) => kept.drop_deleghe(flow, numbers).map(|left| {
            length = left;
            format!("DROPPED {left}\n")
        }),
    };
    (answer, length)
}

fn sums_line(record: &Record) -> String {
    format!("SUMS {}", record.map(|sum| sum.to_string()).join(" "))
}

/// The flow, and for each step its line, the bytes that are expected after it, its record
/// and its list.
fn frame(data: &mut Vec<u8>, name: &str, case: &Case) -> io::Result<()> {
    frames::write_call(data, name, [case.steps.len() as u64, 0, 0, 0, 0], &case.flow)?;
    for step in &case.steps {
        let (numbers, list) = match &step.ask {
            Ask::Keep => unreachable!("no step makes a record"),
            Ask::Correct(numbers) => (*numbers, &[][..]),
            Ask::Rebalance(list) => ([*list as u64, 0, 0, 0, 0], &[][..]),
            Ask::Drop(numbers) => ([numbers.len() as u64, 0, 0, 0, 0], &numbers[..]),
        };
        frames::write_call(data, COLUMNS[step.ask.index()], numbers, &step.after)?;
        let record = step.own.unwrap_or_default();
        frames::write_list(data, &[&[u64::from(step.own.is_some())], &record[..]].concat())?;
        frames::write_list(data, list)?;
    }
    Ok(())
}
