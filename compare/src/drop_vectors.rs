//! Some hundred generated droppings with the reference's answers, as the data and
//! the expected output of a run program.

use crate::columns::MOST_BYTES;
use crate::drop_flows::{self, Case};
use crate::drop_lists::{SORTS, VERY_LONG};
use crate::drop_tally::ANSWERS;
use crate::frames;
use crate::rng::Rng;
use crate::sorts;
use crate::sound::Pool;
use crate::vectors;
use std::io::{self, Write};

/// No more bytes than this in all.
const MOST_WRITTEN: usize = 1_300_000;
/// Large flows are dear: one that is longer than a flow may be, by one byte, and one
/// of so many deleghe, the first; no other of more than so many bytes, and so many of
/// more than these.
const MANY: usize = 40;
const LARGEST: usize = 3000;
const LARGE: usize = 1680;
const MOST_LARGE: u64 = 60;
/// The run program's list has no more numbers than this.
const LONGEST_LIST: usize = 600;
/// So many lists of hundreds of numbers.
const MOST_LONG: u64 = 6;

/// So many with the same answer, that all of them come up.
fn most_alike(code: usize) -> u64 {
    match code {
        0 => 110,
        21 => 60,
        28 => 20,
        _ => 6,
    }
}

/// What has been written so far, by answer and by list.
struct Written {
    cases: u64,
    answers: [u64; 29],
    lists: [u64; SORTS.len()],
    large: u64,
    too_long: bool,
}

impl Written {
    /// Takes a case or leaves it.
    fn takes(&mut self, case: &Case, code: usize) -> bool {
        let list = case.sorts.map_or(0, |sorts| sorts.list);
        let too_long = case.flow.len() == MOST_BYTES + 1 && !self.too_long;
        let most = if self.large == MOST_LARGE { LARGE } else { LARGEST };
        let too_large = case.flow.len() > most && self.cases > 0 && !too_long;
        let long = case.numbers.len() > LONGEST_LIST || (list == VERY_LONG && self.lists[list] == MOST_LONG);
        if self.answers[code] == most_alike(code) || too_large || long {
            return false;
        }
        self.cases += 1;
        self.answers[code] += 1;
        self.lists[list] += 1;
        self.large += u64::from(case.flow.len() > LARGE);
        self.too_long |= too_long;
        true
    }
}

/// Writes `count` cases to one file, each with the bytes that the flow has after the
/// call and the list, and the lines that the run program prints for them to another;
/// prints how often each answer came up.
pub fn write(seed: u64, count: u64, data_to: &str, stdout_to: &str) -> io::Result<()> {
    let pool = Pool::new(seed);
    let (mut data, mut lines) = (Vec::new(), Vec::new());
    let mut written = Written { cases: 0, answers: [0; 29], lists: [0; SORTS.len()], large: 0, too_long: false };
    let mut index = 0;
    while written.cases < count {
        let mut rng = Rng::new(seed, 31, index);
        index += 1;
        let plan = match written.cases {
            0 => drop_flows::of_one_line(&mut rng, MANY, &[3, 30]),
            _ => drop_flows::small(&mut rng),
        };
        let case = drop_flows::case_of(&mut rng, &pool, plan);
        let (flow, printed, code) = answered(&case);
        // The first drops some of its many deleghe.
        let first = written.cases > 0 || (code == 0 && case.numbers.len() > 10 && case.numbers.len() < 30);
        if !first || !written.takes(&case, code) {
            continue;
        }
        let name = format!("random-{:04}", written.cases);
        frame(&mut data, &name, &case, &flow)?;
        writeln!(lines, "{name}")?;
        lines.extend(printed);
        frames::within(MOST_WRITTEN, &data, written.cases, "cases")?;
    }
    frames::save([data_to, stdout_to], &data, &lines, written.cases, "cases")?;
    for &(code, name) in ANSWERS.iter().filter(|&&(code, _)| code < 29) {
        println!("{name:<34} {:>10}", written.answers[code as usize]);
    }
    sorts::print("list", &written.lists, &SORTS, "drop");
    Ok(())
}

/// The flow, the bytes that it has afterwards, and the list.
fn frame(data: &mut Vec<u8>, name: &str, case: &Case, after: &[u8]) -> io::Result<()> {
    frames::write_changed(data, name, case.numbers.len() as u64, &case.flow, after)?;
    frames::write_list(data, &case.numbers)
}

/// The flow after the call, what the run program prints behind the name, and the
/// answer's number, by the reference.
fn answered(case: &Case) -> (Vec<u8>, Vec<u8>, usize) {
    let mut flow = case.flow.clone();
    let mut lines = Vec::new();
    let code = match reference::drop_deleghe(&mut flow, &case.numbers) {
        Ok(length) => {
            lines.extend(format!("DROPPED {length}\nSAME\n").bytes());
            vectors::print(&mut lines, &flow[..length]).expect("a vector can be written to")
        }
        Err(refusal) => {
            lines.extend(format!("{refusal}\nSAME\n").bytes());
            usize::from(refusal.number)
        }
    };
    (flow, lines, code)
}
