//! Some hundred generated rebalancings with the reference's answers, as the data
//! and the expected output of a run program.

use crate::columns::MOST_BYTES;
use crate::frames;
use crate::rebalance_damage::{self, Case};
use crate::rebalancing::ANSWERS;
use crate::rng::Rng;
use crate::sound::{Pool, Size};
use crate::vectors;
use std::io::{self, Write};

/// No more bytes than this in all.
const MOST_WRITTEN: usize = 800_000;
/// Large flows are dear: one that is longer than a flow may be, by one byte, none
/// other of more than this many bytes, and so many of more than this many.
const LARGEST: usize = 4000;
const LARGE: usize = 1200;
const MOST_LARGE: usize = 24;
/// The run program's list has no more numbers than this.
const LONGEST_LIST: usize = 5000;

/// So many with the same answer, that all of them come up, and so many of those
/// that change nothing.
fn most_alike(code: u64) -> u64 {
    match code {
        0 => 120,
        27 => 40,
        _ => 12,
    }
}
const MOST_UNCHANGED: u64 = 24;

/// Writes `count` cases to one file, each with the bytes that the flow has after
/// the call, and the lines that the run program prints for them to another; prints
/// how often each answer came up.
pub fn write(seed: u64, count: u64, data_to: &str, stdout_to: &str) -> io::Result<()> {
    let pool = Pool::new(seed);
    let (mut data, mut lines) = (Vec::new(), Vec::new());
    let mut tally = [0_u64; 28];
    let (mut written, mut unchanged, mut too_long, mut large, mut index) = (0, 0, 0, 0, 0);
    while written < count {
        let mut rng = Rng::new(seed, 25, index);
        index += 1;
        let size = match rng.below(100) {
            0..=79 => Size::Least,
            80..=94 => Size::Tiny,
            _ => Size::Small,
        };
        let case = rebalance_damage::case_of(&mut rng, &pool, size);
        let (flow, listed, code) = answered(&case);
        let same = code == 0 && flow == case.made.flow;
        if tally[code as usize] == most_alike(code) || (same && unchanged == MOST_UNCHANGED) {
            continue;
        }
        match flow.len() {
            length if length == MOST_BYTES + 1 && too_long == 0 => too_long += 1,
            length if length > LARGEST || (length > LARGE && large == MOST_LARGE) => continue,
            length if length > LARGE => large += 1,
            _ => (),
        }
        written += 1;
        unchanged += u64::from(same);
        tally[code as usize] += 1;
        assert!(case.list <= LONGEST_LIST);
        let name = format!("random-{written:04}");
        frames::write_changed(&mut data, &name, case.list as u64, &case.made.flow, &flow)?;
        writeln!(lines, "{name}")?;
        lines.extend(listed);
        frames::within(MOST_WRITTEN, &data, written, "cases")?;
    }
    frames::save([data_to, stdout_to], &data, &lines, written, "cases")?;
    for &(code, name) in ANSWERS.iter().filter(|&&(code, _)| code < tally.len() as u64) {
        println!("{name:<16} {}", tally[code as usize]);
    }
    Ok(())
}

/// The flow after the call, what the run program prints behind the name, and the
/// answer's number, by the reference.
fn answered(case: &Case) -> (Vec<u8>, Vec<u8>, u64) {
    let mut flow = case.made.flow.clone();
    let mut list = vec![0; case.list];
    let mut lines = Vec::new();
    let code = match reference::rebalance(&mut flow, &mut list) {
        Ok(listed) => {
            lines.extend(format!("REBALANCED {listed}\n").bytes());
            for pair in list[..2 * listed].chunks_exact(2) {
                lines.extend(format!("CHANGED {} {}\n", pair[0], pair[1]).bytes());
            }
            0
        }
        Err(refusal) => {
            lines.extend(format!("{refusal}\n").bytes());
            u64::from(refusal.number)
        }
    };
    lines.extend(b"KEPT\nSAME\n");
    if code == 0 {
        vectors::print(&mut lines, &flow).expect("a vector can be written to");
    }
    (flow, lines, code)
}
