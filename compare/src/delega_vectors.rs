//! Some hundred calls for one delega of a generated flow with the reference's
//! answers, as the data and the expected output of a run program. Every set of
//! sections that a delega can have is asked for in turn.

use crate::columns::*;
use crate::damage;
use crate::frames;
use crate::rng::Rng;
use crate::sound::{self, Amounts, DelegaPlan, Pool, SectionPlan};
use crate::vectors::print_sections;
use std::io::{self, Write};

/// No more bytes than this in all.
const MOST_WRITTEN: usize = 1_000_000;
/// Large flows are dear: no longer ones than this but the first two.
const LARGE: usize = 6000;
/// The number of a call for a delega among those that the run program makes.
const DELEGA_CALL: u64 = 1;
/// The numbers of the sets that a delega can have are 1 to this.
const SETS: u64 = 16;

/// A call: the flow, and the number of the delega.
struct Asked {
    flow: Vec<u8>,
    number: u64,
}

/// Writes `count` calls to one file and the lines that the run program prints
/// for them to another; prints how often each answer and each set comes up.
pub fn write(seed: u64, count: u64, data_to: &str, stdout_to: &str) -> io::Result<()> {
    let pool = Pool::new(seed);
    let (mut data, mut lines) = (Vec::new(), Vec::new());
    let mut answers = [0_u64; 27];
    let mut sets = [0_u64; SETS as usize + 1];
    let (mut written, mut index) = (0, 0);
    while written < count {
        let mut rng = Rng::new(seed, 14, index);
        index += 1;
        let Asked { flow, number } = match written {
            0 => many_deleghe(&mut rng, &pool),
            1 => many_lines(&mut rng, &pool),
            _ => any(&mut rng, &pool, written % SETS + 1),
        };
        if written > 1 && flow.len() > LARGE {
            continue;
        }
        written += 1;
        let name = format!("random-{written:04}");
        frames::write_call(&mut data, &name, [DELEGA_CALL, number, 0, 0, 0], &flow)?;
        writeln!(lines, "{name}")?;
        let (answer, set) = print(&mut lines, &flow, number)?;
        answers[answer] += 1;
        sets[set] += 1;
        frames::within(MOST_WRITTEN, &data, written, "calls")?;
    }
    frames::save([data_to, stdout_to], &data, &lines, written, "calls")?;
    for (way, times) in answers.iter().enumerate().filter(|(_, &times)| times > 0) {
        println!("{way:>2} {times}");
    }
    for (set, times) in sets.iter().enumerate().skip(1) {
        println!("set {set:>2} {times}");
    }
    Ok(())
}

/// What the run program prints, the answer's number and the set that it tells.
fn print(out: &mut impl Write, flow: &[u8], number: u64) -> io::Result<(usize, usize)> {
    match reference::delega(flow, number) {
        Ok(summary) => {
            let reference::DelegaSummary { final_balance, lines, set, size, sums } = summary;
            writeln!(out, "DELEGA {number} {final_balance} {lines} {set} {size}")?;
            print_sections(out, &sums)?;
            Ok((0, set as usize))
        }
        Err(refusal) => {
            writeln!(out, "{refusal}")?;
            Ok((usize::from(refusal.number), 0))
        }
    }
}

/// As many deleghe as there can be, of one line each; the last is asked for.
fn many_deleghe(rng: &mut Rng, pool: &Pool) -> Asked {
    let deleghe = (0..(MOST_RECORDS - 2) / 5)
        .map(|nth| DelegaPlan { sections: vec![sound::empty(nth % SECTIONS.len(), 1)], receipts: &[] })
        .collect();
    last_of(rng, pool, deleghe)
}

/// As many lines as the sections may have, the four and section 17 in turn; the
/// last is asked for.
fn many_lines(rng: &mut Rng, pool: &Pool) -> Asked {
    let full = |section: usize| sound::empty(section, SECTIONS[section].most);
    let deleghe = (0..15)
        .map(|nth| {
            let sections: Vec<SectionPlan> =
                if nth % 2 == 0 { (0..IDENTIFYING).map(full).collect() } else { vec![full(IDENTIFYING)] };
            DelegaPlan { sections, receipts: &[] }
        })
        .collect();
    last_of(rng, pool, deleghe)
}

fn last_of(rng: &mut Rng, pool: &Pool, deleghe: Vec<DelegaPlan>) -> Asked {
    let number = deleghe.len() as u64;
    let plan = sound::finish(rng, deleghe, Amounts::Wide);
    Asked { flow: sound::write(rng, pool, &plan).bytes, number }
}

/// A call on a small flow, one delega of which has this set. Four in five ask
/// for it; the others for a delega that is not there, or the flow is damaged.
fn any(rng: &mut Rng, pool: &Pool, set: u64) -> Asked {
    let mut deleghe = others(rng);
    let at = rng.place(deleghe.len() + 1);
    let few = !rng.one_in(5);
    let mut asked = sound::shape(rng, few);
    asked.sections = sound::sections(rng, set, few);
    deleghe.insert(at, asked);

    let count = deleghe.len() as u64;
    let there = at as u64 + 1;
    let amounts = rng.pick(&[Amounts::Small, Amounts::Middle, Amounts::Wide, Amounts::Extreme]);
    let plan = sound::finish(rng, deleghe, amounts);
    match rng.below(20) {
        0..=15 => Asked { flow: sound::write(rng, pool, &plan).bytes, number: there },
        16 | 17 => Asked { flow: sound::write(rng, pool, &plan).bytes, number: nowhere(rng, there, count) },
        _ => {
            let damages = rng.between(1, 2);
            let number = if rng.one_in(2) { there } else { nowhere(rng, there, count) };
            Asked { flow: damage::damaged(rng, pool, plan, damages).flow, number }
        }
    }
}

/// The deleghe beside it, mostly none or one, of few lines.
fn others(rng: &mut Rng) -> Vec<DelegaPlan> {
    let count = match rng.below(16) {
        0..=9 => 0,
        10..=12 => 1,
        13..=14 => 2,
        _ => rng.between(3, 6),
    };
    (0..count).map(|_| sound::shape(rng, true)).collect()
}

/// The number of no delega; some are right in fewer bits.
fn nowhere(rng: &mut Rng, there: u64, count: u64) -> u64 {
    match rng.below(3) {
        0 => 0,
        1 => count + 1,
        _ => rng.pick(&[u64::MAX, u64::MAX - 1, 1 << 63, 10_000_000 + there, (1 << 32) + there, (1 << 56) + there]),
    }
}
