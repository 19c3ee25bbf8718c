//! Some hundred generated sets of records of the F24 EP form with the reference's
//! answers, as the data and the expected output of a run program.

use crate::ep_columns::RECORD;
use crate::ep_damage::{self, Case, ANY, FAMILIES, FIELD, LARGE, SOUND, TEXT, TOO, WILD};
use crate::ep_sound::Size;
use crate::ep_tally::{answer_of, ANSWERS};
use crate::frames;
use crate::rng::Rng;
use crate::sorts;
use std::io::{self, Write};

/// No more bytes than this in all, and no more records than this in a case but the
/// first, which has so many.
const MOST_WRITTEN: usize = 1_200_000;
const MOST_RECORDS: usize = 5;
const FIRST: usize = 20;

/// How often a family's sorts are gone through, before what is left of the cases is any.
fn rounds(family: usize) -> usize {
    match family {
        SOUND => 14,
        TEXT => 3,
        ANY => 4,
        FIELD | TOO | WILD => 2,
        LARGE => 0,
        _ => 1,
    }
}

/// The family and the sort of each case.
fn planned() -> Vec<(usize, usize)> {
    let of = |family| (0..ep_damage::sorts(family)).map(move |sort| (family, sort));
    (0..FAMILIES.len()).flat_map(|family| (0..rounds(family)).flat_map(move |_| of(family))).collect()
}

/// Writes `count` cases to one file and the lines that the run program prints for them
/// to another; prints how often each answer came up.
pub fn write(seed: u64, count: u64, data_to: &str, stdout_to: &str) -> io::Result<()> {
    let (mut data, mut lines) = (Vec::new(), Vec::new());
    let mut answers = [0; ANSWERS.len()];
    let mut families = [0; FAMILIES.len()];
    let planned = planned();
    for written in 0..count {
        let mut rng = Rng::new(seed, 41, written);
        let (family, sort) = planned.get(written as usize).copied().unwrap_or_else(|| {
            let family = rng.place(LARGE);
            (family, rng.place(ep_damage::sorts(family)))
        });
        let size = if written == 0 { Size::Any } else { Size::Least };
        let case = drawn(&mut rng, size, family, sort);
        let name = format!("random-{:04}", written + 1);
        frames::write(&mut data, &name, &case.bytes)?;
        writeln!(lines, "{name}")?;
        let (code, record) = print(&mut lines, &case.bytes)?;
        answers[answer_of(&case.bytes, code, record)] += 1;
        families[family] += 1;
        frames::within(MOST_WRITTEN, &data, written + 1, "cases")?;
    }
    frames::save([data_to, stdout_to], &data, &lines, count, "cases")?;
    sorts::print("answer", &answers, &ANSWERS, "ep");
    sorts::print("records", &families, &FAMILIES, "ep");
    Ok(())
}

/// A case of this sort with few records, or with so many as the first has.
fn drawn(rng: &mut Rng, size: Size, family: usize, sort: usize) -> Case {
    let fits = |records: usize| match size {
        Size::Any => records == FIRST,
        _ => records <= MOST_RECORDS,
    };
    loop {
        let case = ep_damage::case_of(rng, size, family, sort);
        if fits(case.bytes.len() / RECORD) {
            return case;
        }
    }
}

/// What the run program prints behind the name, by the reference; the answer's number and
/// its first.
fn print(lines: &mut Vec<u8>, records: &[u8]) -> io::Result<(u64, u64)> {
    match reference::judge_ep(records) {
        Ok(reference::EpSummary { payments, total }) => {
            writeln!(lines, "ACCEPTED {payments} {total}")?;
            Ok((0, payments))
        }
        Err(refusal) => {
            writeln!(lines, "{refusal}")?;
            Ok((u64::from(refusal.number), refusal.record as u64))
        }
    }
}
