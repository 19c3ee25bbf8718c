//! Some thousand generated sheets with the reference's answers, as the data and
//! the expected output of a run program.

use crate::columns::MOST_BYTES;
use crate::frames;
use crate::rng::Rng;
use crate::sheet::Size;
use crate::sheet_damage::{self, Case};
use crate::sound::{self, Pool};
use crate::vectors;
use crate::writing::{way, WAYS};
use std::io::{self, Write};

/// No more bytes than this in all.
const MOST_WRITTEN: usize = 3_000_000;
/// Large ones are dear: so many with a room in which 1 can show, and so many
/// others of more than this many bytes, and of more than this.
const MOST_OVER: usize = 4;
const HUGE: usize = 20_000;
const MOST_HUGE: usize = 1;
const LARGE: usize = 3000;
const MOST_LARGE: usize = 8;
/// Some answers are aimed at more often than others, for all the ways to them:
/// so many with the same refusal, that the others come up often as well.
const MOST_ALIKE: u64 = 70;
/// No longer ones than this.
const LONGEST_SHEET: usize = 70_000;
const LONGEST_ROOM: usize = 66_000;

/// Writes `count` sheets to one file, each with the bytes that its room has
/// after the call, and the answers to another; prints how often each came up.
pub fn write(seed: u64, count: u64, data_to: &str, stdout_to: &str) -> io::Result<()> {
    let pool = Pool::new(seed);
    let (mut data, mut lines) = (Vec::new(), Vec::new());
    let mut tally = [0_u64; WAYS.len()];
    let (mut written, mut over, mut huge, mut large, mut index) = (0, 0, 0, 0, 0);
    while written < count {
        let mut rng = Rng::new(seed, 10, index);
        index += 1;
        let size = match rng.below(1000) {
            0..=599 => Size::Deleghe(1),
            600..=929 => Size::Flow(sound::Size::Least),
            930..=964 => Size::Flow(sound::Size::Tiny),
            965..=974 => Size::Flow(sound::Size::Small),
            975..=977 => Size::Records(546),
            978..=994 => Size::Records(547),
            _ => Size::Deleghe(2 * rng.place(2)),
        };
        let case = sheet_damage::case_of(&mut rng, &pool, size);
        let answer = answered(&case);
        if answer > 0 && tally[answer] == MOST_ALIKE {
            continue;
        }
        match case.sheet.len().max(case.room) {
            _ if case.sheet.len() > LONGEST_SHEET || case.room > LONGEST_ROOM => continue,
            _ if case.room > MOST_BYTES && (over == MOST_OVER || case.known != Some(1)) => continue,
            _ if case.room > MOST_BYTES => over += 1,
            length if length > HUGE && huge == MOST_HUGE => continue,
            length if length > HUGE => huge += 1,
            length if length > LARGE && large == MOST_LARGE => continue,
            length if length > LARGE => large += 1,
            _ => (),
        }
        written += 1;
        let name = format!("random-{written:04}");
        one(&name, &case, &mut data, &mut lines)?;
        tally[answer] += 1;
        frames::within(MOST_WRITTEN, &data, written, "sheets")?;
    }
    frames::save([data_to, stdout_to], &data, &lines, written, "sheets")?;
    for (way, times) in WAYS.iter().zip(tally) {
        println!("{way:<16} {times}");
    }
    Ok(())
}

/// The place in the tally of the reference's answer to a case.
fn answered(case: &Case) -> usize {
    let answer = reference::write(&case.sheet, &mut vec![0; case.room]);
    let code = answer.map_or_else(|refusal| u64::from(refusal.number), |_| 0);
    way(&case.sheet, case.room, code).expect("an answer to a sheet")
}

/// Writes a case and its answer, by the reference. Before the call byte k of the
/// room, counted from 0, is 33 + k modulo 90.
fn one(name: &str, case: &Case, data: &mut Vec<u8>, lines: &mut Vec<u8>) -> io::Result<()> {
    let mut room: Vec<u8> = (0..case.room).map(|at| 33 + (at % 90) as u8).collect();
    let answer = reference::write(&case.sheet, &mut room);
    frames::write_changed(data, name, case.room as u64, &case.sheet, &room)?;
    writeln!(lines, "{name}")?;
    match answer {
        Ok(length) => {
            writeln!(lines, "WRITTEN {length}\nSAME")?;
            vectors::print(lines, &room[..length]).map(drop)
        }
        Err(refusal) => writeln!(lines, "{refusal}\nSAME"),
    }
}
