//! Some thousand generated flows with the reference's answers, as the data and
//! the expected output of a run program.

use crate::columns::{MOST_BYTES, MOST_RECORDS, RECORD};
use crate::damage;
use crate::frames;
use crate::rng::Rng;
use crate::sound::{self, Amounts, Pool, Size};
use std::io::{self, Write};

/// No more bytes than this in all.
const MOST_WRITTEN: usize = 3_000_000;
/// Large flows are dear: so many that are longer than a flow may be, and so
/// many others of more than this many bytes.
const MOST_TOO_LONG: usize = 2;
const LARGE: usize = 4000;
const MOST_LARGE: usize = 3;

/// A sound flow of as many records as there may be: the first of the flows, since
/// none might be drawn that is long and sound.
fn most_records(rng: &mut Rng, pool: &Pool) -> Vec<u8> {
    let plan = sound::plan_of(rng, MOST_RECORDS, Amounts::Wide);
    sound::write(rng, pool, &plan).bytes
}

/// Writes `count` flows to one file and the lines that the judging program
/// prints for them to another; prints how often each answer comes up.
pub fn write(seed: u64, count: u64, flows: &str, stdout: &str) -> io::Result<()> {
    let pool = Pool::new(seed);
    let (mut data, mut lines) = (Vec::new(), Vec::new());
    let mut tally = [0_u64; 27];
    let (mut written, mut too_long, mut large, mut index) = (0, 0, 0, 0);
    while written < count {
        let mut rng = Rng::new(seed, 3, index);
        index += 1;
        let size = match rng.below(1000) {
            0..=799 => Size::Least,
            800..=949 => Size::Tiny,
            950..=994 => Size::Small,
            _ => Size::Full,
        };
        let flow = match written {
            0 => most_records(&mut rng, &pool),
            _ => damage::flow_of(&mut rng, &pool, size).flow,
        };
        match flow.len() {
            length if length > MOST_BYTES + RECORD => continue,
            length if length > MOST_BYTES && too_long == MOST_TOO_LONG => continue,
            length if length > MOST_BYTES => too_long += 1,
            length if length > LARGE && large == MOST_LARGE => continue,
            length if length > LARGE => large += 1,
            _ => (),
        }
        let name = format!("random-{:04}", written + 1);
        frames::write(&mut data, &name, &flow)?;
        writeln!(lines, "{name}")?;
        tally[print(&mut lines, &flow)?] += 1;
        written += 1;
        frames::within(MOST_WRITTEN, &data, written, "flows")?;
    }
    frames::save([flows, stdout], &data, &lines, written, "flows")?;
    for way in (0..=20).chain([26]) {
        println!("{way:>2} {}", tally[way]);
    }
    Ok(())
}

/// What the judging program prints, and the answer's number.
pub fn print(out: &mut impl Write, flow: &[u8]) -> io::Result<usize> {
    match reference::judge(flow) {
        Ok(summary) => {
            let reference::Summary { deleghe, records, total, lines, sums } = summary;
            writeln!(out, "ACCEPTED {deleghe} {records} {total} {lines}")?;
            print_sections(out, &sums)?;
            Ok(0)
        }
        Err(refusal) => {
            writeln!(out, "{refusal}")?;
            Ok(usize::from(refusal.number))
        }
    }
}

/// A line for each of the five sections.
pub fn print_sections(out: &mut impl Write, sums: &[(u64, u64); 5]) -> io::Result<()> {
    for (subtype, (debit, credit)) in ["01", "03", "05", "07", "17"].iter().zip(sums) {
        writeln!(out, "{subtype} {debit} {credit}")?;
    }
    Ok(())
}
