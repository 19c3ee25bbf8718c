//! The beginnings of tax codes from a file, each with the check character that
//! an outside program gives: a line has fifteen characters of a person's code or
//! the ten digits of a firm's, a space, and that character. A flow, and the
//! sheet from which it is written, is asked for with every character that might
//! be the last. The one that is given must be taken and all others refused, by
//! the library, the reference, the fast judge and the generator.

use crate::codes::{self, FIRM_BEGINS, PERSON_BEGINS};
use crate::columns::{Kind, CODE, CODE_WIDTH, RECORD};
use crate::comparer::Comparer;
use crate::rng::Rng;
use crate::sheet::{self, Part};
use crate::sheet_damage::Case;
use crate::sound::{self, Pool};
use crate::taxcodes::{self, Code, DIGITS, LETTERS};
use crate::writing::Writings;
use crate::{at, ffi, trap, Failure};
use std::fs;

/// The record 10 of the flow of eight records, counted from 1.
const PAYER: usize = 2;

/// What stands on one line.
struct Beginning<'a> {
    first: &'a [u8],
    /// The check character that is given.
    given: u8,
    /// All that might stand there.
    last: &'static [u8],
}

impl Beginning<'_> {
    fn read(line: &str) -> Option<Beginning<'_>> {
        let (first, given) = line.split_once(' ')?;
        let last: &[u8] = match first.len() {
            PERSON_BEGINS => LETTERS,
            FIRM_BEGINS => DIGITS,
            _ => return None,
        };
        let given = given.bytes().next().filter(|byte| given.len() == 1 && last.contains(byte))?;
        Some(Beginning { first: first.as_bytes(), given, last })
    }

    fn code(&self, last: u8) -> Code {
        let mut code = [b' '; CODE_WIDTH];
        code[..self.first.len()].copy_from_slice(self.first);
        code[self.first.len()] = last;
        code
    }
}

/// How many beginnings there were of persons' and of firms' codes, and how often
/// a flow or a sheet was taken and refused.
#[derive(Default)]
struct Counts {
    persons: u64,
    firms: u64,
    taken: u64,
    refused: u64,
}

pub fn compare(file: &str) -> Result<(), Failure> {
    let text = fs::read_to_string(file).map_err(|error| at(file, error))?;
    println!("every last character behind the codes of {file}, the {} with the reference", ffi::NAME);
    trap::set();
    for (what, taken, counts) in
        [("flows", "accepted", every(file, &text, flows())?), ("sheets", "written", every(file, &text, sheets())?)]
    {
        let Counts { persons, firms, taken: times, refused } = counts;
        println!("{what}: {persons} persons' codes and {firms} firms', {times} {taken}, {refused} refused 26");
    }
    println!("no difference");
    Ok(())
}

/// Asks for the answer to each code, which must be the one that is given and the
/// one that the generator says.
fn every(
    file: &str,
    text: &str,
    mut ask: impl FnMut(&Code, u64, &str) -> Result<u64, Failure>,
) -> Result<Counts, Failure> {
    let mut counts = Counts::default();
    for (line, number) in text.lines().zip(1..) {
        trap::at(trap::LINE, 0, number);
        let beginning = Beginning::read(line)
            .ok_or_else(|| Failure::Io(format!("{file}: line {number} is no beginning and check character")))?;
        match beginning.first.len() {
            PERSON_BEGINS => counts.persons += 1,
            _ => counts.firms += 1,
        }
        for &last in beginning.last {
            let code = beginning.code(last);
            let name = format!("line {number} of {file}, ending in {}", char::from(last));
            let given = if last == beginning.given { 0 } else { 26 };
            let says = if taxcodes::can_be(&code) { 0 } else { 26 };
            let answered = ask(&code, says, &name)?;
            assert!(says == given, "{name}: the generator says {says}, the file {given}");
            assert!(answered == given, "{name}: it is answered {answered}, the file says {given}");
            match answered {
                0 => counts.taken += 1,
                _ => counts.refused += 1,
            }
        }
    }
    Ok(counts)
}

fn flows() -> impl FnMut(&Code, u64, &str) -> Result<u64, Failure> {
    let mut rng = Rng::new(24, 13, 0);
    let mut flow = sound::write(&mut rng, &Pool::new(24), &sound::printed()).bytes;
    let mut comparer = Comparer::new();
    move |code: &Code, _: u64, name: &str| {
        codes::set(&mut flow[(PAYER - 1) * RECORD..PAYER * RECORD], code);
        let differs = |difference| Failure::Differs(name.to_string(), difference);
        let answered = comparer.compare_untallied(&mut rng, &flow).map_err(differs)?;
        let told = &comparer.room()[..2];
        assert!(answered == 0 || *told == [PAYER as u64, CODE as u64], "{name}: {told:?} is told");
        Ok(answered)
    }
}

fn sheets() -> impl FnMut(&Code, u64, &str) -> Result<u64, Failure> {
    let mut rng = Rng::new(24, 13, 1);
    let mut made = sheet::write(&mut rng, &Pool::new(24), &sound::printed());
    let mut writings = Writings::new();
    move |code: &Code, says: u64, name: &str| {
        for part in &mut made.parts {
            if let Part::Record(Kind::Payer, record) = part {
                codes::set(record, code);
            }
        }
        codes::set(&mut made.flow[(PAYER - 1) * RECORD..PAYER * RECORD], code);
        let (sheet, flow) = (made.bytes(), made.flow.clone());
        let case = Case { sheet, room: flow.len(), known: Some(says), flow };
        let differs = |difference| Failure::SheetDiffers(name.to_string(), difference);
        writings.compare(&mut rng, &case).map_err(differs)
    }
}
