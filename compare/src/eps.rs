//! The cases of a run that are records of the F24 EP form.

use crate::calls::EP_ROOM;
use crate::ep_account;
use crate::ep_damage::{self, Case, LARGE};
use crate::ep_every;
use crate::ep_judging::{Compared, Difference, Sides, LONGEST, MORE};
use crate::ep_sound::Size;
use crate::ep_tally::Tally;
use crate::frames;
use crate::rng::Rng;
use crate::sorts::Least;
use crate::{at, folder, progress, trap, Failure};
use std::fs;

/// So many are compared where no number is given. In a run of so many each answer, each
/// sort of fault, of rows and of totals comes up this often at least, and each sort of
/// large sets so often.
pub const FULL: u64 = 200_000;
const FEWEST: u64 = 500;
const FEWEST_LARGE: u64 = 5;

/// One of so many is large, and which of them; and one of so many has some hundred
/// records.
const ONE_LARGE: u64 = 4000;
const LARGE_AT: u64 = 1000;
const ONE_LONG: u64 = 500;
const LONG_AT: u64 = 250;

pub struct Judgings {
    sides: Sides,
    pub tally: Tally,
}

impl Judgings {
    fn new() -> Self {
        Judgings { sides: Sides::new(), tally: Tally::default() }
    }

    /// Compares a case, now and then with too little room for the answer first.
    fn compare(&mut self, rng: &mut Rng, case: &Case) -> Compared<()> {
        let says = ep_account::told(&case.bytes);
        if case.family != LARGE && rng.one_in(16) {
            let room = rng.place(EP_ROOM);
            self.sides.compare(rng, &case.bytes, room, says)?;
            self.tally.no_room();
        }
        let room = EP_ROOM + if rng.one_in(4) { 0 } else { 1 + rng.place(MORE) };
        let left = self.sides.compare(rng, &case.bytes, room, says)?;
        if let Some(known) = case.known.filter(|known| *known != says) {
            return Err(Difference::of_plan(format!("by the plan it is {known:?}"), &case.bytes, &left));
        }
        self.tally.count(case, &left);
        Ok(())
    }
}

fn differs(seed: u64, index: u64, difference: Box<Difference>) -> Failure {
    let case = format!("seed {seed}, ep {index} (once more: again {seed} ep {index})");
    Failure::EpDiffers(case, difference)
}

/// So many cases, and calls of every sort before them.
pub fn compare(seed: u64, many: u64) -> Result<Judgings, Failure> {
    let mut judgings = Judgings::new();
    if many > 0 {
        trap::at(trap::ROOM, 0, 0);
        judgings.tally.first = ep_every::compare(&mut judgings.sides)
            .map_err(|difference| Failure::EpDiffers("before the first case".to_string(), difference))?;
    }
    for index in 0..many {
        trap::at(trap::EP, seed, index);
        case(&mut judgings, seed, index)?;
        progress(index, many, "EP cases");
    }
    Ok(judgings)
}

/// The case with this index.
fn made(rng: &mut Rng, seed: u64, index: u64) -> Case {
    if index % ONE_LARGE == LARGE_AT {
        let sorts = ep_damage::sorts(LARGE) as u64;
        let sort = (index / ONE_LARGE + seed % sorts) % sorts;
        return ep_damage::case_of(rng, Size::Least, LARGE, sort as usize);
    }
    ep_damage::any_case(rng, if index % ONE_LONG == LONG_AT { Size::Many } else { Size::Any })
}

fn case(judgings: &mut Judgings, seed: u64, index: u64) -> Result<(), Failure> {
    let mut rng = Rng::new(seed, 38, index);
    let case = made(&mut rng, seed, index);
    judgings.compare(&mut rng, &case).map_err(|difference| differs(seed, index, difference))
}

/// The same once more, the records kept for a library that ends the program.
pub fn again(seed: u64, index: u64) -> Result<(), Failure> {
    let Case { bytes, .. } = made(&mut Rng::new(seed, 38, index), seed, index);
    let to = folder().join("records");
    fs::create_dir_all(folder()).and_then(|()| fs::write(&to, &bytes)).map_err(|error| at(&to, error))?;
    println!("{} bytes: {}", bytes.len(), to.display());
    trap::at(trap::EP, seed, index);
    let mut judgings = Judgings::new();
    case(&mut judgings, seed, index)?;
    judgings.tally.print_answers();
    println!("no difference");
    Ok(())
}

/// Files, the records of a form each.
pub fn compare_files(files: &[&str]) -> Result<(), Failure> {
    let mut sides = Sides::new();
    for file in files {
        let records = fs::read(file).map_err(|error| at(file, error))?;
        every_room(&mut sides, &records, file)?;
    }
    println!("no difference");
    Ok(())
}

/// Framed files.
pub fn compare_frames(files: &[&str]) -> Result<(), Failure> {
    let mut sides = Sides::new();
    for file in files {
        let data = fs::read(file).map_err(|error| at(file, error))?;
        let cases = frames::read(&data).ok_or_else(|| Failure::Io(format!("{file}: not framed records")))?;
        println!("{file}: {} cases", cases.len());
        for (name, records) in cases {
            every_room(&mut sides, records, &format!("{name} of {file}"))?;
        }
    }
    println!("no difference");
    Ok(())
}

/// Records from a file, with an answer of every length.
fn every_room(sides: &mut Sides, records: &[u8], name: &str) -> Result<(), Failure> {
    if records.len() > LONGEST {
        return Err(Failure::Io(format!("{name}: more than {LONGEST} bytes")));
    }
    let mut rng = Rng::new(records.len() as u64, 39, 0);
    let says = ep_account::told(records);
    for room in 0..=EP_ROOM + MORE {
        let compared = sides.compare(&mut rng, records, room, says);
        compared.map_err(|difference| Failure::EpDiffers(name.to_string(), difference))?;
    }
    Ok(())
}

/// Says what came up least, and whether that was too seldom.
pub fn is_seldom(judgings: &Judgings, many: u64) -> bool {
    let large = Least { full: FULL, fewest: FEWEST_LARGE };
    let large = large.is_missed(judgings.tally.rarest_large(), many, "EP cases");
    Least { full: FULL, fewest: FEWEST }.is_missed(judgings.tally.rarest(), many, "EP cases") || large
}
