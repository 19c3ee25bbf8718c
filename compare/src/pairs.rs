//! The cases of a run that are pairs of corrections.

use crate::comparer::Comparer;
use crate::correction;
use crate::pair_flows::{self, Pair};
use crate::pair_report::Difference;
use crate::pairing::Pairings;
use crate::rng::Rng;
use crate::sorts::Least;
use crate::sound::Pool;
use crate::{at, folder, progress, trap, Failure};
use std::fs;

/// So many are compared where no number is given. In a run of so many each answer of
/// each call, each sort and each end comes up this often at least.
pub const FULL: u64 = 200_000;
const FEWEST: u64 = 100;

/// So many pairs.
pub fn compare(pool: &Pool, seed: u64, many: u64) -> Result<Pairings, Failure> {
    let mut pairings = Pairings::new();
    for index in 0..many {
        trap::at(trap::PAIR, seed, index);
        case(&mut pairings, pool, seed, index)?;
        progress(index, many, "pairs");
    }
    Ok(pairings)
}

/// One pair.
fn case(pairings: &mut Pairings, pool: &Pool, seed: u64, index: u64) -> Result<(), Failure> {
    let mut rng = Rng::new(seed, 36, index);
    let pair = pair_flows::any_pair(&mut rng, pool);
    pairings.compare(&mut rng, pool, &pair).map_err(|difference| {
        Failure::PairDiffers(format!("seed {seed}, pair {index} (once more: again {seed} pair {index})"), difference)
    })
}

/// The same once more, the flow kept for a library that ends the program.
pub fn again(pool: &Pool, seed: u64, index: u64) -> Result<(), Failure> {
    let Pair { flow, calls, .. } = pair_flows::any_pair(&mut Rng::new(seed, 36, index), pool);
    let to = folder().join("flow");
    fs::create_dir_all(folder()).and_then(|()| fs::write(&to, &flow)).map_err(|error| at(&to, error))?;
    println!("flow of {} bytes, A {:?}, B {:?}: {}", flow.len(), calls[0], calls[1], to.display());
    trap::at(trap::PAIR, seed, index);
    let mut pairings = Pairings::new();
    case(&mut pairings, pool, seed, index)?;
    pairings.tally.print_answers();
    println!("no difference");
    Ok(())
}

/// Flows from files, each with pairs of several sorts. One that is refused has none; a few
/// corrections of it are compared.
pub fn compare_files(files: &[&str]) -> Result<(), Failure> {
    let (pool, mut pairings) = (Pool::new(0), Pairings::new());
    for file in files {
        let flow = fs::read(file).map_err(|error| at(file, error))?;
        let mut rng = Rng::new(flow.len() as u64, 37, 0);
        if fast::judge(&flow).is_err() {
            refused(&mut rng, file, &flow)?;
            continue;
        }
        for pair in pair_flows::pairs_of(&mut rng, &flow) {
            let differs = |difference: Box<Difference>| Failure::PairDiffers(file.to_string(), difference);
            pairings.compare(&mut rng, &pool, &pair).map_err(differs)?;
        }
    }
    pairings.tally.print();
    println!("no difference");
    Ok(())
}

/// A flow that is refused.
fn refused(rng: &mut Rng, file: &str, flow: &[u8]) -> Result<(), Failure> {
    let mut comparer = Comparer::new();
    for _ in 0..16 {
        let call = correction::anything(rng);
        let compared = comparer.compare(rng, call, flow);
        compared.map_err(|difference| Failure::Differs(file.to_string(), difference))?;
    }
    println!("{file} is refused: no pair of corrections");
    Ok(())
}

/// Says what came up least, and whether that was too seldom.
pub fn is_seldom(pairings: &Pairings, many: u64) -> bool {
    Least { full: FULL, fewest: FEWEST }.is_missed(pairings.tally.rarest(), many, "pairs")
}
