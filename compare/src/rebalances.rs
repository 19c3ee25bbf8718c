//! The cases of a run that are rebalancings.

use crate::calls::{CHANGED_MOST, REBALANCE_ROOM};
use crate::columns::{AMOUNT, RECORD};
use crate::list_call::{Compared, Difference};
use crate::mended::Account;
use crate::rebalance_damage::{self, Case, Made};
use crate::rebalancing::Rebalancings;
use crate::rng::Rng;
use crate::sorts::Least;
use crate::sound::{self, Pool};
use crate::{at, folder, progress, trap, Failure};
use std::fs;

/// So many are compared where no number is given. In a run of so many each answer,
/// each sort of flow and of list and each field comes up this often at least.
pub const FULL: u64 = 200_000;
const FEWEST: u64 = 1000;

fn differs(seed: u64, index: u64, difference: Box<Difference>) -> Failure {
    let case = format!("seed {seed}, rebalancing {index} (once more: again {seed} rebalancing {index})");
    Failure::ListCallDiffers(case, difference)
}

/// So many rebalancings, and calls with rooms of every length before them.
pub fn compare(pool: &Pool, seed: u64, many: u64) -> Result<Rebalancings, Failure> {
    let mut rebalancings = Rebalancings::new();
    if many > 0 {
        trap::at(trap::ROOM, 0, 0);
        every_room(&mut rebalancings, pool)
            .map_err(|difference| Failure::ListCallDiffers("rooms of every length".to_string(), difference))?;
    }
    for index in 0..many {
        trap::at(trap::REBALANCING, seed, index);
        case(&mut rebalancings, pool, seed, index)?;
        progress(index, many, "rebalancings");
    }
    Ok(rebalancings)
}

/// One flow.
fn case(rebalancings: &mut Rebalancings, pool: &Pool, seed: u64, index: u64) -> Result<(), Failure> {
    let mut rng = Rng::new(seed, 21, index);
    let case = rebalance_damage::any_case(&mut rng, pool);
    rebalancings.compare(&mut rng, &case).map(drop).map_err(|difference| differs(seed, index, difference))
}

/// The same once more, the flow kept for a library that ends the program.
pub fn again(pool: &Pool, seed: u64, index: u64) -> Result<(), Failure> {
    let Case { made, list, .. } = rebalance_damage::any_case(&mut Rng::new(seed, 21, index), pool);
    let to = folder().join("flow");
    fs::create_dir_all(folder()).and_then(|()| fs::write(&to, &made.flow)).map_err(|error| at(&to, error))?;
    println!("flow of {} bytes, list of {list} numbers: {}", made.flow.len(), to.display());
    trap::at(trap::REBALANCING, seed, index);
    let mut rebalancings = Rebalancings::new();
    case(&mut rebalancings, pool, seed, index)?;
    rebalancings.tally.print();
    println!("no difference");
    Ok(())
}

/// Flows from files, each with lists of several lengths.
pub fn compare_files(files: &[&str]) -> Result<(), Failure> {
    let mut rebalancings = Rebalancings::new();
    for file in files {
        let flow = fs::read(file).map_err(|error| at(file, error))?;
        let mut rng = Rng::new(flow.len() as u64, 22, 0);
        let exact = 2 * Account::of(&flow).changed.len();
        let mut lists = vec![0, 1, exact.saturating_sub(2), exact.saturating_sub(1), exact, exact + 1, CHANGED_MOST];
        lists.sort_unstable();
        lists.dedup();
        for list in lists {
            let made = Made { flow: flow.clone(), known: None };
            let case = Case { made, list, account: Account::of(&flow), sort: None };
            let name = format!("{file} with a list of {list} numbers");
            rebalancings.compare(&mut rng, &case).map_err(|difference| Failure::ListCallDiffers(name, difference))?;
        }
    }
    rebalancings.tally.print();
    println!("no difference");
    Ok(())
}

/// Lists and answers of every length, on flows that are answered in several ways.
/// No tally counts these.
fn every_room(rebalancings: &mut Rebalancings, pool: &Pool) -> Compared<()> {
    let mut rng = Rng::new(24, 23, 0);
    let accepted = sound::write(&mut rng, pool, &sound::printed()).bytes;
    let mut wrong = accepted.clone();
    for (record, start) in [(6, 15), (6, 45), (7, 36), (8, 53), (8, 83)] {
        wrong[(record - 1) * RECORD + start - 1] = b' ';
    }
    let refused = wrong[..wrong.len() - RECORD].to_vec();
    let mut large = wrong.clone();
    let debit = 3 * RECORD + 29 - 1;
    large[debit..debit + AMOUNT].fill(b'9');
    large[debit + RECORD..debit + RECORD + AMOUNT].fill(b'9');
    for flow in [accepted, wrong, refused, large] {
        let account = Account::of(&flow);
        for list in 0..=16 {
            for numbers in 0..=REBALANCE_ROOM + 5 {
                rebalancings.compare_with(&mut rng, &flow, list, numbers, &account)?;
            }
        }
    }
    Ok(())
}

/// Says what came up least, and whether that was too seldom.
pub fn is_seldom(rebalancings: &Rebalancings, many: u64) -> bool {
    Least { full: FULL, fewest: FEWEST }.is_missed(rebalancings.tally.rarest(), many, "rebalancings")
}
