//! The cases of a run that are droppings.

use crate::calls::DROP_ROOM;
use crate::columns::{COUNT, RECORD, TAIL_DELEGHE};
use crate::drop_flows::{self, Case};
use crate::dropped::Account;
use crate::dropping::Droppings;
use crate::list_call::{Compared, Difference};
use crate::rng::Rng;
use crate::sorts::Least;
use crate::sound::{self, Pool};
use crate::{at, folder, progress, trap, Failure};
use std::fs;

/// So many are compared where no number is given. In a run of so many each answer,
/// each sort of flow, of list and of delega comes up this often at least.
pub const FULL: u64 = 200_000;
const FEWEST: u64 = 1000;

fn differs(seed: u64, index: u64, difference: Box<Difference>) -> Failure {
    let case = format!("seed {seed}, dropping {index} (once more: again {seed} dropping {index})");
    Failure::ListCallDiffers(case, difference)
}

/// So many droppings, and calls with rooms of every length before them.
pub fn compare(pool: &Pool, seed: u64, many: u64) -> Result<Droppings, Failure> {
    let mut droppings = Droppings::new();
    if many > 0 {
        trap::at(trap::ROOM, 0, 0);
        every_room(&mut droppings, pool)
            .map_err(|difference| Failure::ListCallDiffers("rooms of every length".to_string(), difference))?;
    }
    for index in 0..many {
        trap::at(trap::DROPPING, seed, index);
        case(&mut droppings, pool, seed, index)?;
        progress(index, many, "droppings");
    }
    Ok(droppings)
}

/// One flow and one list.
fn case(droppings: &mut Droppings, pool: &Pool, seed: u64, index: u64) -> Result<(), Failure> {
    let mut rng = Rng::new(seed, 28, index);
    let case = drop_flows::any_case(&mut rng, pool);
    droppings.compare(&mut rng, &case).map(drop).map_err(|difference| differs(seed, index, difference))
}

/// The same once more, the flow kept for a library that ends the program.
pub fn again(pool: &Pool, seed: u64, index: u64) -> Result<(), Failure> {
    let Case { flow, numbers, .. } = drop_flows::any_case(&mut Rng::new(seed, 28, index), pool);
    let to = folder().join("flow");
    fs::create_dir_all(folder()).and_then(|()| fs::write(&to, &flow)).map_err(|error| at(&to, error))?;
    println!("flow of {} bytes, list of {} numbers: {}", flow.len(), numbers.len(), to.display());
    trap::at(trap::DROPPING, seed, index);
    let mut droppings = Droppings::new();
    case(&mut droppings, pool, seed, index)?;
    droppings.tally.print();
    println!("no difference");
    Ok(())
}

/// Flows from files, each with lists of several sorts.
pub fn compare_files(files: &[&str]) -> Result<(), Failure> {
    let mut droppings = Droppings::new();
    for file in files {
        let flow = fs::read(file).map_err(|error| at(file, error))?;
        let mut rng = Rng::new(flow.len() as u64, 29, 0);
        let deleghe = flow.rchunks_exact(RECORD).next().map_or(0, |tail| sound::get(tail, TAIL_DELEGHE, COUNT));
        for numbers in lists(deleghe.min(108)) {
            let name = format!("{file} without {numbers:?}");
            let case = Case { flow: flow.clone(), numbers, known: None, sorts: None };
            droppings.compare(&mut rng, &case).map_err(|difference| Failure::ListCallDiffers(name, difference))?;
        }
    }
    droppings.tally.print();
    println!("no difference");
    Ok(())
}

/// Lists for a flow of so many deleghe: each by itself and all but each, every other
/// one, none and all, and all sorts that are refused.
pub fn lists(deleghe: u64) -> Vec<Vec<u64>> {
    let all: Vec<u64> = (1..=deleghe).collect();
    let mut lists = vec![vec![], all.clone(), [&all[..], &[1]].concat(), (1..=deleghe).step_by(2).collect()];
    for &number in &all {
        lists.push(vec![number]);
        lists.push(all.iter().rev().copied().filter(|&other| other != number).collect());
    }
    lists.extend([0, deleghe + 1, 1 << 32, 1 << 63, u64::MAX].map(|number| vec![1, number]));
    lists.push(vec![1, 1]);
    lists
}

/// Lists of several sorts and answers of every length, on flows that are answered in
/// several ways. No tally counts these.
fn every_room(droppings: &mut Droppings, pool: &Pool) -> Compared<()> {
    let mut rng = Rng::new(24, 30, 0);
    let plan = drop_flows::of_one_line(&mut rng, 3, &[1]);
    let accepted = sound::write(&mut rng, pool, &plan).bytes;
    let refused = accepted[..accepted.len() - RECORD].to_vec();
    let printed = sound::write(&mut rng, pool, &sound::printed()).bytes;
    for flow in [accepted, refused, printed, Vec::new()] {
        for numbers in lists(3) {
            let account = Account::of(&flow, &numbers);
            for room in 0..=DROP_ROOM + 5 {
                droppings.compare_with(&mut rng, &flow, &numbers, room, &account)?;
            }
        }
    }
    Ok(())
}

/// Says what came up least, and whether that was too seldom.
pub fn is_seldom(droppings: &Droppings, many: u64) -> bool {
    Least { full: FULL, fewest: FEWEST }.is_missed(droppings.tally.rarest(), many, "droppings")
}
