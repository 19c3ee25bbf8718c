//! The cases of a run that are series of calls with a record.

use crate::calls::{KEPT_ROOM, SUMS_ROOM};
use crate::columns::{AMOUNT, COUNT, RECORD, SECTIONS, TAIL_DELEGHE};
use crate::drop_flows;
use crate::drops;
use crate::keep_calls::Ask;
use crate::keep_flows::{self, Held};
use crate::keep_meddling;
use crate::keep_records::{Around, SORTS};
use crate::keeping::{Case, Keepings};
use crate::kept::{self, Account};
use crate::list_call::{Compared, MORE};
use crate::rng::Rng;
use crate::sorts::Least;
use crate::sound::{self, Pool};
use crate::{at, folder, progress, trap, Failure};
use std::fs;

/// So many series are compared where no number is given. In a run of so many each
/// answer of each call and each sort comes up this often at least.
pub const FULL: u64 = 200_000;
const FEWEST: u64 = 200;

/// The most calls of a series, and of one on a longer flow or on one that is hardly ever
/// accepted; of longer flows one in so many is held to its plan.
const MOST_CALLS: u64 = 12;
const FEW_CALLS: u64 = 4;
const LONG: usize = 100 * RECORD;
const SELDOM: u64 = 4;

/// So many series, and calls with rooms of every length before them.
pub fn compare(pool: &Pool, seed: u64, many: u64) -> Result<Keepings, Failure> {
    let mut keepings = Keepings::new();
    if many > 0 {
        trap::at(trap::ROOM, 0, 0);
        every_room(&mut keepings, pool)
            .map_err(|difference| Failure::ListCallDiffers("rooms of every length".to_string(), difference))?;
    }
    for index in 0..many {
        trap::at(trap::KEPT, seed, index);
        case(&mut keepings, pool, seed, index)?;
        progress(index, many, "series with a record");
    }
    Ok(keepings)
}

/// One series.
fn case(keepings: &mut Keepings, pool: &Pool, seed: u64, index: u64) -> Result<(), Failure> {
    let mut rng = Rng::new(seed, 32, index);
    let mut call = 0;
    series(keepings, &mut rng, pool, &mut call).map_err(|difference| {
        let again = format!("again {seed} kept {index}");
        Failure::ListCallDiffers(format!("seed {seed}, kept {index}, call {call} (once more: {again})"), difference)
    })
}

/// A record is made from the flow, and then calls are made with it, each on what the one
/// before left.
fn series(keepings: &mut Keepings, rng: &mut Rng, pool: &Pool, call: &mut u64) -> Compared<()> {
    let (mut held, plan, start) = keep_flows::any_start(rng, pool);
    let account = Account::of(&held.flow, &Ask::Keep);
    let first = Case { flow: &held.flow, ask: &Ask::Keep, record: &held.record, account: &account };
    let left = keepings.compare(rng, &first)?;
    if left.code == 0 {
        held.record.copy_from_slice(&left.kept[..SUMS_ROOM]);
    }
    let few = held.flow.len() > LONG || !keep_meddling::goes_on(start);
    let most = if few { FEW_CALLS } else { MOST_CALLS };
    let mut done = 0;
    for _ in 0..rng.between(1, most) {
        *call += 1;
        let next = held.next(rng, pool, false);
        let case = Case { flow: &next.flow, ask: &next.ask, record: &next.record, account: &next.account };
        let left = keepings.compare(rng, &case)?;
        keepings.tally.count(&next, &left);
        let mut unlike = None;
        if held.knows(&next) {
            keepings.tally.sums_known += 1;
            unlike = held.unlike_before(&next, left.code);
        }
        if left.code == 0 && held.goes_on(&next, &left.flow, &left.kept) {
            done += 1;
            if held.knows(&next) && (held.flow.len() <= LONG || rng.one_in(SELDOM)) {
                keepings.tally.flows_known += 1;
                unlike = unlike.or_else(|| held.unlike_after(pool));
            }
        }
        unlike.map_or(Ok(()), |why| Err(keepings.wrong(&case, why, &left)))?;
    }
    keepings.tally.series(plan, start, done);
    Ok(())
}

/// The same once more, the flow kept for a library that ends the program.
pub fn again(pool: &Pool, seed: u64, index: u64) -> Result<(), Failure> {
    let (Held { flow, .. }, ..) = keep_flows::any_start(&mut Rng::new(seed, 32, index), pool);
    let to = folder().join("flow");
    fs::create_dir_all(folder()).and_then(|()| fs::write(&to, &flow)).map_err(|error| at(&to, error))?;
    println!("flow of {} bytes at the start: {}", flow.len(), to.display());
    trap::at(trap::KEPT, seed, index);
    let mut keepings = Keepings::new();
    case(&mut keepings, pool, seed, index)?;
    keepings.tally.print_answers();
    println!("no difference");
    Ok(())
}

/// Flows from files, each with calls of several sorts and with records of every sort, and
/// with all of these calls in a row.
pub fn compare_files(files: &[&str]) -> Result<(), Failure> {
    let mut keepings = Keepings::new();
    for file in files {
        let flow = fs::read(file).map_err(|error| at(file, error))?;
        let mut rng = Rng::new(flow.len() as u64, 33, 0);
        one_flow(&mut keepings, &mut rng, &flow)
            .map_err(|difference| Failure::ListCallDiffers(file.to_string(), difference))?;
    }
    keepings.tally.print_answers();
    println!("no difference");
    Ok(())
}

fn one_flow(keepings: &mut Keepings, rng: &mut Rng, flow: &[u8]) -> Compared<()> {
    let (mut lent, mut record) = (flow.to_vec(), kept::sums(flow));
    for ask in asks(rng, flow) {
        let account = Account::of(flow, &ask);
        let right = account.before;
        let around = Around { flow, right, handed: right, before: record, after: account.sums };
        for (make, _) in SORTS {
            let record = make(rng, &around);
            keepings.compare(rng, &Case { flow, ask: &ask, record: &record, account: &account })?;
        }
        // In a row.
        let account = Account::of(&lent, &ask);
        let left = keepings.compare(rng, &Case { flow: &lent, ask: &ask, record: &record, account: &account })?;
        if left.code == 0 {
            lent = left.flow[..account.length].to_vec();
            record.copy_from_slice(&left.kept[..SUMS_ROOM]);
        }
    }
    Ok(())
}

/// Calls of several sorts on a flow.
fn asks(rng: &mut Rng, flow: &[u8]) -> Vec<Ask> {
    let deleghe = flow.rchunks_exact(RECORD).next().map_or(0, |tail| sound::get(tail, TAIL_DELEGHE, COUNT)).min(108);
    let mut asks = vec![Ask::Keep];
    asks.extend([0, 1, 8, 9, 4368].map(Ask::Rebalance));
    for delega in [0, 1, 2, deleghe, deleghe + 1] {
        for section in &SECTIONS {
            let amounts = [(0, 0), (rng.wide(1_000_000), 0), (rng.wide(1_000_000), rng.wide(1_000_000)), (u64::MAX, 1)];
            let (debit, credit) = rng.pick(&amounts);
            asks.push(Ask::Correct([delega, section.line, rng.between(1, 2), debit, credit]));
        }
    }
    asks.extend(drops::lists(deleghe).into_iter().map(Ask::Drop));
    asks.push(Ask::Keep);
    asks
}

/// Records and answers of every length, right ones and wrong ones, on flows that are
/// answered in several ways. No tally counts these.
fn every_room(keepings: &mut Keepings, pool: &Pool) -> Compared<()> {
    let mut rng = Rng::new(24, 34, 0);
    let accepted = sound::write(&mut rng, pool, &drop_flows::of_one_line(&mut Rng::new(24, 34, 1), 3, &[1])).bytes;
    let mut wrong = accepted.clone();
    let sum = wrong.len() - RECORD + 53 - 1;
    wrong[sum..sum + AMOUNT].fill(b' ');
    let refused = wrong[..wrong.len() - RECORD].to_vec();
    let printed = sound::write(&mut rng, pool, &sound::printed()).bytes;
    for flow in [accepted, wrong, refused, printed, Vec::new()] {
        let asks = [
            Ask::Keep,
            Ask::Correct([1, 5, 2, 1, 2]),
            Ask::Correct([1, 5, 2, 0, 2500]),
            Ask::Correct([0, 0, 0, 0, 0]),
            Ask::Rebalance(0),
            Ask::Rebalance(2),
            Ask::Drop(vec![2]),
            Ask::Drop(vec![]),
            Ask::Drop(vec![1, 1]),
        ];
        for ask in asks {
            let account = Account::of(&flow, &ask);
            let mut record = account.before;
            for more in [0, 1] {
                record[9] += more;
                let case = Case { flow: &flow, ask: &ask, record: &record, account: &account };
                for numbers in 0..=SUMS_ROOM + MORE {
                    for room in 0..=KEPT_ROOM + MORE {
                        keepings.compare_with(&mut rng, &case, numbers, room)?;
                    }
                }
            }
        }
    }
    Ok(())
}

/// Says what came up least, and whether that was too seldom.
pub fn is_seldom(keepings: &Keepings, many: u64) -> bool {
    Least { full: FULL, fewest: FEWEST }.is_missed(keepings.tally.rarest(), many, "series with a record")
}
