//! What must hold of a dropping that was done, by further calls of the library: what
//! is left is accepted, its sums and those of the dropped deleghe are the sums of
//! before, and dropping one by one ends in the same bytes.

use crate::calls::{Call, DROP_ROOM, MOST_NUMBERS, SUMS};
use crate::columns::RECORD;
use crate::drop_lists;
use crate::drop_tally::Tally;
use crate::ffi;
use crate::list_call::{self, Left};
use crate::rng::Rng;

/// Of longer flows one in so many is gone through.
const LONG: usize = 100 * RECORD;
const SELDOM: u64 = 4;

type Held = Result<(), String>;

/// What must hold, where these numbers were dropped from the flow.
pub fn check(rng: &mut Rng, flow: &[u8], numbers: &[u64], left: &Left, tally: &mut Tally) -> Held {
    let length = left.answer[0] as usize;
    list_call::refused(&left.flow[..length]).map_or(Ok(()), Err)?;
    if flow.len() <= LONG || rng.one_in(SELDOM) {
        sums(flow, numbers, &left.flow[..length])?;
        tally.summed += 1;
        one_by_one(rng, flow, numbers, left)?;
        tally.stepped += 1;
        tally.steps += numbers.len() as u64;
    }
    if length < flow.len() {
        again(left, length, numbers)?;
        tally.lent_again += 1;
    }
    Ok(())
}

/// Number of deleghe, of records, the sum of final balances, lines, and the ten sums:
/// those of before are those of after and of each that was dropped.
fn sums(flow: &[u8], numbers: &[u64], kept: &[u8]) -> Held {
    let asked = |call: &Call, flow: &[u8]| {
        let mut room = [0; MOST_NUMBERS];
        match ffi::call(call, &mut flow.to_vec(), &mut room) {
            0 => Ok(room),
            code => Err(format!("{call} is refused {code}")),
        }
    };
    let before = asked(&Call::Judge, flow)?;
    let mut after = asked(&Call::Judge, kept)?;
    for &number in numbers {
        let dropped = asked(&Call::Delega { number }, flow)?;
        after[0] += 1;
        after[2] += dropped[0];
        after[3] += dropped[1];
        after[SUMS..].iter_mut().zip(&dropped[SUMS..]).for_each(|(sum, more)| *sum += more);
    }
    after[1] += ((flow.len() - kept.len()) / RECORD) as u64;
    match before == after {
        true => Ok(()),
        false => Err(format!("before {before:?}, after with those dropped {after:?}")),
    }
}

/// The same deleghe one by one, in any order: the numbers above one that was dropped
/// are one less, and each call is lent what the one before left.
fn one_by_one(rng: &mut Rng, flow: &[u8], numbers: &[u64], together: &Left) -> Held {
    let mut order = numbers.to_vec();
    drop_lists::shuffle(rng, &mut order);
    let (mut lent, mut length) = (flow.to_vec(), flow.len());
    for (done, number) in order.iter().enumerate() {
        let below = order[..done].iter().filter(|dropped| *dropped < number).count();
        let mut answer = [0; DROP_ROOM];
        let code = ffi::drop_deleghe(&mut lent[..length], &[number - below as u64], &mut answer);
        if code != 0 || answer[0] as usize >= length {
            return Err(format!("one by one, {order:?}: call {} answers {code} {answer:?}", done + 1));
        }
        length = answer[0] as usize;
    }
    match lent == together.flow && length as u64 == together.answer[0] {
        true => Ok(()),
        false => Err(format!("one by one, {order:?}: not the same flow")),
    }
}

/// The whole lent flow, with the spaces behind what is left, is refused for the first
/// record of these.
fn again(left: &Left, length: usize, numbers: &[u64]) -> Held {
    let (mut flow, mut answer) = (left.flow.clone(), [0; DROP_ROOM]);
    let code = ffi::drop_deleghe(&mut flow, numbers, &mut answer);
    let told = [code, answer[0], answer[1]];
    let says = [4, (length / RECORD + 1) as u64, 2];
    match told == says && flow == left.flow {
        true => Ok(()),
        false => Err(format!("lent whole again: {told:?} is told, the generator says {says:?}")),
    }
}
