//! The calls of a series that keeps the sums of a flow.

use crate::correction;
use crate::drop_lists;
use crate::lent::canary;
use crate::mended;
use crate::rebalance_damage;
use crate::rng::Rng;
use crate::sound::Plan;

/// A call, and what it is asked.
#[derive(Clone, PartialEq)]
pub enum Ask {
    /// `f24_kept`.
    Keep,
    /// Delega, subtype, place, debit and credit.
    Correct([u64; 5]),
    /// With a list of so many numbers.
    Rebalance(usize),
    /// The deleghe with these numbers.
    Drop(Vec<u64>),
}

/// Their columns in a tally.
pub const COLUMNS: [&str; 4] = ["kept", "correct", "rebalance", "drop"];

impl Ask {
    pub fn index(&self) -> usize {
        match self {
            Ask::Keep => 0,
            Ask::Correct(_) => 1,
            Ask::Rebalance(_) => 2,
            Ask::Drop(_) => 3,
        }
    }

    /// How many deleghe it names.
    pub fn named(&self) -> usize {
        match self {
            Ask::Drop(numbers) => numbers.len(),
            _ => 0,
        }
    }

    /// The list that is lent, of a correction its numbers.
    pub fn list(&self, rng: &mut Rng) -> Vec<u64> {
        match self {
            Ask::Keep => Vec::new(),
            Ask::Correct(numbers) => numbers.to_vec(),
            Ask::Rebalance(list) => canary(rng, *list),
            Ask::Drop(numbers) => numbers.clone(),
        }
    }
}

/// A call on a flow of about this plan. One that is not accepted is mostly rebalanced.
pub fn any(rng: &mut Rng, flow: &[u8], plan: &Plan) -> Ask {
    let accepted = fast::judge(flow).is_ok();
    match (rng.below(20), accepted) {
        (0 | 1, _) => Ask::Keep,
        (2..=4, true) | (2..=11, false) => {
            let fields = mended::Account::of(flow).changed.len();
            Ask::Rebalance(rebalance_damage::list(rng, fields))
        }
        (5..=9, true) | (12..=15, false) => {
            let sort = drop_lists::any_sort(rng);
            Ask::Drop(drop_lists::list_of(rng, sort, plan.deleghe.len() as u64).0.numbers)
        }
        _ => Ask::Correct(correction::choose(rng, plan).numbers()),
    }
}
