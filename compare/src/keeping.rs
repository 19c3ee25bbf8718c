//! Lets the library and the reference make the same call with the same record, and
//! compares everything that either leaves behind. What both leave is held to what the
//! generator says, to the library's call without a record, and to the sums that a
//! judgement reports.

use crate::calls::*;
use crate::drop_lists;
use crate::ffi;
use crate::keep_calls::Ask;
use crate::keep_tally::Tally;
use crate::kept::Account;
use crate::lent::canary;
use crate::list_call::{self, Asked, Compared, Left, ListCall, Says, Sides, MORE};
use crate::rival;
use crate::rng::Rng;

/// The five numbers of a correction, which are its list.
fn five(list: &[u64]) -> [u64; 5] {
    let mut numbers = [0; 5];
    numbers.copy_from_slice(list);
    numbers
}

fn tell_left(before: &Left, left: &Left) -> String {
    let changed = (0..before.flow.len()).filter(|&at| before.flow[at] != left.flow[at]).count();
    format!("  changed {changed} bytes of the flow\n")
}

/// The four calls, in the order of a tally.
static CALLS: [ListCall; 4] = [
    ListCall {
        what: "a record that is made",
        name: "f24_kept",
        library: |lent| ffi::kept(lent.flow, lent.kept, lent.answer),
        reference: |lent| rival::kept(lent.flow, lent.kept, lent.answer),
        plain: None,
        most_list: 0,
        record: SUMS_ROOM,
        needs: KEPT_ROOM,
        list_file: None,
        tell_list: |_| String::new(),
        tell_left,
    },
    ListCall {
        what: "a correction with a record",
        name: "f24_correct_kept",
        library: |lent| ffi::correct_kept(lent.flow, five(lent.list), lent.kept, lent.answer),
        reference: |lent| rival::correct_kept(lent.flow, five(lent.list), lent.kept, lent.answer),
        plain: Some(|lent| ffi::call(&Call::correction(five(lent.list)), lent.flow, lent.answer)),
        most_list: 5,
        record: SUMS_ROOM,
        needs: CORRECT_ROOM,
        list_file: Some("numbers"),
        tell_list: |list| format!(", delega, subtype, place, debit, credit: {list:?}"),
        tell_left,
    },
    ListCall {
        what: "a rebalancing with a record",
        name: "f24_rebalance_kept",
        library: |lent| ffi::rebalance_kept(lent.flow, lent.list, lent.kept, lent.answer),
        reference: |lent| rival::rebalance_kept(lent.flow, lent.list, lent.kept, lent.answer),
        plain: Some(|lent| ffi::rebalance(lent.flow, lent.list, lent.answer)),
        most_list: 5000,
        record: SUMS_ROOM,
        needs: REBALANCE_ROOM,
        list_file: None,
        tell_list: |_| String::new(),
        tell_left,
    },
    ListCall {
        what: "a dropping with a record",
        name: "f24_drop_kept",
        library: |lent| ffi::drop_kept(lent.flow, lent.list, lent.kept, lent.answer),
        reference: |lent| rival::drop_kept(lent.flow, lent.list, lent.kept, lent.answer),
        plain: Some(|lent| ffi::drop_deleghe(lent.flow, lent.list, lent.answer)),
        most_list: drop_lists::LONGEST,
        record: SUMS_ROOM,
        needs: DROP_ROOM,
        list_file: Some("numbers"),
        tell_list: |list| format!(": {:?}", &list[..list.len().min(40)]),
        tell_left,
    },
];

pub struct Keepings {
    sides: [Sides; 4],
    pub tally: Tally,
}

/// A call with its flow and its record, and what the generator says of it.
pub struct Case<'a> {
    pub flow: &'a [u8],
    pub ask: &'a Ask,
    pub record: &'a Record,
    pub account: &'a Account,
}

impl Keepings {
    pub fn new() -> Self {
        let [keep, correct, rebalance, drop] = &CALLS;
        let sides = [keep, correct, rebalance, drop].map(Sides::new);
        Keepings { sides, tally: Tally::default() }
    }

    /// Compares a call, now and then with too little room in the record or for the
    /// answer first.
    pub fn compare(&mut self, rng: &mut Rng, case: &Case) -> Compared<Left> {
        if rng.one_in(16) {
            let (short, long) = (rng.place(SUMS_ROOM), SUMS_ROOM + rng.place(MORE + 1));
            let (numbers, room) = match rng.below(4) {
                0 => (short, rng.place(2)),
                1 => (long, rng.place(2)),
                _ => (short, 2 + rng.place(MORE + 1)),
            };
            let left = self.compare_with(rng, case, numbers, room)?;
            self.tally.answer(case.ask, left.code);
        }
        let more = |rng: &mut Rng| if rng.one_in(2) { 0 } else { rng.place(MORE + 1) };
        let (numbers, room) = (SUMS_ROOM + more(rng), KEPT_ROOM + more(rng));
        let left = self.compare_with(rng, case, numbers, room)?;
        self.tally.answer(case.ask, left.code);
        Ok(left)
    }

    /// Compares a call with a record of so many numbers, the first of which are those
    /// given, and an answer of so many, and what both sides leave with the account. No
    /// tally counts these.
    pub fn compare_with(&mut self, rng: &mut Rng, case: &Case, numbers: usize, room: usize) -> Compared<Left> {
        let Case { flow, ask, record, account } = *case;
        let mut kept = record.to_vec();
        kept.extend(canary(rng, MORE));
        kept.truncate(numbers);
        let list = ask.list(rng);
        let says = Says {
            told: account.told(ask, record),
            number: account.number,
            list: &account.list,
            kept: &account.sums,
            flow: &account.after,
        };
        let left = self.sides[ask.index()].compare(rng, Asked { flow, list, kept, room }, &says)?;
        if left.code == 0 {
            let left_over = &left.flow[..account.length];
            if let Some(why) = list_call::refused(left_over).or_else(|| unlike_judged(left_over, &left.kept)) {
                return Err(self.wrong(case, why, &left));
            }
        }
        Ok(left)
    }

    /// What a call left that is not as it must be.
    pub fn wrong(&self, case: &Case, why: String, left: &Left) -> Box<list_call::Difference> {
        self.sides[case.ask.index()].wrong(why, case.flow, &left.list, case.record, left)
    }
}

/// Why the first ten numbers are not the sums that the library's judgement reports for
/// the flow, or not the record that it makes of it.
fn unlike_judged(flow: &[u8], kept: &[u64]) -> Option<String> {
    let (mut room, mut record) = ([0; MOST_NUMBERS], [0; SUMS_ROOM]);
    ffi::call(&Call::Judge, &mut flow.to_vec(), &mut room);
    ffi::kept(flow, &mut record, &mut [0; KEPT_ROOM]);
    let named = [("f24_judge reports", &room[SUMS..]), ("f24_kept makes", &record[..])];
    let (name, sums) = named.iter().find(|(_, sums)| **sums != kept[..SUMS_ROOM])?;
    Some(format!("afterwards {name} {sums:?}"))
}
