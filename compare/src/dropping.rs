//! Lets the library and the reference drop the same deleghe from the same flow, and
//! compares everything that either leaves behind. What both leave is held to what
//! the generator says of the flow.

use crate::calls::DROP_ROOM;
use crate::drop_flows::{Case, Known};
use crate::drop_lists::LONGEST;
use crate::drop_steps;
use crate::drop_tally::Tally;
use crate::dropped::Account;
use crate::ffi;
use crate::list_call::{Asked, Compared, Left, ListCall, Says, Sides};
use crate::rival;
use crate::rng::Rng;

static DROP: ListCall = ListCall {
    what: "a dropping",
    name: "f24_drop",
    library: |lent| ffi::drop_deleghe(lent.flow, lent.list, lent.answer),
    reference: |lent| rival::drop_deleghe(lent.flow, lent.list, lent.answer),
    plain: None,
    most_list: LONGEST,
    record: 0,
    needs: DROP_ROOM,
    list_file: Some("numbers"),
    tell_list: |list| format!(": {:?}", &list[..list.len().min(40)]),
    tell_left: |before, left| {
        let changed = (0..before.flow.len()).filter(|&at| before.flow[at] != left.flow[at]).count();
        format!("  changed {changed} bytes of the flow\n")
    },
};

pub struct Droppings {
    sides: Sides,
    pub tally: Tally,
}

impl Droppings {
    pub fn new() -> Self {
        Droppings { sides: Sides::new(&DROP), tally: Tally::default() }
    }

    /// Compares a case, now and then with too little room for the answer first.
    /// What is left is judged and held to the flow before, and so is what is left
    /// when the same deleghe are dropped one by one.
    pub fn compare(&mut self, rng: &mut Rng, case: &Case) -> Compared<u64> {
        let Case { flow, numbers, known, .. } = case;
        let account = Account::of(flow, numbers);
        if rng.one_in(16) {
            let room = rng.place(DROP_ROOM);
            let left = self.compare_with(rng, flow, numbers, room, &account)?;
            self.tally.answer(left.code);
        }
        let room = DROP_ROOM + if rng.one_in(2) { 0 } else { rng.place(5) };
        let left = self.compare_with(rng, flow, numbers, room, &account)?;
        if let Some(why) = known.as_ref().and_then(|known| unlike(known, &account)) {
            return Err(self.sides.wrong(why, flow, &left.list, &[], &left));
        }
        self.tally.count(case, &left);
        if left.code == 0 {
            drop_steps::check(rng, flow, numbers, &left, &mut self.tally)
                .map_err(|why| self.sides.wrong(why, flow, &left.list, &[], &left))?;
        }
        Ok(left.code)
    }

    /// Compares a call with an answer of so many numbers, and what both sides leave
    /// with the account. No tally counts these.
    pub fn compare_with(
        &mut self,
        rng: &mut Rng,
        flow: &[u8],
        numbers: &[u64],
        room: usize,
        account: &Account,
    ) -> Compared<Left> {
        let Account { says, after, length } = account;
        let says = Says { told: *says, number: Some(*length), list: &[], kept: &[], flow: after };
        self.sides.compare(rng, Asked { flow, list: numbers.to_vec(), kept: Vec::new(), room }, &says)
    }
}

/// In what the account is not as the plan has it.
fn unlike(known: &Known, account: &Account) -> Option<String> {
    match known {
        Known::Refused(told) => Some(format!("by the plan it is {told:?}")).filter(|_| account.says != *told),
        Known::Flow(_) if account.says[0] != 0 => Some("by the plan it is done".to_string()),
        Known::Flow(kept) => {
            let (left, freed) = account.after.split_at(account.length);
            let same = left == &kept[..] && freed.iter().all(|&byte| byte == b' ');
            Some("not the flow of the kept deleghe".to_string()).filter(|_| !same)
        }
    }
}
