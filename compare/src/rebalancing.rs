//! Lets the library and the reference rebalance the same flow with lists of the
//! same numbers, and compares everything that either leaves behind. What both
//! leave is held to what the generator says of the flow.

use crate::calls::{CHANGED_MOST, NO_ROOM, REBALANCE_ROOM};
use crate::columns::{Kind, MOST_AMOUNT, RECORD};
use crate::ffi;
use crate::lent::canary;
use crate::list_call::{self, Asked, Compared, Left, ListCall, Says, Sides};
use crate::mended::Account;
use crate::rebalance_damage::{Case, Known, SORTS};
use crate::report::place;
use crate::rival;
use crate::rng::Rng;
use crate::sorts;

static REBALANCE: ListCall = ListCall {
    what: "a rebalancing",
    name: "f24_rebalance",
    library: |lent| ffi::rebalance(lent.flow, lent.list, lent.answer),
    reference: |lent| rival::rebalance(lent.flow, lent.list, lent.answer),
    plain: None,
    // More numbers than a list needs.
    most_list: 5000,
    record: 0,
    needs: REBALANCE_ROOM,
    list_file: None,
    tell_list: |_| String::new(),
    tell_left,
};

pub struct Rebalancings {
    sides: Sides,
    pub tally: Tally,
}

impl Rebalancings {
    pub fn new() -> Self {
        Rebalancings { sides: Sides::new(&REBALANCE), tally: Tally::default() }
    }

    /// Compares a case, now and then with too little room for the answer first.
    /// What is rebalanced is accepted, and rebalanced once more.
    pub fn compare(&mut self, rng: &mut Rng, case: &Case) -> Compared<u64> {
        let Case { made, list, account, sort } = case;
        if rng.one_in(16) {
            let numbers = rng.place(REBALANCE_ROOM);
            let left = self.compare_with(rng, &made.flow, *list, numbers, account)?;
            self.tally.answer(left.code);
        }
        let numbers = REBALANCE_ROOM + if rng.one_in(2) { 0 } else { rng.place(5) };
        let left = self.compare_with(rng, &made.flow, *list, numbers, account)?;
        if let Some(why) = made.known.as_ref().and_then(|known| unlike(known, account)) {
            return Err(self.sides.wrong(why, &made.flow, &[], &[], &left));
        }
        self.tally.count(case, &left);
        sort.iter().for_each(|&sort| self.tally.sorts[sort] += 1);
        if left.code == 0 {
            if let Some(why) = list_call::refused(&left.flow) {
                return Err(self.sides.wrong(why, &made.flow, &[], &[], &left));
            }
            self.compare_with(rng, &left.flow, 0, REBALANCE_ROOM, &Account::settled(&left.flow))?;
            self.tally.seconds += 1;
        }
        Ok(left.code)
    }

    /// Compares a call with a list of so many numbers and an answer of so many,
    /// and what both sides leave with the account. No tally counts these.
    pub fn compare_with(
        &mut self,
        rng: &mut Rng,
        flow: &[u8],
        list: usize,
        numbers: usize,
        account: &Account,
    ) -> Compared<Left> {
        let changed = account.changed.concat();
        let told = match account.says {
            [0, ..] if account.changed.len() > list / 2 => [27, 0, 0],
            told => told,
        };
        let number = Some(account.changed.len());
        let says = Says { told, number, list: &changed, kept: &[], flow: &account.after };
        let list = canary(rng, list);
        self.sides.compare(rng, Asked { flow, list, kept: Vec::new(), room: numbers }, &says)
    }
}

/// In what the account is not as the plan has it.
fn unlike(known: &Known, account: &Account) -> Option<String> {
    match known {
        Known::Refused(told) => Some(format!("by the plan it is {told:?}")).filter(|_| account.says != *told),
        Known::Flow(_) if account.says[0] != 0 => Some("by the plan it is rebalanced".to_string()),
        Known::Flow(flow) => Some("not the flow of the plan".to_string()).filter(|_| *flow != account.after),
    }
}

/// The answers in the order of the tally.
#[rustfmt::skip]
pub const ANSWERS: [(u64, &str); 17] = [
    (0, "0 rebalanced"), (1, "1"), (2, "2"), (3, "3"), (4, "4"), (5, "5"), (6, "6"), (7, "7"), (8, "8"), (9, "9"),
    (14, "14"), (16, "16"), (17, "17"), (23, "23"), (26, "26"), (27, "27"), (NO_ROOM, "100 room"),
];

/// Lists by their length, where the flow is rebalanced or the list too short.
#[rustfmt::skip]
const LISTS: [(usize, &str); 10] = [
    (0, "none, nothing changes"), (1, "none, something changes"), (2, "shorter"), (3, "a pair too short"),
    (4, "a number too short"), (5, "as long as needed"), (6, "a number more"), (7, "a pair more"), (8, "longer"),
    (9, "4,368 numbers"),
];

/// What a listed field holds.
#[rustfmt::skip]
const FIELDS: [(usize, &str); 8] = [
    (0, "total debit"), (1, "total credit"), (2, "sign"), (3, "balance"), (4, "final balance"), (5, "tail's deleghe"),
    (6, "tail's sum"), (7, "tail's records"),
];

/// What a listed field held before.
#[rustfmt::skip]
const HELD: [(usize, &str); 5] = [
    (0, "another number"), (1, "nothing but blanks"), (2, "other non-digits"), (3, "the other sign"), (4, "no sign"),
];

/// How often what came up.
#[derive(Default)]
pub struct Tally {
    answers: [u64; ANSWERS.len()],
    sorts: [u64; SORTS.len()],
    lists: [u64; LISTS.len()],
    fields: [u64; FIELDS.len()],
    held: [u64; HELD.len()],
    /// Flows rebalanced by the fields listed.
    sizes: [u64; 8],
    /// 23 with a list that would be too short besides, other refusals so too, and
    /// flows refused though some stored field is wrong before the record told.
    short_23: u64,
    short_others: u64,
    behind: u64,
    /// 16 for the tail's name.
    tails: u64,
    /// Known by the plan: the flow afterwards, and refusals.
    flows: u64,
    refusals: u64,
    /// Second calls.
    seconds: u64,
}

impl Tally {
    fn answer(&mut self, code: u64) {
        let way = ANSWERS.iter().position(|&(answer, _)| answer == code);
        self.answers[way.unwrap_or_else(|| panic!("{code} answers no rebalancing"))] += 1;
    }

    fn count(&mut self, case: &Case, left: &Left) {
        self.answer(left.code);
        let (list, changed) = (left.list.len(), &case.account.changed);
        match case.made.known {
            Some(Known::Flow(_)) => self.flows += 1,
            Some(Known::Refused(_)) => self.refusals += 1,
            None => (),
        }
        let short = list / 2 < changed.len();
        match left.code {
            0 | 27 => self.lists[list_sort(list, changed.len())] += 1,
            23 => self.short_23 += u64::from(short),
            _ => {
                self.short_others += u64::from(short);
                self.tails += u64::from(left.code == 16 && left.answer[0] > 1);
                self.behind += u64::from(changed.first().map_or(false, |field| field[0] < left.answer[0]));
            }
        }
        if left.code == 0 {
            self.sizes[size(changed.len())] += 1;
            for &[record, start] in changed {
                self.field(&case.made.flow[(record as usize - 1) * RECORD..record as usize * RECORD], start as usize);
            }
        }
    }

    /// Counts a field that is listed.
    fn field(&mut self, record: &[u8], start: usize) {
        let kind = Kind::of(record).expect("a flow that is rebalanced has records of a kind");
        let stored = kind.stored();
        let nth = stored.iter().position(|field| field.0 == start).expect("a stored field");
        let name = match kind {
            Kind::Tail => 5 + nth,
            Kind::Payment => 4,
            _ => 4 - stored.len() + nth,
        };
        self.fields[name] += 1;
        let field = &record[start - 1..start - 1 + stored[nth].1];
        self.held[match field {
            [b'P' | b'N'] => 3,
            [_] => 4,
            field if field.iter().all(u8::is_ascii_digit) => 0,
            field if field.iter().all(|&byte| byte == b' ') => 1,
            _ => 2,
        }] += 1;
    }

    /// What comes up least: an answer, a sort, a list, a field, what it held.
    pub fn rarest(&self) -> [Option<(u64, String)>; 5] {
        [
            sorts::rarest(&self.answers, &ANSWERS, "rebalance"),
            sorts::rarest(&self.sorts, &SORTS, "rebalance"),
            sorts::rarest(&self.lists, &LISTS, "rebalance, list:"),
            sorts::rarest(&self.fields, &FIELDS, "rebalance, listed:"),
            sorts::rarest(&self.held, &HELD, "rebalance, held:"),
        ]
    }

    pub fn print(&self) {
        sorts::print("answer", &self.answers, &ANSWERS, "rebalance");
        sorts::print("flow", &self.sorts, &SORTS, "rebalance");
        sorts::print("list, where 0 or 27 is answered", &self.lists, &LISTS, "rebalance");
        sorts::print("field listed", &self.fields, &FIELDS, "rebalance");
        sorts::print("what it held", &self.held, &HELD, "rebalance");
        let names = ["none", "1", "2-3", "4-8", "9-32", "33-128", "129-512", "more"];
        let parts: Vec<String> = names.iter().zip(self.sizes).map(|(name, count)| format!("{name}: {count}")).collect();
        println!("flows rebalanced by fields listed: {}", parts.join(", "));
        let Tally { short_23, short_others, behind, tails, flows, refusals, seconds, .. } = self;
        println!("lists too short besides: {short_23} with 23, {short_others} with another refusal");
        println!("refusals at a record behind wrong fields: {behind}, 16 for the tail's name: {tails}");
        println!("known by the plan: {flows} flows afterwards, {refusals} refusals");
        println!("rebalanced once more with a list of no room: {seconds}");
    }
}

/// The place in the order of the tally of a list of so many numbers for so many
/// fields.
fn list_sort(list: usize, fields: usize) -> usize {
    match (list, 2 * fields) {
        (0, 0) => 0,
        (0, _) => 1,
        (CHANGED_MOST, _) => 9,
        (list, exact) if list == exact => 5,
        (list, exact) if list == exact + 1 => 6,
        (list, exact) if list == exact + 2 => 7,
        (list, exact) if list > exact => 8,
        (list, exact) if list + 1 == exact => 4,
        (list, exact) if list + 2 == exact => 3,
        _ => 2,
    }
}

/// Which of the ranges of the tally a number of fields is in.
fn size(fields: usize) -> usize {
    [0, 1, 3, 8, 32, 128, 512].iter().take_while(|&&end| fields > end).count()
}

/// The bytes of the flow that a side changed and the list that it left, as they are
/// told of a difference.
fn tell_left(before: &Left, left: &Left) -> String {
    let changed: Vec<usize> = (0..before.flow.len()).filter(|&at| before.flow[at] != left.flow[at]).collect();
    let changed = match (changed.first(), changed.last()) {
        (Some(&first), Some(&last)) => {
            format!("  changed {} bytes of the flow, from {} to {}", changed.len(), place(first), place(last))
        }
        _ => "  left the flow as it came".to_string(),
    };
    // Numbers that were not written are mostly larger than any place.
    let written = left.list.iter().take_while(|&&number| number <= MOST_AMOUNT).count();
    format!("{changed}\n  list after: {:?}\n", &left.list[..written.min(40)])
}
