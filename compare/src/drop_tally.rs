//! How often what came up in droppings.

use crate::calls::NO_ROOM;
use crate::columns::{Kind, Kind::*, COUNT, DELEGA, RECORD, TAIL_DELEGHE};
use crate::drop_flows::{Case, Known, FAULTS, PLANS};
use crate::drop_lists::{ORDERS, SORTS};
use crate::list_call::Left;
use crate::sorts;
use crate::sound::get;

/// The answers in the order of the tally.
#[rustfmt::skip]
pub const ANSWERS: [(u64, &str); 25] = [
    (0, "0 dropped"), (1, "1"), (2, "2"), (3, "3"), (4, "4"), (5, "5"), (6, "6"), (7, "7"), (8, "8"), (9, "9"),
    (10, "10"), (11, "11"), (12, "12"), (13, "13"), (14, "14"), (15, "15"), (16, "16"), (17, "17"), (18, "18"),
    (19, "19"), (20, "20"), (21, "21"), (26, "26"), (28, "28"), (NO_ROOM, "100 room"),
];

/// A delega of a flow of which some were dropped, and a section of one.
#[rustfmt::skip]
const DELEGHE: [((), &str); 12] = [
    ((), "kept, no 50-02"), ((), "kept, with 50-02"), ((), "kept, with 50-03"),
    ((), "dropped, no 50-02"), ((), "dropped, with 50-02"), ((), "dropped, with 50-03"),
    ((), "kept, a section 17"), ((), "kept, another section"),
    ((), "dropped, a section 17"), ((), "dropped, another section"),
    ((), "dropped, the first"), ((), "dropped, the last"),
];

#[derive(Default)]
pub struct Tally {
    answers: [u64; ANSWERS.len()],
    plans: [u64; PLANS.len()],
    faults: [u64; FAULTS.len()],
    lists: [u64; SORTS.len()],
    /// Of lists of two numbers or more.
    orders: [u64; ORDERS.len()],
    deleghe: [u64; DELEGHE.len()],
    /// Flows shortened by the deleghe dropped.
    sizes: [u64; 6],
    /// Lists that would be refused, of flows that are refused.
    behind: u64,
    /// Known by the plan: the flow afterwards, and refusals.
    flows: u64,
    refusals: u64,
    /// Held to the sums of before, gone through one by one, in so many calls, and lent
    /// whole again.
    pub summed: u64,
    pub stepped: u64,
    pub steps: u64,
    pub lent_again: u64,
}

impl Tally {
    pub fn answer(&mut self, code: u64) {
        let way = ANSWERS.iter().position(|&(answer, _)| answer == code);
        self.answers[way.unwrap_or_else(|| panic!("{code} answers no dropping"))] += 1;
    }

    pub fn count(&mut self, case: &Case, left: &Left) {
        self.answer(left.code);
        if let Some(sorts) = case.sorts {
            self.plans[sorts.plan] += 1;
            self.faults[sorts.fault] += 1;
            if matches!(left.code, 0 | 21 | 28) {
                self.lists[sorts.list] += 1;
                self.orders[sorts.order] += u64::from(case.numbers.len() > 1);
            } else {
                self.behind += u64::from(is_wrong(&case.numbers));
            }
        }
        match case.known {
            Some(Known::Flow(_)) => self.flows += 1,
            Some(Known::Refused(_)) => self.refusals += 1,
            None => (),
        }
        if left.code == 0 {
            let dropped = case.numbers.len();
            self.sizes[[0, 1, 3, 16, 64].iter().take_while(|&&end| dropped > end).count()] += 1;
            self.count_deleghe(&case.flow, &case.numbers);
        }
    }

    /// Counts the deleghe of a flow of which these were dropped.
    fn count_deleghe(&mut self, flow: &[u8], dropped: &[u64]) {
        if dropped.is_empty() {
            return;
        }
        let last = get(&flow[flow.len() - RECORD..], TAIL_DELEGHE, COUNT);
        self.deleghe[10] += u64::from(dropped.contains(&1));
        self.deleghe[11] += u64::from(dropped.contains(&last));
        for record in flow.chunks_exact(RECORD) {
            let is_dropped = dropped.contains(&get(record, DELEGA, COUNT));
            let (receipts, sections) = if is_dropped { (3, 8) } else { (0, 6) };
            match Kind::of(record) {
                Some(Payment) => self.deleghe[receipts] += 1,
                Some(Receipt) => {
                    self.deleghe[receipts] -= 1;
                    self.deleghe[receipts + 1] += 1;
                }
                Some(Addressee) => {
                    self.deleghe[receipts + 1] -= 1;
                    self.deleghe[receipts + 2] += 1;
                }
                Some(Balance(section)) => self.deleghe[sections + usize::from(section < 4)] += 1,
                _ => (),
            }
        }
    }

    /// What comes up least: an answer, a plan, a fault, a list, an order, a delega.
    pub fn rarest(&self) -> [Option<(u64, String)>; 6] {
        [
            sorts::rarest(&self.answers, &ANSWERS, "drop"),
            sorts::rarest(&self.plans, &PLANS, "drop, flow:"),
            sorts::rarest(&self.faults, &FAULTS, "drop, flow:"),
            sorts::rarest(&self.lists, &SORTS, "drop, list:"),
            sorts::rarest(&self.orders, &ORDERS, "drop, order:"),
            sorts::rarest(&self.deleghe, &DELEGHE, "drop, delega"),
        ]
    }

    pub fn print(&self) {
        sorts::print("answer", &self.answers, &ANSWERS, "drop");
        sorts::print("flow by its plan", &self.plans, &PLANS, "drop");
        sorts::print("flow by its faults", &self.faults, &FAULTS, "drop");
        sorts::print("list, of an accepted flow", &self.lists, &SORTS, "drop");
        sorts::print("its order, of two or more", &self.orders, &ORDERS, "drop");
        sorts::print("delega, where some are dropped", &self.deleghe, &DELEGHE, "drop");
        let names = ["none", "1", "2-3", "4-16", "17-64", "more"];
        let parts: Vec<String> = names.iter().zip(self.sizes).map(|(name, count)| format!("{name}: {count}")).collect();
        println!("flows by deleghe dropped: {}", parts.join(", "));
        let Tally { behind, flows, refusals, summed, stepped, steps, lent_again, .. } = self;
        println!("lists with 0 or a number twice, of flows that are refused: {behind}");
        println!("known by the plan: {flows} flows afterwards, {refusals} refusals");
        println!("held to the sums of before: {summed}, dropped one by one: {stepped} in {steps} calls");
        println!("lent whole again with the spaces: {lent_again}");
    }
}

/// Whether a list can't be right for any flow.
fn is_wrong(numbers: &[u64]) -> bool {
    let mut rising = numbers.to_vec();
    rising.sort_unstable();
    rising.first() == Some(&0) || rising.windows(2).any(|pair| pair[0] == pair[1])
}
