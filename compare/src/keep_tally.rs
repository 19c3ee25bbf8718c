//! How often what came up in series that keep the sums of a flow.

use crate::calls::{NO_ROOM, SUMS_ROOM, WRONG_RECORD};
use crate::columns::MOST_AMOUNT;
use crate::keep_calls::{Ask, COLUMNS};
use crate::keep_flows::{Next, PLANS};
use crate::keep_meddling::{MEDDLINGS, STARTS};
use crate::keep_records::SORTS;
use crate::list_call::Left;
use crate::sorts;

/// The answers in the order of the tally, the last for too little room.
#[rustfmt::skip]
pub const ANSWERS: [u64; 29] = [
    0, 1, 2, 3, 4, 5, 6, 7, 8, 9, 10, 11, 12, 13, 14, 15, 16, 17, 18, 19, 20, 21, 22, 23, 26, 27, 28, WRONG_RECORD, NO_ROOM,
];

/// Whether a call may be answered so.
fn is_answer(call: usize, code: u64) -> bool {
    match (call, code) {
        (_, 0..=9 | 14 | 16 | 17 | 26 | NO_ROOM) => true,
        (0, 10..=20) => true,
        (1, 10..=23 | WRONG_RECORD) => true,
        (2, 23 | 27 | WRONG_RECORD) => true,
        (3, 10..=21 | 28 | WRONG_RECORD) => true,
        _ => false,
    }
}

/// What a call that was answered 29 would have been answered with the right record.
#[rustfmt::skip]
const BEHIND: [((usize, u64, bool), &str); 15] = [
    ((1, 0, true), "correct, other amounts"), ((1, 0, false), "correct, the same amounts"),
    ((1, 21, false), "correct 21"), ((1, 22, false), "correct 22"), ((1, 9, false), "correct 9"),
    ((1, 14, false), "correct 14"), ((1, 23, false), "correct 23"),
    ((2, 0, true), "rebalance, fields listed"), ((2, 0, false), "rebalance, none listed"),
    ((2, 23, false), "rebalance 23"), ((2, 27, false), "rebalance 27"),
    ((3, 0, true), "drop, some dropped"), ((3, 0, false), "drop, an empty list"),
    ((3, 21, false), "drop 21"), ((3, 28, false), "drop 28"),
];

/// The ten sums.
#[rustfmt::skip]
const SUMS: [((), &str); SUMS_ROOM] = [
    ((), "Erario debit"), ((), "Erario credit"), ((), "INPS debit"), ((), "INPS credit"), ((), "Regioni debit"),
    ((), "Regioni credit"), ((), "IMU debit"), ((), "IMU credit"), ((), "section 17 debit"), ((), "section 17 credit"),
];

#[derive(Default)]
pub struct Tally {
    answers: [[u64; ANSWERS.len()]; 4],
    plans: [u64; PLANS.len()],
    starts: [u64; STARTS.len()],
    meddlings: [u64; MEDDLINGS.len()],
    /// Records of calls that got so far: right ones, and those answered 29.
    right: [u64; SORTS.len()],
    wrong: [u64; SORTS.len()],
    /// Records answered 29 of which nothing but this sum was wrong, by one.
    off_by_one: [u64; SUMS_ROOM],
    behind: [u64; BEHIND.len()],
    /// Sums that a correction and a dropping changed.
    changed: [[u64; SUMS_ROOM]; 2],
    /// Wrong records of flows that the judgement refuses, by call.
    before: [u64; 4],
    /// Right records of calls refused otherwise, by call.
    refused: [u64; 4],
    /// Sums of more than fifteen digits in a record that was handed back, and records
    /// answered 29 for a cent in a sum that a floating number can't tell.
    large: u64,
    large_by_cent: u64,
    /// Calls that were done on what the one before left, in one series.
    series: [u64; 5],
    /// Known by the plan: sums before a call, and flow and record after it.
    pub sums_known: u64,
    pub flows_known: u64,
}

impl Tally {
    pub fn answer(&mut self, ask: &Ask, code: u64) {
        let way = ANSWERS.iter().position(|&answer| answer == code && is_answer(ask.index(), code));
        self.answers[ask.index()][way.unwrap_or_else(|| panic!("{code} answers no {}", COLUMNS[ask.index()]))] += 1;
    }

    /// Counts a series from a flow of this plan and this start, of so many calls done.
    pub fn series(&mut self, plan: usize, start: usize, done: usize) {
        self.plans[plan] += 1;
        self.starts[start] += 1;
        self.series[[0, 1, 3, 6].iter().take_while(|&&end| done > end).count()] += 1;
    }

    /// Counts a call whose answer was counted.
    pub fn count(&mut self, next: &Next, left: &Left) {
        self.meddlings[next.meddled] += 1;
        let call = next.ask.index();
        let (right, account) = (next.account.before, &next.account);
        if call == 0 {
            return;
        }
        if account.own {
            self.before[call] += u64::from(next.record != right);
            return;
        }
        match left.code {
            WRONG_RECORD => {
                self.wrong[next.sort] += 1;
                let would = account.plain[0];
                let counts = would == 0 && counts(&next.ask, &next.flow, &account.after, &account.list);
                let way = BEHIND.iter().position(|&(way, _)| way == (call, would, counts));
                self.behind[way.unwrap_or_else(|| panic!("{would} behind 29 of {}", COLUMNS[call]))] += 1;
                self.count_off_by_one(&next.record, &right);
            }
            0 => {
                self.right[next.sort] += 1;
                let beyond = account.sums.iter().filter(|&&sum| sum > MOST_AMOUNT);
                self.large += beyond.count() as u64;
                if let Some(changed) = [1, 3].iter().position(|&of| of == call) {
                    for at in (0..SUMS_ROOM).filter(|&at| account.sums[at] != right[at]) {
                        self.changed[changed][at] += 1;
                    }
                }
            }
            _ => {
                self.right[next.sort] += 1;
                self.refused[call] += 1;
            }
        }
    }

    fn count_off_by_one(&mut self, record: &[u64; SUMS_ROOM], right: &[u64; SUMS_ROOM]) {
        let mut others = (0..SUMS_ROOM).filter(|&at| record[at] != right[at]);
        if let (Some(at), None) = (others.next(), others.next()) {
            let by_one = record[at] == right[at].wrapping_add(1) || right[at] == record[at].wrapping_add(1);
            self.off_by_one[at] += u64::from(by_one);
            self.large_by_cent += u64::from(by_one && record[at] as f64 == right[at] as f64);
        }
    }

    /// What comes up least: an answer of each call, a plan, a start, what was done between
    /// calls, a wrong record, a sum off by one, an answer behind 29, a sum that changed.
    pub fn rarest(&self) -> Vec<Option<(u64, String)>> {
        let answers = |call: usize| {
            let all = ANSWERS.iter().zip(self.answers[call]).filter(move |(&code, _)| is_answer(call, code));
            all.map(|(code, times)| (times, format!("kept, {} {code}", COLUMNS[call]))).min()
        };
        let mut all: Vec<_> = (0..4).map(answers).collect();
        all.extend([
            sorts::rarest(&self.plans, &PLANS, "kept, flow:"),
            sorts::rarest(&self.starts, &STARTS, "kept, flow:"),
            sorts::rarest(&self.meddlings, &MEDDLINGS, "kept, before a call:"),
            sorts::rarest(&self.wrong[2..], &SORTS[2..], "kept, record:"),
            sorts::rarest(&self.off_by_one, &SUMS, "kept, off by one:"),
            Some((self.large_by_cent, "kept, a cent of more than 53 bits".to_string())),
            sorts::rarest(&self.behind, &BEHIND, "kept, behind 29:"),
            // Section 17 has no credit.
            sorts::rarest(&self.changed[0][..9], &SUMS[..9], "kept, corrected:"),
            sorts::rarest(&self.changed[1][..9], &SUMS[..9], "kept, dropped:"),
        ]);
        all
    }

    pub fn print_answers(&self) {
        print_answers(&self.answers);
    }

    pub fn print(&self) {
        self.print_answers();
        sorts::print("flow by its plan", &self.plans, &PLANS, "series");
        sorts::print("flow at the start", &self.starts, &STARTS, "series");
        sorts::print("before a call", &self.meddlings, &MEDDLINGS, "calls");
        sorts::print("record, answered 29", &self.wrong, &SORTS, "calls");
        sorts::print("nothing but this sum off by one", &self.off_by_one, &SUMS, "calls");
        sorts::print("with the right record, for 29", &self.behind, &BEHIND, "calls");
        println!("{:<34} {:>10} {:>10}", "sum that changed", "correct", "drop");
        for (at, (_, name)) in SUMS.iter().enumerate().take(9) {
            println!("{name:<34} {:>10} {:>10}", self.changed[0][at], self.changed[1][at]);
        }
        let names = ["none", "1", "2-3", "4-6", "more"];
        let parts: Vec<String> =
            names.iter().zip(self.series).map(|(name, count)| format!("{name}: {count}")).collect();
        println!("series by calls done on what the one before left: {}", parts.join(", "));
        let right: u64 = self.right.iter().sum();
        println!("right records: {right}, {} of them handed back, {} made anew", self.right[0], self.right[1]);
        let of = |counts: &[u64; 4]| {
            format!("{} corrections, {} rebalancings, {} droppings", counts[1], counts[2], counts[3])
        };
        println!("wrong records of flows that the judgement refuses: {}", of(&self.before));
        println!("right records with a refusal behind 29: {}", of(&self.refused));
        let (large, by_cent) = (self.large, self.large_by_cent);
        println!(
            "sums handed back with more than fifteen digits: {large}, 29 for a cent of more than 53 bits: {by_cent}"
        );
        println!(
            "known by the plan: {} sums before a call, {} flows and records after one",
            self.sums_known, self.flows_known
        );
    }
}

/// Prints a row for each answer, with a column for each call.
pub fn print_answers(answers: &[[u64; ANSWERS.len()]; 4]) {
    println!("{:<10} {:>10} {:>10} {:>10} {:>10}", "answer", COLUMNS[0], COLUMNS[1], COLUMNS[2], COLUMNS[3]);
    for (way, code) in ANSWERS.iter().enumerate() {
        let name = match *code {
            0 => "0 done".to_string(),
            NO_ROOM => "100 room".to_string(),
            code => code.to_string(),
        };
        let counts = answers.map(|counts| match counts[way] {
            0 => format!("{:>10}", "-"),
            count => format!("{count:>10}"),
        });
        println!("{name:<10} {}", counts.join(" "));
    }
}

/// Whether a call that is done does something.
fn counts(ask: &Ask, before: &[u8], after: &[u8], list: &[u64]) -> bool {
    match ask {
        Ask::Keep => false,
        Ask::Correct(_) => before != after,
        Ask::Rebalance(_) => !list.is_empty(),
        Ask::Drop(numbers) => !numbers.is_empty(),
    }
}
