//! What the generator says of the lines of an accepted flow and of one of its
//! deleghe: how many there are, of which sections, and how many sections these
//! are. It reads the records with type 40 and nothing else, and the other way
//! round than the reference, which counts lines as they come, makes the set
//! from them and takes its size from the balance records: here the lines are
//! those that are no balance records, the set is made from the balance records,
//! and its size is the number of subtypes that lines have. Where the library and
//! the reference share a mistake, neither differs from the other, but both
//! differ from this.

use crate::calls::Call;
use crate::columns::*;
use crate::sorts;
use crate::sound::get;

/// The subtypes of the records with type 40, of the whole flow or of one delega.
fn subtypes(flow: &[u8], delega: Option<u64>) -> Vec<u64> {
    let sections = flow.chunks_exact(RECORD).filter(|record| record[TYPE - 1..=TYPE] == *b"40");
    let asked = sections.filter(|record| delega.map_or(true, |number| get(record, DELEGA, COUNT) == number));
    asked.map(|record| get(record, SUBTYPE, 2)).collect()
}

fn is_balance(subtype: u64) -> bool {
    subtype % 2 == 0
}

/// Line count, set of sections and its size.
fn account(flow: &[u8], delega: Option<u64>) -> [u64; 3] {
    let (balances, mut lines): (Vec<u64>, Vec<u64>) =
        subtypes(flow, delega).into_iter().partition(|&subtype| is_balance(subtype));
    let count = lines.len() as u64;
    let place = |balance: &u64| SECTIONS.iter().take_while(|section| section.line + 1 != *balance).count();
    let set = balances.iter().map(place).fold(0, |set, place| set | 1 << place);
    lines.dedup();
    [count, set, lines.len() as u64]
}

/// Why the answer to a call can't be right.
pub fn unlike(call: &Call, flow: &[u8], code: u64, answer: &[u64]) -> Option<String> {
    if code != 0 {
        return None;
    }
    match *call {
        Call::Judge => {
            let [lines, ..] = account(flow, None);
            Some(format!("the generator says lines {lines}")).filter(|_| answer[3] != lines)
        }
        Call::Delega { number } => {
            let says = account(flow, Some(number));
            let [lines, set, size] = says;
            Some(format!("the generator says lines {lines}, set {set}, size {size}")).filter(|_| answer[1..4] != says)
        }
        Call::Find { .. } | Call::Correct { .. } => None,
    }
}

/// The sets that a delega can have: their numbers are 1 to 16.
const SETS: [(u64, &str); 16] = [
    (1, "1 Erario"),
    (2, "2 INPS"),
    (3, "3 Erario, INPS"),
    (4, "4 Regioni"),
    (5, "5 Erario, Regioni"),
    (6, "6 INPS, Regioni"),
    (7, "7 Erario, INPS, Regioni"),
    (8, "8 IMU"),
    (9, "9 Erario, IMU"),
    (10, "10 INPS, IMU"),
    (11, "11 Erario, INPS, IMU"),
    (12, "12 Regioni, IMU"),
    (13, "13 Erario, Regioni, IMU"),
    (14, "14 INPS, Regioni, IMU"),
    (15, "15 the four"),
    (16, "16 identifying elements"),
];

/// Which sets were told, and how many lines.
#[derive(Default)]
pub struct Sets {
    counts: [u64; SETS.len()],
    /// Deleghe with one line for each section, with more, and with as many as
    /// their sections may have.
    lines: [u64; 3],
}

impl Sets {
    /// Counts the answer for a delega that is there.
    pub fn count(&mut self, answer: &[u64]) {
        let (lines, set, size) = (answer[1], answer[2], answer[3]);
        self.counts[set as usize - 1] += 1;
        let used = SECTIONS.iter().enumerate().filter(|(place, _)| set >> place & 1 == 1);
        let most: usize = used.map(|(_, section)| section.most).sum();
        self.lines[match lines {
            lines if lines == size => 0,
            lines if lines < most as u64 => 1,
            _ => 2,
        }] += 1;
    }

    pub fn rarest(&self, call: &str) -> Option<(u64, String)> {
        sorts::rarest(&self.counts, &SETS, call)
    }

    pub fn print(&self, call: &str) {
        let [one, more, most] = self.lines;
        println!("deleghe told by lines: one in each section: {one}, more: {more}, the most: {most}");
        sorts::print("set of sections", &self.counts, &SETS, call);
    }
}
