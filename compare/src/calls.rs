//! The calls that are compared.

use std::fmt;

/// One call of the library; the numbers are its arguments in their order.
#[derive(Clone, Copy, PartialEq, Eq, Debug)]
pub enum Call {
    Judge,
    Delega { number: u64 },
    Find { delega: u64, subtype: u64, place: u64 },
    Correct { delega: u64, subtype: u64, place: u64, debit: u64, credit: u64 },
}

/// The answer to a call with too little room.
pub const NO_ROOM: u64 = 100;

/// The answers of a judgement by portions that are no verdict.
pub const NOT_ENDED: u64 = 101;
pub const FOREIGN: u64 = 102;

/// How many numbers a state has, and the answer of a judgement by portions.
pub const STATE_ROOM: usize = 53;
pub const PORTION_ROOM: usize = 15;

/// How many numbers the answer of a rebalancing needs room for, and how many its
/// list may need at most.
pub const REBALANCE_ROOM: usize = 2;
pub const CHANGED_MOST: usize = 4368;

/// How many numbers the answer of a dropping needs room for.
pub const DROP_ROOM: usize = 2;

/// How many numbers a record of sums is, and how many the answer needs room for where
/// one is made.
pub const SUMS_ROOM: usize = 10;
pub const KEPT_ROOM: usize = 2;

/// How many numbers the answer for records of the F24 EP form needs room for.
pub const EP_ROOM: usize = 2;

/// The refusal of a record that is not the flow's.
pub const WRONG_RECORD: u64 = 29;

/// The ten sums of the sections, debit and credit in turn.
pub type Record = [u64; SUMS_ROOM];

/// Whether an answer is one to the records: lengths, room and bytes that are no
/// sheet come before them.
pub fn is_of_records(code: u64) -> bool {
    !matches!(code, 1 | 2 | 24 | 25 | NO_ROOM)
}

/// How many numbers the answers need room for, as include/f24.h has it.
const JUDGE_ROOM: usize = 14;
const DELEGA_ROOM: usize = 14;
const FIND_ROOM: usize = 2;
pub const CORRECT_ROOM: usize = 2;

/// The most numbers that any answer has.
pub const MOST_NUMBERS: usize = JUDGE_ROOM;

/// What a judgement and a delega had room for in the header's first version,
/// and what is too little for either since.
pub const OLD_ROOMS: [usize; 2] = [13, 11];

/// Where the ten sums begin in the answer to a judgement and in that for a
/// delega: deleghe, records, sum and lines come before them in the one, balance,
/// lines, set and size in the other.
pub const SUMS: usize = 4;

impl Call {
    /// The correction with these numbers.
    pub fn correction([delega, subtype, place, debit, credit]: [u64; 5]) -> Self {
        Call::Correct { delega, subtype, place, debit, credit }
    }

    /// The five numbers of a correction.
    pub fn numbers(&self) -> [u64; 5] {
        match *self {
            Call::Correct { delega, subtype, place, debit, credit } => [delega, subtype, place, debit, credit],
            _ => unreachable!("{self} is no correction"),
        }
    }

    /// The call's column in a tally.
    pub fn index(&self) -> usize {
        match self {
            Call::Judge => 0,
            Call::Delega { .. } => 1,
            Call::Find { .. } => 2,
            Call::Correct { .. } => 3,
        }
    }

    /// How many numbers the answer needs room for.
    pub fn needs(&self) -> usize {
        match self {
            Call::Judge => JUDGE_ROOM,
            Call::Delega { .. } => DELEGA_ROOM,
            Call::Find { .. } => FIND_ROOM,
            Call::Correct { .. } => CORRECT_ROOM,
        }
    }
}

impl fmt::Display for Call {
    fn fmt(&self, f: &mut fmt::Formatter<'_>) -> fmt::Result {
        match *self {
            Call::Judge => write!(f, "f24_judge"),
            Call::Delega { number } => write!(f, "f24_delega number {number}"),
            Call::Find { delega, subtype, place } => {
                write!(f, "f24_find delega {delega} subtype {subtype} place {place}")
            }
            Call::Correct { delega, subtype, place, debit, credit } => {
                write!(f, "f24_correct delega {delega} subtype {subtype} place {place} debit {debit} credit {credit}")
            }
        }
    }
}
