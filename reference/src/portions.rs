//! A judge that "can be given a portion", after document 02 and
//! docs/PORTIONS.md. Words in quotation marks without another source are 02's.
//!
//! "The counter's small terminal wants to judge no more than a stated number of
//! records in one call and go on later from the state handed back, with the flow
//! unchanged between calls."

use super::judgement::{Judgement, Step};
use super::layout::*;
use super::{ended, length, take_all, Refusal, Summary};

/// A state is so many numbers.
pub const STATE_NUMBERS: usize = 53;

/// How a judgement stands.
const GOES_ON: u64 = 1;
const ACCEPTED: u64 = 2;
const REFUSED: u64 = 3;

/// "At most 546 records".
const MOST_RECORDS: u64 = (MOST_BYTES / RECORD) as u64;

/// What the last record was: 0 for none, else its place here, from 1 on. Lines
/// and balances have the section beside it.
const LINE: u64 = 4;
const BALANCE: u64 = 5;
const KINDS: u64 = 9;

/// The state between two calls, number by number as docs/PORTIONS.md has them.
/// It may hold any numbers: those that no judgement can have are foreign.
#[derive(Clone, Copy, PartialEq, Eq, Debug)]
pub struct State {
    /// 1 it goes on, 2 it has ended with acceptance, 3 with a refusal.
    pub stands: u64,
    /// Number, record and position of that refusal.
    pub refusal: [u64; 3],
    /// Records that have passed, and those among them that are no lines.
    pub passed: u64,
    pub no_lines: u64,
    /// Deleghe that have been opened.
    pub deleghe: u64,
    /// What the last record was, the section of a line or balance, and how many
    /// of the section's lines have passed after a line. A line adds one to these,
    /// whatever the last record was.
    pub last: u64,
    pub section: u64,
    pub lines: u64,
    /// Sum of the final balances.
    pub total: u64,
    /// Debits and credits of the open delega, in all and by section.
    pub open: (u64, u64),
    pub delega: Sums,
    /// Section sums over the flow.
    pub flow: Sums,
    /// The characters of the head's support name.
    pub name: [u64; NAME_WIDTH],
}

/// What a call says.
#[derive(Clone, Copy, PartialEq, Eq, Debug)]
pub enum Answer {
    /// Records are left, and the portion is used up.
    NotEnded,
    /// 01's answer.
    Ended(Result<Summary, Refusal>),
    /// "a state that no judgement of this flow handed back"
    Foreign,
}

/// "The answer says how many records have been examined so far", and the state
/// is "handed back".
#[derive(Clone, Copy, PartialEq, Eq, Debug)]
pub struct Answered {
    pub answer: Answer,
    pub examined: u64,
    pub state: State,
}

/// Judges no more records than the portion, from the state on.
pub fn judge_portion(flow: &[u8], portion: u64, state: &State) -> Answered {
    if !state.can_be() {
        return foreign(state);
    }
    let given = state;
    let state = &state.plain();
    // "An ended state gives its answer again."
    if let Some(answer) = state.ended() {
        return with_answer(answer, state);
    }
    // "A portion of zero examines nothing, though 1 and 2 are still given."
    if let Err(refusal) = length(flow) {
        return with_answer(Answer::Ended(Err(refusal)), &state.refused(refusal));
    }
    // A judgement of this flow that has not ended has seen fewer records.
    let records = (flow.len() / RECORD) as u64;
    if state.passed >= records {
        return foreign(given);
    }
    let allowed = portion.min(records - state.passed);
    let from = state.passed as usize * RECORD;
    let to = from + allowed as usize * RECORD;
    go_on(&flow[from..to], to == flow.len(), state)
}

/// Examines these records, among which is the flow's last or not.
fn go_on(records: &[u8], to_the_end: bool, state: &State) -> Answered {
    let mut judgement = state.judgement();
    let mut after = *state;
    let taken = take_all(&mut judgement, records, |passed| {
        after = State::after(passed);
    });
    // Record 1 gives the name where it is refused, too.
    after.name = judgement.name.map(u64::from);

    // 01: "the first blocking fault ends the judgement. Refusal 5 comes after
    // all records have passed."
    let answer = match taken {
        Ok(()) if to_the_end => ended(&judgement),
        Ok(()) => return with_answer(Answer::NotEnded, &after),
        Err(refusal) => Err(refusal),
    };
    let state = match answer {
        Ok(_) => State {
            stands: ACCEPTED,
            ..after
        },
        Err(refusal) => after.refused(refusal),
    };
    with_answer(Answer::Ended(answer), &state)
}

/// "the call ends and docs/ fixes its answer": the state comes back as it was.
fn foreign(state: &State) -> Answered {
    Answered {
        answer: Answer::Foreign,
        examined: 0,
        state: *state,
    }
}

/// "how many records have been examined so far: the number of the refusing
/// record, all records for acceptance or refusal 5, and none for 1 or 2"
fn with_answer(answer: Answer, state: &State) -> Answered {
    let examined = match answer {
        Answer::Ended(Err(refusal)) if refusal.number != 5 => refusal.record as u64,
        _ => state.passed,
    };
    Answered {
        answer,
        examined,
        state: *state,
    }
}

impl State {
    /// The state before the first call.
    pub fn start() -> Self {
        State::after(&Judgement::new())
    }

    /// The state of a judgement that goes on after the records it has taken.
    fn after(judgement: &Judgement) -> Self {
        let (last, section) = numbered(judgement.step);
        State {
            stands: GOES_ON,
            refusal: [0; 3],
            passed: judgement.records as u64,
            no_lines: judgement.records as u64 - judgement.flow_lines,
            deleghe: judgement.deleghe,
            last,
            section,
            lines: if last == LINE { judgement.lines } else { 0 },
            total: judgement.total,
            open: judgement.open,
            delega: judgement.delega,
            flow: judgement.flow,
            name: judgement.name.map(u64::from),
        }
    }

    /// The judgement that goes on from this state, which can be.
    fn judgement(&self) -> Judgement {
        Judgement {
            step: self.step(),
            records: self.passed as usize,
            deleghe: self.deleghe,
            lines: self.lines,
            open: self.open,
            delega: self.delega,
            flow: self.flow,
            flow_lines: self.passed - self.no_lines,
            total: self.total,
            name: self.name.map(|character| character as u8),
            ..Judgement::new()
        }
    }

    fn step(&self) -> Step {
        match self.last {
            1 => Step::Head,
            2 => Step::Taxpayer,
            3 => Step::Domicile,
            LINE => Step::Line(self.section as usize),
            BALANCE => Step::Balance(self.section as usize),
            6 => Step::Payment,
            7 => Step::Receipt,
            8 => Step::Addressee,
            9 => Step::Tail,
            _ => Step::Start,
        }
    }

    /// The same, ended with this refusal.
    fn refused(&self, refusal: Refusal) -> Self {
        let Refusal {
            number,
            record,
            position,
        } = refusal;
        State {
            stands: REFUSED,
            refusal: [u64::from(number), record as u64, position as u64],
            ..*self
        }
    }

    /// The same with zeros for a refusal where there is none.
    fn plain(&self) -> Self {
        match self.stands {
            REFUSED => *self,
            _ => State {
                refusal: [0; 3],
                ..*self
            },
        }
    }

    /// The answer of a judgement that has ended.
    fn ended(&self) -> Option<Answer> {
        match self.stands {
            ACCEPTED => Some(Answer::Ended(Ok(Summary {
                deleghe: self.deleghe,
                records: self.passed as usize,
                total: self.total,
                lines: self.passed - self.no_lines,
                sums: self.flow,
            }))),
            REFUSED => Some(Answer::Ended(Err(Refusal {
                number: self.refusal[0] as u8,
                record: self.refusal[1] as usize,
                position: self.refusal[2] as usize,
            }))),
            _ => None,
        }
    }

    /// Whether it is a state that a judgement can have.
    fn can_be(&self) -> bool {
        let stands = match self.stands {
            GOES_ON | ACCEPTED => true,
            REFUSED => self.refusal_can_be(),
            _ => false,
        };
        let within = [self.no_lines, self.deleghe, self.lines];
        stands
            && self.passed <= MOST_RECORDS
            && within.iter().all(|&count| count <= self.passed)
            && self.last <= KINDS
            && self.section < SECTIONS.len() as u64
            && self.sums_can_be()
            && self.name.iter().all(|&character| character <= 255)
    }

    /// Whether a judgement can give this refusal after the records passed. The
    /// position within a record is not looked at.
    fn refusal_can_be(&self) -> bool {
        let [number, record, position] = self.refusal;
        let next = self.passed.saturating_add(1);
        match number {
            1 | 2 => record == 0 && position == 0,
            5 => record == next && position == 0,
            3 | 4 | 6..=20 | 26 => record == next && record <= MOST_RECORDS,
            _ => false,
        }
    }

    /// Whether each sum, and total and open debits together, is no more than so
    /// many records can bring. Called once no more than 546 have passed.
    fn sums_can_be(&self) -> bool {
        let most = u128::from(self.passed) * u128::from(MOST_AMOUNT);
        let (debits, credits) = self.open;
        let by_section = self.delega.iter().chain(&self.flow);
        u128::from(self.total) + u128::from(debits) <= most
            && u128::from(credits) <= most
            && by_section
                .flat_map(|&(debits, credits)| [debits, credits])
                .all(|sum| u128::from(sum) <= most)
    }

    /// Its numbers in their order.
    pub fn numbers(&self) -> [u64; STATE_NUMBERS] {
        let mut all = vec![self.stands];
        all.extend(self.refusal);
        all.extend([self.passed, self.no_lines, self.deleghe]);
        all.extend([self.last, self.section, self.lines, self.total]);
        let sums = [self.open];
        for (debits, credits) in sums.iter().chain(&self.delega).chain(&self.flow) {
            all.extend([debits, credits]);
        }
        all.extend(self.name);
        all.try_into().expect("a state is 53 numbers")
    }

    /// The state of these numbers, whatever they are.
    pub fn of(numbers: &[u64; STATE_NUMBERS]) -> Self {
        let pair = |at: usize| (numbers[at], numbers[at + 1]);
        let five = |at: usize| [0, 2, 4, 6, 8].map(|more| pair(at + more));
        let mut name = [0; NAME_WIDTH];
        name.copy_from_slice(&numbers[33..]);
        State {
            stands: numbers[0],
            refusal: [numbers[1], numbers[2], numbers[3]],
            passed: numbers[4],
            no_lines: numbers[5],
            deleghe: numbers[6],
            last: numbers[7],
            section: numbers[8],
            lines: numbers[9],
            total: numbers[10],
            open: pair(11),
            delega: five(13),
            flow: five(23),
            name,
        }
    }
}

/// The number of what the last record was, and that of its section.
fn numbered(step: Step) -> (u64, u64) {
    match step {
        Step::Start => (0, 0),
        Step::Head => (1, 0),
        Step::Taxpayer => (2, 0),
        Step::Domicile => (3, 0),
        Step::Line(section) => (LINE, section as u64),
        Step::Balance(section) => (BALANCE, section as u64),
        Step::Payment => (6, 0),
        Step::Receipt => (7, 0),
        Step::Addressee => (8, 0),
        Step::Tail => (9, 0),
    }
}
