//! The records gone through in the order that the rules give them: "F4 (head),
//! one or more deleghe, EF (tail), nothing after."
//!
//! A step finds its record at the front of the rest and takes it off. What it
//! compares comes in the order of the refusals' numbers.

use crate::characters::first_bad;
use crate::codes;
use crate::ends::judge_head;
use crate::faults::{ensure, fault, seven, unexpected, Fault, Kind, END};
use crate::layout::*;
use crate::number::{Number, FIFTY, FORTY};
use crate::words::{amount, bytes};
use crate::{refusal, Refusal, Summary};

/// Records whose characters are tested at once.
const BLOCK: usize = 64 * RECORD;

/// The longest delega: 10, 20, 28 lines and their balance, 50-01 to 50-03.
const LONGEST: usize = 34 * RECORD;

/// Judges whole records.
pub fn judge(flow: &[u8]) -> Result<Summary, Refusal> {
    let mut walk = Walk::new(flow);
    let judged = walk.judge();
    let records = walk.passed() / RECORD;
    match judged {
        Ok(()) => Ok(walk.summary(records)),
        Err(fault) => Err(refusal(fault, records + 1)),
    }
}

pub struct Walk<'a> {
    /// The flow, up to the record with a bad byte once that is known.
    flow: &'a [u8],
    /// The bad byte's position in its record.
    bad: Option<usize>,
    /// How much of the flow is tested.
    tested: usize,
    /// Of that, the records that are not yet judged.
    rest: &'a [u8],
    pub number: Number,
    pub deleghe: u64,
    /// Debits and credits of the open delega.
    pub debits: u64,
    pub credits: u64,
    /// Sum of the final balances.
    pub total: u64,
    /// Balance records and receipts.
    pub others: u64,
    /// Debits and credits of the five sections over the flow.
    pub sums: [(u64, u64); 5],
}

impl<'a> Walk<'a> {
    fn new(flow: &'a [u8]) -> Self {
        Walk {
            flow,
            bad: None,
            tested: 0,
            rest: &[],
            number: Number::ZERO,
            deleghe: 0,
            debits: 0,
            credits: 0,
            total: 0,
            others: 0,
            sums: [(0, 0); 5],
        }
    }

    /// The answer to a flow of so many records, all of which have passed. Lines
    /// are those that are left without head and tail, 10, 20 and 50-01 of each
    /// delega, balance records and receipts.
    fn summary(&self, records: usize) -> Summary {
        let lines = records as u64 - 2 - 3 * self.deleghe - self.others;
        Summary { deleghe: self.deleghe, records, total: self.total, lines, sums: self.sums }
    }

    /// Bytes of the records that have passed.
    pub fn passed(&self) -> usize {
        self.tested - self.rest.len()
    }

    /// Sees to it that the characters of a whole delega are tested, or of all
    /// that there is.
    #[inline(always)]
    fn look_ahead(&mut self) {
        if self.rest.len() < LONGEST && self.tested < self.flow.len() {
            self.test_more();
        }
    }

    #[inline(never)]
    fn test_more(&mut self) {
        let passed = self.passed();
        let untested = &self.flow[self.tested..];
        let block = untested.get(..BLOCK).unwrap_or(untested);
        match first_bad(block) {
            None => self.tested += block.len(),
            Some(bad) => {
                self.bad = Some(bad % RECORD + 1);
                self.tested += bad / RECORD * RECORD;
                self.flow = &self.flow[..self.tested];
            }
        }
        self.rest = &self.flow[passed..self.tested];
    }

    /// The next record.
    #[inline(always)]
    pub fn front(&self) -> Result<&'a Record, Fault> {
        match self.rest.get(..RECORD) {
            Some(record) => record.try_into().map_err(|_| END),
            None => Err(self.end()),
        }
    }

    /// What is wrong where there is no good record any more.
    #[cold]
    fn end(&self) -> Fault {
        self.bad.map_or(END, |position| fault(3, position))
    }

    /// Takes the next record off.
    #[inline(always)]
    pub fn pass(&mut self) {
        self.rest = self.rest.get(RECORD..).unwrap_or(&[]);
    }

    #[inline(always)]
    fn judge(&mut self) -> Result<(), Fault> {
        self.look_ahead();
        let head = self.front()?;
        judge_head(head)?;
        self.pass();
        let mut last = Kind::Head;
        loop {
            self.look_ahead();
            let record = self.front()?;
            let number = self.number.next();
            if !number.is_in(record, b'1') {
                break;
            }
            ensure(codes::passes(record), 26, CODE)?;
            self.number = number;
            self.deleghe += 1;
            self.pass();
            last = self.delega()?;
        }
        let tail = self.front()?;
        if last == Kind::Head || bytes(tail, TYPE) != *b"EF" {
            return Err(unexpected(tail, Some(last), false));
        }
        self.tail(head, tail)?;
        self.pass();
        match self.front() {
            Ok(more) => Err(unexpected(more, Some(Kind::Tail), false)),
            Err(end) if end == END => Ok(()),
            Err(bad) => Err(bad),
        }
    }

    /// A delega from its record 20 on; the kind of its last record.
    #[inline(always)]
    fn delega(&mut self) -> Result<Kind, Fault> {
        let domicile = self.front()?;
        if !self.number.is_in(domicile, b'2') {
            return Err(unexpected(domicile, Some(Kind::Taxpayer), false));
        }
        self.pass();
        self.debits = 0;
        self.credits = 0;
        let last = self.sections()?;
        self.payment(last)?;
        self.receipts()
    }

    /// "section 17 alone or any of the other four", "in the order of the
    /// table, each at most once"; the kind of the last record.
    #[inline(always)]
    fn sections(&mut self) -> Result<Kind, Fault> {
        let mut last = Kind::Domicile;
        self.section_if_there::<0>(&mut last)?;
        self.section_if_there::<1>(&mut last)?;
        self.section_if_there::<2>(&mut last)?;
        self.section_if_there::<3>(&mut last)?;
        if last == Kind::Domicile {
            self.section_if_there::<IDENTIFYING>(&mut last)?;
        }
        Ok(last)
    }

    #[inline(always)]
    fn section_if_there<const INDEX: usize>(&mut self, last: &mut Kind) -> Result<(), Fault> {
        if self.number.is_in_part(self.front()?, FORTY, SECTIONS[INDEX].line) {
            self.section::<INDEX>()?;
            *last = Kind::Balance(INDEX);
        }
        Ok(())
    }

    #[inline(always)]
    fn payment(&mut self, last: Kind) -> Result<(), Fault> {
        let record = self.front()?;
        if last == Kind::Domicile || !self.number.is_in_part(record, FIFTY, *b"01") {
            return Err(unexpected(record, Some(last), false));
        }
        let stored = match amount(record, FINAL_BALANCE) {
            Some(stored) => stored,
            None => return Err(seven(record, Kind::Payment)),
        };
        // "Zero is allowed, negative is not."
        let due = self.debits.checked_sub(self.credits).ok_or(fault(14, TYPE))?;
        ensure(stored == due, 15, FINAL_BALANCE)?;
        self.total += due;
        self.pass();
        Ok(())
    }

    /// "at most one 50-02 and, after a 50-02 only, at most one 50-03"
    #[inline(always)]
    fn receipts(&mut self) -> Result<Kind, Fault> {
        if !self.number.is_in_part(self.front()?, FIFTY, *b"02") {
            return Ok(Kind::Payment);
        }
        self.others += 1;
        self.pass();
        if !self.number.is_in_part(self.front()?, FIFTY, *b"03") {
            return Ok(Kind::Receipt);
        }
        self.others += 1;
        self.pass();
        Ok(Kind::Addressee)
    }
}
