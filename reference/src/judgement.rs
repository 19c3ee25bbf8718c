//! The judgement of a flow, one record at a time.
//!
//! "Records are judged in order, and within a record the checks in the order
//! of their numbers; the first blocking fault ends the judgement."

use super::codes::{self, Code};
use super::dates;
use super::digits::{fifteen, seven, six};
use super::layout::*;
use std::ops::Range;

/// What the last record was, hence which may stand after it.
#[derive(Clone, Copy, PartialEq, Eq, Debug)]
pub enum Step {
    /// No record yet.
    Start,
    /// F4.
    Head,
    /// 10, data of the taxpayer.
    Taxpayer,
    /// 20, domicile.
    Domicile,
    /// A line of the section with this index.
    Line(usize),
    /// The balance record of the section with this index.
    Balance(usize),
    /// 50-01, payment.
    Payment,
    /// 50-02, sending of the receipt.
    Receipt,
    /// 50-03, addressee of the receipt.
    Addressee,
    /// EF.
    Tail,
}

/// A refusal's number and position; the record is known to the caller. Fault 7
/// has the start of its field, from which the refusal finds the character.
#[derive(Clone, Copy, PartialEq, Eq, Debug)]
pub struct Fault {
    pub number: u8,
    pub position: usize,
}

/// What a delega uses. Document 02: "the number of lines, and for each delega
/// how many of the five sections it uses and which".
#[derive(Clone, Copy, PartialEq, Eq, Debug, Default)]
pub struct Usage {
    /// Its line records.
    pub lines: u64,
    /// "that set as one number (1, 2, 4, 8, 16 added, in 01's order)", made from
    /// the line records.
    pub set: u64,
    /// "and its size": its balance records, since "A section is one or more
    /// lines and then its balance record".
    pub size: u64,
}

/// The state after the records judged so far.
#[derive(Clone, Copy, Debug)]
pub struct Judgement {
    pub step: Step,
    pub records: usize,
    pub deleghe: u64,
    /// Lines of the open section. Its balance record and a 20, behind which
    /// sections come, set them to zero.
    pub lines: u64,
    /// Debit and credit of the last line.
    pub amounts: (u64, u64),
    /// Debits and credits of the open delega, over its sections.
    pub open: (u64, u64),
    /// Section sums of the open delega. Both are zeros once it is paid.
    pub delega: Sums,
    /// Section sums of the delega whose 50-01 passed last.
    pub paid: Sums,
    /// Lines and sections of the open delega.
    pub usage: Usage,
    /// Section sums over the flow.
    pub flow: Sums,
    /// Lines of the flow.
    pub flow_lines: u64,
    /// Sum of the final balances.
    pub total: u64,
    /// The head's support name, as record 1 has it.
    pub name: Name,
}

impl Judgement {
    pub fn new() -> Self {
        Judgement {
            step: Step::Start,
            records: 0,
            deleghe: 0,
            lines: 0,
            amounts: (0, 0),
            open: (0, 0),
            delega: Sums::default(),
            paid: Sums::default(),
            usage: Usage::default(),
            flow: Sums::default(),
            flow_lines: 0,
            total: 0,
            name: Name::default(),
        }
    }

    /// Judges the next record.
    #[inline]
    pub fn take(&mut self, record: &Record) -> Result<(), Fault> {
        if self.records == 0 {
            self.name = name(record);
        }
        self.records += 1;
        characters(record)?;
        self.step = next(self.step, record)?;
        match self.step {
            Step::Start => Ok(()), // follows no record
            Step::Head => self.head(record),
            Step::Taxpayer => self.taxpayer(record),
            Step::Line(index) => self.line(index, record),
            Step::Balance(index) => self.balance(index, record),
            Step::Payment => self.payment(record),
            Step::Tail => self.tail(record),
            // "of these two only type, number, subtype and characters are
            // judged"; of a 20 no other field is numeric either.
            Step::Domicile | Step::Receipt | Step::Addressee => {
                self.lines = 0;
                let number = count(record, DELEGA)?;
                self.open_delega(number)
            }
        }
    }

    pub fn head(&mut self, record: &Record) -> Result<(), Fault> {
        let date = six(record, DATE).ok_or(fault(7, DATE))?;

        // "No "/" and no ":" in it"
        let breaks_rule = name(record).iter().any(|byte| matches!(byte, b'/' | b':'));
        ensure(!breaks_rule, 16, NAME)?;

        // Document 02: "A date is valid only if the day exists in that month".
        // "This amends 01's date rule; its number and place stay."
        ensure(dates::valid(date), 17, DATE)
    }

    /// "The first delega is 1, each next one is one more", and document 02: "The
    /// taxpayer's code must be checked".
    pub fn taxpayer(&mut self, record: &Record) -> Result<(), Fault> {
        let number = count(record, DELEGA)?;
        self.deleghe += 1;
        self.open_delega(number)?;

        // Document 02: "26 at the field's start, after 8 in the same record."
        ensure(codes::valid(&code(record)), 26, CODE)?;

        // "Sums start at zero for every delega.", and so does what it uses.
        self.open = (0, 0);
        self.delega = Sums::default();
        self.usage = Usage::default();
        Ok(())
    }

    pub fn line(&mut self, index: usize, record: &Record) -> Result<(), Fault> {
        let section = &SECTIONS[index];
        self.lines += 1;
        ensure(self.lines <= section.most_lines, 6, SUBTYPE)?;

        let number = count(record, DELEGA)?;
        let debit = amount(record, section.debit_at)?;
        let credit = amount(record, section.credit_at)?;

        self.open_delega(number)?;
        if let Some(position) = section.wrong_amount(debit, credit) {
            return Err(fault(9, position));
        }

        self.amounts = (debit, credit);
        for sums in [
            &mut self.open,
            &mut self.delega[index],
            &mut self.flow[index],
        ] {
            sums.0 += debit;
            sums.1 += credit;
        }
        self.flow_lines += 1;
        self.usage.lines += 1;
        self.usage.set |= 1 << index;
        Ok(())
    }

    /// "Total debit and total credit are the sums over the section's lines.
    /// The balance is their difference without sign."
    fn balance(&mut self, index: usize, record: &Record) -> Result<(), Fault> {
        let section = &SECTIONS[index];
        let number = count(record, DELEGA)?;
        let totals = match section.totals_at {
            Some((debit_at, credit_at)) => Some((
                (debit_at, amount(record, debit_at)?),
                (credit_at, amount(record, credit_at)?),
            )),
            None => None,
        };
        let balance = amount(record, section.balance_at)?;

        self.open_delega(number)?;
        let (debits, credits) = self.delega[index];
        if let Some(((debit_at, debit), (credit_at, credit))) = totals {
            ensure(debit == debits, 10, debit_at)?;
            ensure(credit == credits, 11, credit_at)?;
        }
        let stored_sign = record[section.sign_at - 1];
        ensure(stored_sign == sign(debits, credits), 12, section.sign_at)?;
        ensure(balance == debits.abs_diff(credits), 13, section.balance_at)?;
        self.close_section();
        Ok(())
    }

    /// The section's balance record has passed.
    pub fn close_section(&mut self) {
        self.lines = 0;
        self.usage.size += 1;
    }

    fn payment(&mut self, record: &Record) -> Result<(), Fault> {
        let number = count(record, DELEGA)?;
        let stored = amount(record, FINAL_BALANCE)?;

        self.open_delega(number)?;
        let due = self.due()?;
        ensure(stored == due, 15, FINAL_BALANCE)?;

        self.close_delega(due);
        Ok(())
    }

    /// The open delega's final balance: "all its debits less all its credits.
    /// Zero is allowed, negative is not."
    pub fn due(&self) -> Result<u64, Fault> {
        let (debits, credits) = self.open;
        debits.checked_sub(credits).ok_or(fault(14, TYPE))
    }

    /// The 50-01 has passed, with this final balance.
    pub fn close_delega(&mut self, due: u64) {
        self.total += due;
        self.paid = self.delega;
        self.open = (0, 0);
        self.delega = Sums::default();
    }

    /// "number of deleghe, number of records with head and tail (EF's own
    /// record number), and the sum of all final balances"
    fn tail(&mut self, record: &Record) -> Result<(), Fault> {
        let deleghe = count(record, TAIL_DELEGHE)?;
        let sum = amount(record, TAIL_SUM)?;
        let records = count(record, TAIL_RECORDS)?;

        // "the tail's equals the head's"
        ensure(name(record) == self.name, 16, NAME)?;
        ensure(deleghe == self.deleghe, 18, TAIL_DELEGHE)?;
        ensure(records == self.records as u64, 19, TAIL_RECORDS)?;
        ensure(sum == self.total, 20, TAIL_SUM)
    }

    /// "all records of a delega carry its number"
    pub fn open_delega(&self, number: u64) -> Result<(), Fault> {
        ensure(number == self.deleghe, 8, DELEGA)
    }
}

fn fault(number: u8, position: usize) -> Fault {
    Fault { number, position }
}

fn ensure(holds: bool, number: u8, position: usize) -> Result<(), Fault> {
    if holds {
        Ok(())
    } else {
        Err(fault(number, position))
    }
}

/// Refusal 3: "a byte outside 32 to 126", at the first such byte.
pub fn characters(record: &Record) -> Result<(), Fault> {
    let distance = |byte: &u8| byte.wrapping_sub(32);
    // The farthest of all bytes, with no early end: this the compiler turns
    // into vector instructions.
    if record.iter().map(distance).fold(0, u8::max) <= 126 - 32 {
        return Ok(());
    }
    let before = record.iter().take_while(|byte| (32..=126).contains(*byte));
    Err(fault(3, before.count() + 1))
}

/// Refusal 4: the step that this record takes if it may stand here, else
/// position "2 if no record that may stand here has its type, else 11".
pub fn next(here: Step, record: &Record) -> Result<Step, Fault> {
    use Step::*;
    let kind = [record[TYPE - 1], record[TYPE]];
    let subtype = [record[SUBTYPE - 1], record[SUBTYPE]];
    let step = match (here, &kind) {
        // "F4 (head), one or more deleghe, EF (tail), nothing after."
        (Start, b"F4") => Some(Head),
        (Head | Payment | Receipt | Addressee, b"10") => Some(Taxpayer),
        (Payment | Receipt | Addressee, b"EF") => Some(Tail),

        // "one record 10, one record 20 (H: always), one or more sections"
        (Taxpayer, b"20") => Some(Domicile),
        (Domicile, b"40") => line_among(0..SECTIONS.len(), subtype),

        // "A section is one or more lines and then its balance record."
        (Line(index), b"40") if subtype == SECTIONS[index].line => Some(here),
        (Line(index), b"40") => (subtype == SECTIONS[index].balance).then_some(Balance(index)),

        // "in the order of the table, each at most once", and no section 17
        // beside another: after the last of the four no 40 may stand.
        (Balance(index), b"40") if index + 1 < IDENTIFYING => {
            line_among(index + 1..IDENTIFYING, subtype)
        }

        // "one record 50-01, then at most one 50-02 and, after a 50-02 only,
        // at most one 50-03"
        (Balance(_), b"50") => (subtype == *b"01").then_some(Payment),
        (Payment, b"50") => (subtype == *b"02").then_some(Receipt),
        (Receipt, b"50") => (subtype == *b"03").then_some(Addressee),

        _ => return Err(fault(4, TYPE)),
    };
    step.ok_or(fault(4, SUBTYPE))
}

/// The first line of whichever of these sections has the subtype.
fn line_among(mut sections: Range<usize>, subtype: [u8; 2]) -> Option<Step> {
    sections
        .find(|&index| SECTIONS[index].line == subtype)
        .map(Step::Line)
}

pub fn name(record: &Record) -> Name {
    let mut name = [0; NAME_WIDTH];
    name.copy_from_slice(&record[NAME - 1..NAME - 1 + NAME_WIDTH]);
    name
}

fn code(record: &Record) -> Code {
    let mut code = [0; CODE_WIDTH];
    code.copy_from_slice(&record[CODE - 1..CODE - 1 + CODE_WIDTH]);
    code
}

/// A seven-digit count or number, or fault 7 at its start.
pub fn count(record: &Record, position: usize) -> Result<u64, Fault> {
    seven(record, position).ok_or(fault(7, position))
}

/// A fifteen-digit amount, or fault 7 at its start.
fn amount(record: &Record, position: usize) -> Result<u64, Fault> {
    fifteen(record, position).ok_or(fault(7, position))
}
