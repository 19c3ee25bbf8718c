//! Flows written from working sheets, after document 02. Words in quotation
//! marks without another source are its own.
//!
//! "A sheet holds F4, a count of deleghe in three digits, per delega its
//! records 10 and 20, the five sections in 01's order, each as a count in two
//! digits and its line records, then its 50-01; last an EF."

use super::digits::write_fifteen;
use super::judgement::{characters, next, Fault, Judgement, Step};
use super::layout::*;
use super::Refusal;

/// A record of the flow to be written: what it is to be, and what was keyed.
struct Slot<'a> {
    kind: Step,
    /// `None` for a balance record, which "the writer makes".
    keyed: Option<&'a Record>,
}

/// Why nothing was written.
#[derive(Clone, Copy, PartialEq, Eq, Debug)]
pub struct Unwritten {
    pub refusal: Refusal,
    /// Of the two ways to refusal 4: "for a record not of its slot's kind".
    pub by_slot: bool,
}

/// Writes the flow of a sheet into the room and answers its length. A refusal
/// leaves the room as it came, and a success what is past the flow.
pub fn write(sheet: &[u8], room: &mut [u8]) -> Result<usize, Refusal> {
    write_or_tell(sheet, room).map_err(|unwritten| unwritten.refusal)
}

/// The same, telling more of a refusal.
pub fn write_or_tell(sheet: &[u8], room: &mut [u8]) -> Result<usize, Unwritten> {
    let nowhere = |number| Unwritten {
        refusal: Refusal::nowhere(number),
        by_slot: false,
    };
    // "24 when the sheet ends early, has bytes left or a count that isn't digits"
    let slots = slots(sheet).ok_or_else(|| nowhere(24))?;
    // "then 25 when the lent room is too short for the flow"
    let length = slots.len() * RECORD;
    if room.len() < length {
        return Err(nowhere(25));
    }
    // "then 01's first fault, in the records to be written"; 01: "Refusals 1
    // and 2 come first". The length is above zero and a multiple of 120.
    if length > MOST_BYTES {
        return Err(nowhere(1));
    }
    let mut writer = Writer::new();
    for slot in &slots {
        writer.take(slot)?;
    }
    // "then 23"
    if !writer.fits || writer.judgement.total > MOST_AMOUNT {
        return Err(nowhere(23));
    }
    writer.fill_tail();
    room[..length].copy_from_slice(&writer.flow);
    Ok(length)
}

/// The records that the sheet's counts lead to, or `None` for refusal 24.
fn slots(sheet: &[u8]) -> Option<Vec<Slot<'_>>> {
    let mut slots = Vec::new();
    let mut rest = sheet;
    slots.push(keyed(&mut rest, Step::Head)?);
    for _ in 0..count(&mut rest, 3)? {
        slots.push(keyed(&mut rest, Step::Taxpayer)?);
        slots.push(keyed(&mut rest, Step::Domicile)?);
        for index in 0..SECTIONS.len() {
            let lines = count(&mut rest, 2)?;
            for _ in 0..lines {
                slots.push(keyed(&mut rest, Step::Line(index))?);
            }
            // 01: "A section is one or more lines and then its balance record."
            if lines > 0 {
                slots.push(Slot {
                    kind: Step::Balance(index),
                    keyed: None,
                });
            }
        }
        slots.push(keyed(&mut rest, Step::Payment)?);
    }
    slots.push(keyed(&mut rest, Step::Tail)?);
    rest.is_empty().then_some(slots)
}

/// Takes so many bytes off the front.
fn front<'a>(rest: &mut &'a [u8], length: usize) -> Option<&'a [u8]> {
    let taken = rest.get(..length)?;
    *rest = &rest[length..];
    Some(taken)
}

fn keyed<'a>(rest: &mut &'a [u8], kind: Step) -> Option<Slot<'a>> {
    let record = front(rest, RECORD)?;
    Some(Slot {
        kind,
        keyed: Some(record.try_into().expect("it is a record long")),
    })
}

fn count(rest: &mut &[u8], digits: usize) -> Option<usize> {
    front(rest, digits)?
        .iter()
        .try_fold(0, |value, &byte| match byte {
            b'0'..=b'9' => Some(10 * value + usize::from(byte - b'0')),
            _ => None,
        })
}

/// The flow so far, and the judgement of its records.
struct Writer {
    flow: Vec<u8>,
    judgement: Judgement,
    /// Whether all stored totals and balances so far have fifteen digits.
    fits: bool,
}

impl Writer {
    fn new() -> Self {
        Writer {
            flow: Vec::new(),
            judgement: Judgement::new(),
            fits: true,
        }
    }

    /// Judges the next record, "with every filled field taken as right and 4
    /// for a record not of its slot's kind", and writes it.
    fn take(&mut self, slot: &Slot) -> Result<(), Unwritten> {
        let mut record = match slot.keyed {
            Some(keyed) => *keyed,
            None => made(slot.kind),
        };
        self.fill(slot.kind, &mut record);

        self.judgement.records += 1;
        let at = self.judgement.records;
        let refuse = |fault: Fault, record: &Record, by_slot| Unwritten {
            refusal: Refusal::of(fault, at, record),
            by_slot,
        };
        characters(&record).map_err(|fault| refuse(fault, &record, false))?;
        of_kind(slot.kind, &record).map_err(|fault| refuse(fault, &record, true))?;
        self.lenient(&mut record)
            .map_err(|fault| refuse(fault, &record, false))?;
        self.flow.extend_from_slice(&record);
        Ok(())
    }

    /// Fills what "the writer .. fills" and is known before the record is
    /// judged; a sum that is worked out later is zero for now.
    fn fill(&self, slot: Step, record: &mut Record) {
        match slot {
            Step::Head => (),
            Step::Tail => {
                let name = NAME - 1..NAME - 1 + NAME_WIDTH;
                record[name.clone()].copy_from_slice(&self.flow[name]);
                write_seven(record, TAIL_DELEGHE, 0);
                write_fifteen(record, TAIL_SUM, 0);
                write_seven(record, TAIL_RECORDS, 0);
            }
            Step::Taxpayer => write_seven(record, DELEGA, self.judgement.deleghe + 1),
            _ => write_seven(record, DELEGA, self.judgement.deleghe),
        }
        if slot == Step::Payment {
            write_fifteen(record, FINAL_BALANCE, 0);
        }
    }

    /// 01's checks after 3, but for those of filled fields; then the record's
    /// sums are stored.
    fn lenient(&mut self, record: &mut Record) -> Result<(), Fault> {
        let judgement = &mut self.judgement;
        judgement.step = next(judgement.step, record)?;
        match judgement.step {
            Step::Head => judgement.head(record)?,
            Step::Taxpayer => judgement.taxpayer(record)?,
            Step::Line(index) => judgement.line(index, record)?,
            Step::Balance(index) => {
                self.fits &= store_balance(&SECTIONS[index], judgement.delega[index], record);
                judgement.close_section();
            }
            Step::Payment => {
                let due = judgement.due()?;
                self.fits &= due <= MOST_AMOUNT;
                write_fifteen(record, FINAL_BALANCE, due);
                judgement.close_delega(due);
            }
            _ => (),
        }
        Ok(())
    }

    /// The tail's "counts and sum"; its name is there already.
    fn fill_tail(&mut self) {
        let start = self.flow.len() - RECORD;
        let tail = &mut self.flow[start..];
        write_seven(tail, TAIL_DELEGHE, self.judgement.deleghe);
        write_fifteen(tail, TAIL_SUM, self.judgement.total);
        write_seven(tail, TAIL_RECORDS, self.judgement.records as u64);
    }
}

/// A balance record: "columns that 01 doesn't name are spaces".
fn made(kind: Step) -> Record {
    let mut record = [b' '; RECORD];
    let (kind, subtype) = names(kind);
    record[TYPE - 1..=TYPE].copy_from_slice(kind);
    if let Some(subtype) = subtype {
        record[SUBTYPE - 1..=SUBTYPE].copy_from_slice(subtype);
    }
    record
}

/// Stores a section's sums and tells whether they fit their fields.
fn store_balance(section: &Section, (debits, credits): (u64, u64), record: &mut Record) -> bool {
    let balance = debits.abs_diff(credits);
    let mut fits = balance <= MOST_AMOUNT;
    if let Some((debit_at, credit_at)) = section.totals_at {
        fits &= debits <= MOST_AMOUNT && credits <= MOST_AMOUNT;
        write_fifteen(record, debit_at, debits);
        write_fifteen(record, credit_at, credits);
    }
    record[section.sign_at - 1] = sign(debits, credits);
    write_fifteen(record, section.balance_at, balance);
    fits
}

/// Refusal 4 "for a record not of its slot's kind": at 2 where its type is not
/// the slot's, else at 11.
fn of_kind(slot: Step, record: &Record) -> Result<(), Fault> {
    let (kind, subtype) = names(slot);
    let wrong = |position| Fault {
        number: 4,
        position,
    };
    if record[TYPE - 1..=TYPE] != *kind {
        return Err(wrong(TYPE));
    }
    match subtype {
        Some(subtype) if record[SUBTYPE - 1..=SUBTYPE] != *subtype => Err(wrong(SUBTYPE)),
        _ => Ok(()),
    }
}

/// Type and, "Records 40 and 50", subtype.
fn names(kind: Step) -> (&'static [u8; 2], Option<&'static [u8; 2]>) {
    match kind {
        Step::Start => (b"  ", None), // no record
        Step::Head => (b"F4", None),
        Step::Taxpayer => (b"10", None),
        Step::Domicile => (b"20", None),
        Step::Line(index) => (b"40", Some(&SECTIONS[index].line)),
        Step::Balance(index) => (b"40", Some(&SECTIONS[index].balance)),
        Step::Payment => (b"50", Some(b"01")),
        Step::Receipt => (b"50", Some(b"02")),
        Step::Addressee => (b"50", Some(b"03")),
        Step::Tail => (b"EF", None),
    }
}

/// Writes a number of at most seven digits with leading zeros.
fn write_seven(record: &mut [u8], position: usize, number: u64) {
    let digits = format!("{number:07}");
    record[position - 1..position + 6].copy_from_slice(digits.as_bytes());
}
