//! Working sheets of every shape, each with the flow that is to be written
//! from it: the flow of the same plan, with nothing but spaces in the balance
//! records' other columns. The flow knows nothing of how a writer works.

use crate::columns::{Kind::*, *};
use crate::payers::{self, Taxpayer};
use crate::rng::Rng;
use crate::sound::{self, get, put, Amounts, DelegaPlan, Plan, Pool, SectionPlan};

pub type Record = [u8; RECORD];

/// What stands in a sheet, one after another.
#[derive(Clone)]
pub enum Part {
    /// The slot's kind and what was keyed.
    Record(Kind, Record),
    /// A count in two or three characters.
    Count(Vec<u8>),
    /// A line end, which has no place in a sheet.
    LineEnd,
}

#[derive(Clone)]
pub struct Sheet {
    pub parts: Vec<Part>,
    /// The flow that the generator says.
    pub flow: Vec<u8>,
}

/// What is keyed in the columns that the writer fills.
#[derive(Clone, Copy)]
pub enum Keyed {
    Spaces,
    /// What the writer is to fill in.
    Right,
    Digits,
    Printable,
    /// Control bytes and bytes above 126.
    Control,
    Any,
    /// Another of these in each field.
    Mixed,
}

const KEYED: [Keyed; 7] =
    [Keyed::Spaces, Keyed::Right, Keyed::Digits, Keyed::Printable, Keyed::Control, Keyed::Any, Keyed::Mixed];

/// How large a sheet is to be.
#[derive(Clone, Copy)]
pub enum Size {
    /// As a flow of this size, at most 546 records.
    Flow(sound::Size),
    /// So many records in the flow, 7 or more.
    Records(usize),
    /// So many deleghe, each with one line or with none.
    Deleghe(usize),
}

/// The columns that are filled, start and width, by the slot.
pub fn filled(slot: Kind) -> &'static [(usize, usize)] {
    match slot {
        Head => &[],
        Payment => &[(DELEGA, COUNT), (FINAL_BALANCE, AMOUNT)],
        Tail => &[(NAME, NAME_WIDTH), (TAIL_DELEGHE, COUNT), (TAIL_SUM, AMOUNT), (TAIL_RECORDS, COUNT)],
        _ => &[(DELEGA, COUNT)],
    }
}

/// The numeric fields that are read as they were keyed, by the slot.
pub fn read(slot: Kind) -> Vec<(usize, usize)> {
    match slot {
        Head | Line(_) => slot.numeric().into_iter().filter(|field| !filled(slot).contains(field)).collect(),
        _ => Vec::new(),
    }
}

/// The records of the flow to be written, as the sheet's counts say: the slot
/// of each and what was keyed, which for a balance record is nothing.
pub fn slots(sheet: &[u8]) -> Option<Vec<(Kind, &[u8])>> {
    let mut rest = sheet;
    let mut front = |length: usize| {
        let taken = rest.get(..length)?;
        rest = &rest[length..];
        Some(taken)
    };
    let mut slots = vec![(Head, front(RECORD)?)];
    for _ in 0..get(front(3)?, 1, 3) {
        slots.push((Payer, front(RECORD)?));
        slots.push((Domicile, front(RECORD)?));
        for section in 0..SECTIONS.len() {
            let lines = get(front(2)?, 1, 2);
            for _ in 0..lines {
                slots.push((Line(section), front(RECORD)?));
            }
            if lines > 0 {
                slots.push((Balance(section), &[]));
            }
        }
        slots.push((Payment, front(RECORD)?));
    }
    slots.push((Tail, front(RECORD)?));
    Some(slots)
}

/// What was keyed in the slots of records 10, as far as the counts lead to them.
pub fn payers(sheet: &[u8]) -> Vec<Taxpayer<'_>> {
    payers::in_slots(slots(sheet).unwrap_or_default().into_iter(), true)
}

/// A plan without receipts, which no sheet has.
pub fn plan(rng: &mut Rng, size: Size) -> Plan {
    let amounts = rng.pick(&[
        Amounts::Small,
        Amounts::Middle,
        Amounts::Middle,
        Amounts::Wide,
        Amounts::Extreme,
        Amounts::Extreme,
    ]);
    let deleghe = match size {
        Size::Flow(size) => {
            let mut plan = sound::plan_with(rng, size, amounts);
            plan.deleghe.iter_mut().for_each(|delega| delega.receipts = &[]);
            return plan;
        }
        Size::Records(records) => of_records(rng, records),
        Size::Deleghe(count) => (0..count).map(|_| least(rng)).collect(),
    };
    // With no deleghe no sum can be brought to its edge.
    let amounts = if deleghe.is_empty() { Amounts::Small } else { amounts };
    sound::finish(rng, deleghe, amounts)
}

/// Deleghe of exactly `records` - 2 records together.
fn of_records(rng: &mut Rng, records: usize) -> Vec<DelegaPlan> {
    let mut left = records - 2;
    let mut deleghe = Vec::new();
    // Now and then as many deleghe as there can be.
    let many = rng.one_in(3);
    while left > 0 {
        let few = rng.one_in(3);
        let mut delega = if many && !rng.one_in(16) { least(rng) } else { sound::shape(rng, few) };
        delega.receipts = &[];
        let size = delega.records();
        if size > left || (left - size > 0 && left - size < 5) {
            // Section 17 has any size from 5 to 32: fill up, or leave enough.
            let size = if left <= 32 { left } else { 5 };
            delega.sections = vec![sound::empty(IDENTIFYING, size - 4)];
        }
        left -= delega.records();
        deleghe.push(delega);
    }
    deleghe
}

/// A delega with one section of one line.
fn least(rng: &mut Rng) -> DelegaPlan {
    let section = rng.place(SECTIONS.len());
    DelegaPlan { sections: vec![SectionPlan { section, lines: vec![(1, 0)] }], receipts: &[] }
}

/// The sheet of a plan, whose sections stand in their order, each at most once.
pub fn write(rng: &mut Rng, pool: &Pool, plan: &Plan) -> Sheet {
    let keyed = rng.pick(&KEYED);
    let mut flow = sound::write(rng, pool, plan);
    for at in 0..flow.kinds.len() {
        if let Balance(section) = flow.kinds[at] {
            make_plain(flow.record(at), section);
        }
    }
    let mut sheet = Sheet { parts: Vec::new(), flow: Vec::new() };
    let mut at = 0;
    let mut next = |rng: &mut Rng, sheet: &mut Sheet| {
        let slot = flow.kinds[at];
        let mut record = flow.copy_of(at);
        at += 1;
        if !matches!(slot, Balance(_)) {
            key(rng, slot, &mut record, keyed);
            sheet.parts.push(Part::Record(slot, record));
        }
    };
    next(rng, &mut sheet);
    sheet.parts.push(count(plan.deleghe.len(), 3));
    for delega in &plan.deleghe {
        next(rng, &mut sheet);
        next(rng, &mut sheet);
        for section in 0..SECTIONS.len() {
            let lines = delega.sections.iter().find(|s| s.section == section).map_or(0, |s| s.lines.len());
            sheet.parts.push(count(lines, 2));
            // Those of the lines, and of the balance record behind them.
            for _ in 0..if lines > 0 { lines + 1 } else { 0 } {
                next(rng, &mut sheet);
            }
        }
        next(rng, &mut sheet);
    }
    next(rng, &mut sheet);
    sheet.flow = flow.bytes;
    sheet
}

/// Spaces in every column of a balance record that has no name in 01.
fn make_plain(record: &mut [u8], section: usize) {
    let columns = &SECTIONS[section];
    let mut named = vec![(TYPE, 2), (DELEGA, COUNT), (SUBTYPE, 2), (columns.sign, 1), (columns.balance, AMOUNT)];
    if let Some((debit, credit)) = columns.totals {
        named.extend([(debit, AMOUNT), (credit, AMOUNT)]);
    }
    for position in 1..=RECORD {
        if !named.iter().any(|&(start, width)| (start..start + width).contains(&position)) {
            record[position - 1] = b' ';
        }
    }
}

pub fn count(number: usize, width: usize) -> Part {
    let mut digits = vec![0; width];
    put(&mut digits, 1, width, number as u64);
    Part::Count(digits)
}

/// Fills the columns that nobody is to look at.
fn key(rng: &mut Rng, slot: Kind, record: &mut Record, keyed: Keyed) {
    for &(start, width) in filled(slot) {
        let style = match keyed {
            Keyed::Mixed => KEYED[rng.place(KEYED.len() - 1)],
            style => style,
        };
        for byte in record[start - 1..start - 1 + width].iter_mut() {
            *byte = match style {
                Keyed::Right | Keyed::Mixed => continue,
                Keyed::Spaces => b' ',
                Keyed::Digits => b'0' + rng.below(10) as u8,
                Keyed::Printable => 32 + rng.below(95) as u8,
                Keyed::Control if rng.one_in(2) => rng.below(32) as u8,
                Keyed::Control => rng.between(127, 255) as u8,
                Keyed::Any => rng.next() as u8,
            };
        }
    }
}

impl Sheet {
    pub fn bytes(&self) -> Vec<u8> {
        let mut bytes = Vec::with_capacity(RECORD * self.parts.len());
        for part in &self.parts {
            match part {
                Part::Record(_, record) => bytes.extend_from_slice(record),
                Part::Count(digits) => bytes.extend_from_slice(digits),
                Part::LineEnd => bytes.push(b'\n'),
            }
        }
        bytes
    }

    /// The places among the parts where a record of such a slot stands.
    pub fn places(&self, wanted: impl Fn(Kind) -> bool) -> Vec<usize> {
        let is = |part: &Part| matches!(part, Part::Record(slot, _) if wanted(*slot));
        (0..self.parts.len()).filter(|&at| is(&self.parts[at])).collect()
    }

    /// The record at a place that has one, and its slot.
    pub fn record(&mut self, at: usize) -> (Kind, &mut Record) {
        match &mut self.parts[at] {
            Part::Record(slot, record) => (*slot, record),
            _ => unreachable!("no record"),
        }
    }

    /// The places of the counts.
    pub fn counts(&self) -> Vec<usize> {
        (0..self.parts.len()).filter(|&at| matches!(self.parts[at], Part::Count(_))).collect()
    }

    pub fn count(&mut self, at: usize) -> &mut Vec<u8> {
        match &mut self.parts[at] {
            Part::Count(digits) => digits,
            _ => unreachable!("no count"),
        }
    }
}
