//! Sound flows of every shape. A plan says which deleghe, sections and lines
//! there are; `write` turns it into records with every number worked out, and
//! fills all other columns with random printable characters.

use crate::codes;
use crate::columns::{Kind::*, *};
use crate::dates;
use crate::rng::Rng;

#[derive(Clone)]
pub struct SectionPlan {
    pub section: usize,
    /// Debit and credit.
    pub lines: Vec<(u64, u64)>,
}

#[derive(Clone)]
pub struct DelegaPlan {
    pub sections: Vec<SectionPlan>,
    /// What follows the 50-01.
    pub receipts: &'static [Kind],
}

#[derive(Clone)]
pub struct Plan {
    pub deleghe: Vec<DelegaPlan>,
    pub date: [u8; DAY],
    pub name: [u8; NAME_WIDTH],
    pub filler: Filler,
}

#[derive(Clone, Copy, PartialEq)]
pub enum Filler {
    Spaces,
    Printable,
    Digits,
    Mixed,
}

/// How large a flow is to be.
#[derive(Clone, Copy, PartialEq)]
pub enum Size {
    /// One delega with one section of one line or two.
    Least,
    /// One delega with few lines.
    Tiny,
    /// Up to three deleghe.
    Small,
    /// Some sixty records.
    Medium,
    /// Any number of records up to 546.
    Large,
    /// 546 records.
    Full,
}

/// How large amounts are to be.
#[derive(Clone, Copy, PartialEq)]
pub enum Amounts {
    Small,
    Middle,
    Wide,
    /// Sums at and just below fifteen nines.
    Extreme,
}

impl SectionPlan {
    pub fn sums(&self) -> (u64, u64) {
        self.lines.iter().fold((0, 0), |sum, line| (sum.0 + line.0, sum.1 + line.1))
    }
}

impl DelegaPlan {
    /// All debits less all credits.
    pub fn balance(&self) -> i64 {
        self.sections
            .iter()
            .map(|section| {
                let (debit, credit) = section.sums();
                debit as i64 - credit as i64
            })
            .sum()
    }

    pub fn records(&self) -> usize {
        let sections: usize = self.sections.iter().map(|s| s.lines.len() + 1).sum();
        3 + sections + self.receipts.len()
    }

    pub fn identifying(&self) -> bool {
        self.sections.iter().any(|s| s.section == IDENTIFYING)
    }
}

impl Plan {
    /// Debit and credit of each section over the deleghe, in turn.
    pub fn sums(&self) -> [u64; 10] {
        let mut sums = [0; 10];
        for section in self.deleghe.iter().flat_map(|delega| &delega.sections) {
            let (debit, credit) = section.sums();
            sums[2 * section.section] += debit;
            sums[2 * section.section + 1] += credit;
        }
        sums
    }
}

pub const RECEIPTS: [&[Kind]; 3] = [&[], &[Receipt], &[Receipt, Addressee]];

pub fn plan(rng: &mut Rng, size: Size) -> Plan {
    let amounts =
        rng.pick(&[Amounts::Small, Amounts::Middle, Amounts::Middle, Amounts::Wide, Amounts::Wide, Amounts::Extreme]);
    plan_with(rng, size, amounts)
}

pub fn plan_with(rng: &mut Rng, size: Size, amounts: Amounts) -> Plan {
    let mut deleghe = Vec::new();
    match size {
        Size::Least => {
            let mut delega = shape(rng, true);
            delega.sections.truncate(1);
            delega.sections[0].lines.truncate(2);
            if !rng.one_in(4) {
                delega.receipts = RECEIPTS[0];
            }
            deleghe.push(delega);
        }
        Size::Tiny => deleghe.push(shape(rng, true)),
        Size::Small => {
            for _ in 0..rng.between(1, 3) {
                let few = rng.one_in(2);
                deleghe.push(shape(rng, few));
            }
        }
        Size::Medium => {
            let records = rng.between(20, 90) as usize;
            deleghe = filled(rng, records);
        }
        Size::Large => {
            let records = rng.between(90, 546) as usize;
            deleghe = filled(rng, records);
        }
        Size::Full => deleghe = filled(rng, MOST_RECORDS),
    }
    finish(rng, deleghe, amounts)
}

/// A plan of exactly this many records, 7 or more.
pub fn plan_of(rng: &mut Rng, records: usize, amounts: Amounts) -> Plan {
    let deleghe = filled(rng, records);
    finish(rng, deleghe, amounts)
}

/// Document 01's printed example, of eight records.
pub fn printed() -> Plan {
    one_by_one(vec![vec![SectionPlan { section: 2, lines: vec![(10_000, 0), (0, 2500)] }]])
}

/// A plan of these sections, one delega after another.
pub fn one_by_one(deleghe: Vec<Vec<SectionPlan>>) -> Plan {
    Plan {
        deleghe: deleghe.into_iter().map(|sections| DelegaPlan { sections, receipts: &[] }).collect(),
        date: *b"100625",
        name: *b"F24-20250610-001    ",
        filler: Filler::Mixed,
    }
}

pub fn finish(rng: &mut Rng, mut deleghe: Vec<DelegaPlan>, amounts: Amounts) -> Plan {
    // What the tail's sum has left. A reserve keeps every section 17 possible.
    let reserve = 28 * MOST_RECORDS as u64;
    let mut left = MOST_AMOUNT - reserve;
    for delega in deleghe.iter_mut() {
        set_amounts(rng, delega, amounts, left, reserve);
        left = left.saturating_sub(delega.balance() as u64);
    }
    if amounts == Amounts::Extreme && rng.one_in(2) {
        top_up(rng, &mut deleghe);
    }
    Plan {
        deleghe,
        date: dates::sound(rng),
        name: name(rng),
        filler: rng.pick(&[Filler::Spaces, Filler::Printable, Filler::Printable, Filler::Digits, Filler::Mixed]),
    }
}

/// Deleghe of exactly `records` - 2 records together.
fn filled(rng: &mut Rng, records: usize) -> Vec<DelegaPlan> {
    let mut left = records - 2;
    let mut deleghe = Vec::new();
    // Now and then as many deleghe as there can be.
    let least = rng.one_in(4);
    while left > 0 {
        let few = rng.one_in(3);
        let mut delega = shape(rng, few);
        if least && !rng.one_in(32) {
            delega.sections.truncate(1);
            delega.sections[0].lines.truncate(1);
            delega.receipts = RECEIPTS[0];
        }
        let size = delega.records();
        if size > left || (left - size > 0 && left - size < 5) {
            // Section 17 has any size from 5 to 34: fill up, or leave five.
            let size = if left <= 34 { left } else { 5.max(left - 34) };
            let after = rng.between(0, 2).min(size as u64 - 5).max(size.saturating_sub(32) as u64) as usize;
            delega = DelegaPlan { sections: vec![empty(IDENTIFYING, size - 4 - after)], receipts: RECEIPTS[after] };
        }
        left -= delega.records();
        deleghe.push(delega);
    }
    deleghe
}

pub fn empty(section: usize, lines: usize) -> SectionPlan {
    SectionPlan { section, lines: vec![(0, 0); lines] }
}

/// A delega whose lines have no amounts yet.
pub fn shape(rng: &mut Rng, few: bool) -> DelegaPlan {
    let receipts = RECEIPTS[rng.place(3)];
    let set = if rng.one_in(4) {
        1 << IDENTIFYING
    } else if few {
        1 << rng.below(4) | 1 << rng.below(4)
    } else {
        rng.between(1, 15)
    };
    DelegaPlan { sections: sections(rng, set, few), receipts }
}

/// The sections of a set, which has a bit for each, with lines that have no
/// amounts yet.
pub fn sections(rng: &mut Rng, set: u64, few: bool) -> Vec<SectionPlan> {
    let used = (0..SECTIONS.len()).filter(|section| set >> section & 1 == 1);
    used.map(|section| {
        let most = SECTIONS[section].most as u64;
        let lines = if few {
            rng.between(1, if section == IDENTIFYING { 3 } else { 2 })
        } else if rng.one_in(4) {
            most
        } else {
            rng.between(1, most)
        };
        empty(section, lines as usize)
    })
    .collect()
}

/// What a section's lines are to add up to, and which of them have a debit
/// (1), a credit (2) or both (3).
struct Goal {
    modes: Vec<u8>,
    debit: u64,
    credit: u64,
}

impl Goal {
    fn with(&self, side: u8) -> u64 {
        self.modes.iter().filter(|&&mode| mode & side != 0).count() as u64
    }
}

/// Gives every line amounts, so that the delega's balance is zero or more and
/// at most `left`, or within the reserve where section 17 has to have some.
fn set_amounts(rng: &mut Rng, delega: &mut DelegaPlan, amounts: Amounts, left: u64, reserve: u64) {
    let most = match rng.below(8) {
        0 => 0,
        1 => rng.wide(left),
        _ => left,
    };
    let mut goals: Vec<Goal> = delega.sections.iter().map(|s| goal(rng, s, amounts)).collect();

    let balance: i64 = goals.iter().map(|g| g.debit as i64 - g.credit as i64).sum();
    if balance < 0 {
        // No section 17 here: turn debits and credits round.
        for goal in goals.iter_mut() {
            std::mem::swap(&mut goal.debit, &mut goal.credit);
            for mode in goal.modes.iter_mut() {
                *mode = *mode >> 1 | (*mode & 1) << 1;
            }
        }
    }
    let most = if delega.identifying() { most.max(28).min(reserve.max(left)) } else { most };
    let mut excess = balance.unsigned_abs().saturating_sub(most);
    let credits_first = rng.one_in(2);
    for credits in [credits_first, !credits_first] {
        for goal in goals.iter_mut() {
            if credits && goal.with(2) > 0 {
                let more = excess.min(MOST_AMOUNT - goal.credit);
                goal.credit += more;
                excess -= more;
            } else if !credits && goal.with(1) > 0 {
                let less = excess.min(goal.debit - goal.with(1));
                goal.debit -= less;
                excess -= less;
            }
        }
    }
    if excess > 0 {
        // Debits alone, and no room for them: equal credits beside them.
        for goal in goals.iter_mut() {
            goal.modes.iter_mut().for_each(|mode| *mode = 3);
            goal.debit = goal.debit.max(goal.credit).max(goal.modes.len() as u64);
            goal.credit = goal.debit;
        }
    }

    for (section, goal) in delega.sections.iter_mut().zip(&goals) {
        let debits = split(rng, goal.debit, goal.with(1));
        let credits = split(rng, goal.credit, goal.with(2));
        let (mut debits, mut credits) = (debits.into_iter(), credits.into_iter());
        for (line, mode) in section.lines.iter_mut().zip(&goal.modes) {
            line.0 = if mode & 1 != 0 { debits.next().unwrap_or(0) } else { 0 };
            line.1 = if mode & 2 != 0 { credits.next().unwrap_or(0) } else { 0 };
        }
    }
}

fn goal(rng: &mut Rng, section: &SectionPlan, amounts: Amounts) -> Goal {
    let style = if section.section == IDENTIFYING { 0 } else { rng.below(20) };
    let modes: Vec<u8> = section
        .lines
        .iter()
        .map(|_| match style {
            0..=7 => 1,
            8..=10 => 2,
            _ => rng.between(1, 3) as u8,
        })
        .collect();
    let mut goal = Goal { modes, debit: 0, credit: 0 };
    let (debits, credits) = (goal.with(1), goal.with(2));
    goal.debit = target(rng, amounts, debits);
    goal.credit = target(rng, amounts, credits);
    if rng.one_in(16) && debits > 0 && credits > 0 {
        goal.credit = goal.debit.max(credits);
        goal.debit = goal.credit.max(debits);
    }
    goal
}

/// What `lines` lines add up to: nothing for none, else at least one each.
fn target(rng: &mut Rng, amounts: Amounts, lines: u64) -> u64 {
    if lines == 0 {
        return 0;
    }
    let sum = match amounts {
        Amounts::Small => lines + rng.below(100),
        Amounts::Middle => lines + rng.below(10_000_000),
        Amounts::Wide => lines + rng.wide(MOST_AMOUNT / 2),
        Amounts::Extreme => match rng.below(4) {
            0 => MOST_AMOUNT,
            1 => MOST_AMOUNT - rng.below(3),
            2 => MOST_AMOUNT - rng.wide(MOST_AMOUNT - 1000),
            _ => lines + rng.wide(MOST_AMOUNT / 2),
        },
    };
    sum.min(MOST_AMOUNT)
}

/// `total` in `parts` parts above zero.
fn split(rng: &mut Rng, total: u64, parts: u64) -> Vec<u64> {
    let mut left = total;
    let mut all = Vec::with_capacity(parts as usize);
    for after in (0..parts).rev() {
        let part = if after == 0 {
            left
        } else if rng.one_in(3) {
            1 + rng.wide(left - after - 1)
        } else {
            1 + rng.below((left - after) / (after + 1) * 2 + 1).min(left - after - 1)
        };
        all.push(part);
        left -= part;
    }
    all
}

/// Raises one debit, so that a total, a final balance or the sum is fifteen
/// nines, where that is possible.
fn top_up(rng: &mut Rng, deleghe: &mut [DelegaPlan]) {
    let sum: i64 = deleghe.iter().map(DelegaPlan::balance).sum();
    let at = rng.place(deleghe.len());
    let delega = &mut deleghe[at];
    let balance = delega.balance();
    let at = rng.place(delega.sections.len());
    let section = &mut delega.sections[at];
    let (debit, credit) = section.sums();
    let most = MOST_AMOUNT as i64;
    let room = (most - sum).min(most - balance).min(most - debit as i64).min(most - (debit as i64 - credit as i64));
    if room > 0 {
        let at = rng.place(section.lines.len());
        section.lines[at].0 += room as u64;
    }
}

/// Twenty printable characters with no "/" and no ":".
fn name(rng: &mut Rng) -> [u8; NAME_WIDTH] {
    let mut name = [b' '; NAME_WIDTH];
    match rng.below(6) {
        0 => (),
        1 => name.copy_from_slice(b"F24-20250610-001    "),
        2 => name = [rng.pick(b".0;9~! A"); NAME_WIDTH],
        3 => name.iter_mut().for_each(|byte| *byte = rng.pick(b".0;9,-")),
        _ => {
            for byte in name.iter_mut() {
                *byte = 32 + rng.below(95) as u8;
                if matches!(byte, b'/' | b':') {
                    *byte = b'~';
                }
            }
        }
    }
    name
}

/// A flow as bytes, with the kind of each of its records.
#[derive(Clone)]
pub struct Flow {
    pub bytes: Vec<u8>,
    pub kinds: Vec<Kind>,
}

impl Flow {
    pub fn record(&mut self, at: usize) -> &mut [u8] {
        &mut self.bytes[at * RECORD..(at + 1) * RECORD]
    }

    pub fn insert(&mut self, at: usize, record: [u8; RECORD], kind: Kind) {
        self.bytes.splice(at * RECORD..at * RECORD, record.iter().copied());
        self.kinds.insert(at, kind);
    }

    pub fn remove(&mut self, at: usize) {
        self.bytes.drain(at * RECORD..(at + 1) * RECORD);
        self.kinds.remove(at);
    }

    pub fn copy_of(&self, at: usize) -> [u8; RECORD] {
        let mut record = [0; RECORD];
        record.copy_from_slice(&self.bytes[at * RECORD..(at + 1) * RECORD]);
        record
    }

    pub fn swap(&mut self, a: usize, b: usize) {
        let (first, second) = (self.copy_of(a), self.copy_of(b));
        self.record(a).copy_from_slice(&second);
        self.record(b).copy_from_slice(&first);
        self.kinds.swap(a, b);
    }
}

/// Random characters from which records take their fillers.
pub struct Pool {
    printable: Vec<u8>,
    digits: Vec<u8>,
}

impl Pool {
    pub fn new(seed: u64) -> Self {
        let mut rng = Rng::new(seed, 1000, 0);
        Pool {
            printable: (0..1 << 16).map(|_| 32 + rng.below(95) as u8).collect(),
            digits: (0..1 << 14).map(|_| b'0' + rng.below(10) as u8).collect(),
        }
    }

    fn part<'a>(&'a self, rng: &mut Rng, filler: Filler) -> &'a [u8] {
        let from = match filler {
            Filler::Spaces => return &[b' '; RECORD],
            Filler::Printable => &self.printable,
            Filler::Digits => &self.digits,
            Filler::Mixed => {
                let filler = rng.pick(&[Filler::Spaces, Filler::Printable, Filler::Digits]);
                return self.part(rng, filler);
            }
        };
        let start = rng.place(from.len() - RECORD);
        &from[start..start + RECORD]
    }
}

struct Writer<'a> {
    flow: Flow,
    /// Deleghe written so far, and the sum of their balances.
    deleghe: u64,
    sum: i64,
    rng: &'a mut Rng,
    pool: &'a Pool,
    filler: Filler,
}

impl<'a> Writer<'a> {
    /// One that has written the head.
    fn new(rng: &'a mut Rng, pool: &'a Pool, plan: &Plan) -> Self {
        let flow = Flow { bytes: Vec::with_capacity(2048), kinds: Vec::with_capacity(32) };
        let mut w = Writer { flow, deleghe: 0, sum: 0, rng, pool, filler: plan.filler };
        let head = w.record(Head);
        head[DATE - 1..DATE - 1 + DAY].copy_from_slice(&plan.date);
        head[NAME - 1..NAME - 1 + NAME_WIDTH].copy_from_slice(&plan.name);
        w
    }

    fn record(&mut self, kind: Kind) -> &mut [u8] {
        let start = self.flow.bytes.len();
        let filler = self.pool.part(self.rng, self.filler);
        self.flow.bytes.extend_from_slice(filler);
        self.flow.kinds.push(kind);
        let record = &mut self.flow.bytes[start..];
        record[TYPE - 1..TYPE + 1].copy_from_slice(&kind.type_bytes());
        if !matches!(kind, Head | Tail) {
            put(record, DELEGA, COUNT, self.deleghe);
        }
        if let Some(subtype) = kind.subtype() {
            put(record, SUBTYPE, 2, subtype);
        }
        record
    }

    /// The next delega.
    fn delega(&mut self, delega: &DelegaPlan) {
        self.deleghe += 1;
        let code = codes::sound(self.rng);
        codes::set(self.record(Payer), &code);
        self.record(Domicile);
        for section in &delega.sections {
            self.section(section);
        }
        let balance = delega.balance();
        self.sum += balance;
        put(self.record(Payment), FINAL_BALANCE, AMOUNT, balance.unsigned_abs());
        for &kind in delega.receipts {
            self.record(kind);
        }
    }

    fn section(&mut self, section: &SectionPlan) {
        let columns = &SECTIONS[section.section];
        for &(debit, credit) in &section.lines {
            let record = self.record(Line(section.section));
            put(record, columns.debit, AMOUNT, debit);
            put(record, columns.credit, AMOUNT, credit);
        }
        let (debit, credit) = section.sums();
        let record = self.record(Balance(section.section));
        if let Some((at_debit, at_credit)) = columns.totals {
            put(record, at_debit, AMOUNT, debit);
            put(record, at_credit, AMOUNT, credit);
        }
        record[columns.sign - 1] = if debit < credit { b'N' } else { b'P' };
        put(record, columns.balance, AMOUNT, debit.abs_diff(credit));
    }

    fn tail(mut self, plan: &Plan) -> Flow {
        let records = self.flow.kinds.len() as u64 + 1;
        let (deleghe, sum) = (self.deleghe, self.sum.unsigned_abs());
        let tail = self.record(Tail);
        tail[NAME - 1..NAME - 1 + NAME_WIDTH].copy_from_slice(&plan.name);
        put(tail, TAIL_DELEGHE, COUNT, deleghe);
        put(tail, TAIL_SUM, AMOUNT, sum);
        put(tail, TAIL_RECORDS, COUNT, records);
        self.flow
    }
}

/// The records of a plan. A sum that needs more than fifteen digits is cut to
/// its last fifteen; a plan that is sound has none.
pub fn write(rng: &mut Rng, pool: &Pool, plan: &Plan) -> Flow {
    let mut w = Writer::new(rng, pool, plan);
    plan.deleghe.iter().for_each(|delega| w.delega(delega));
    w.tail(plan)
}

/// The records of a plan, of those deleghe alone whose places are kept. Fillers and
/// tax codes hang on the seed and on a delega's place in the plan: what is written of
/// one is the same, but for its number, whichever others are there.
pub fn write_kept(seed: u64, pool: &Pool, plan: &Plan, kept: impl Fn(usize) -> bool) -> Flow {
    write_placed(seed, pool, plan, plan.deleghe.iter().enumerate().filter(|&(place, _)| kept(place)))
}

/// The same of these deleghe, each with the place that it had in the plan.
pub fn write_placed<'a>(
    seed: u64,
    pool: &Pool,
    plan: &Plan,
    deleghe: impl Iterator<Item = (usize, &'a DelegaPlan)>,
) -> Flow {
    let mut rng = Rng::new(seed, 26, 0);
    let mut w = Writer::new(&mut rng, pool, plan);
    for (place, delega) in deleghe {
        *w.rng = Rng::new(seed, 27, place as u64);
        w.delega(delega);
    }
    *w.rng = Rng::new(seed, 26, 1);
    w.tail(plan)
}

/// Writes the last `width` digits of a number at a position counted from 1.
pub fn put(record: &mut [u8], position: usize, width: usize, mut value: u64) {
    for byte in record[position - 1..position - 1 + width].iter_mut().rev() {
        *byte = b'0' + (value % 10) as u8;
        value /= 10;
    }
}

/// The number at a position, non-digits taken as zeros.
pub fn get(record: &[u8], position: usize, width: usize) -> u64 {
    record[position - 1..position - 1 + width].iter().fold(0, |value, byte| {
        let digit = if byte.is_ascii_digit() { byte - b'0' } else { 0 };
        10 * value + u64::from(digit)
    })
}
