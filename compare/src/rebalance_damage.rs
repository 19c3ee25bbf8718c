//! Flows to be rebalanced: sound ones, those with wrong stored fields, those with
//! other faults before, behind and among these, and those whose sums do not fit.
//! Of most the generator knows from their plan what comes of them.

use crate::calls::CHANGED_MOST;
use crate::columns::{Kind::*, *};
use crate::damage;
use crate::mended::Account;
use crate::rng::Rng;
use crate::sound::{self, Amounts, DelegaPlan, Flow, Plan, Pool, SectionPlan, Size};

/// What the plan says.
pub enum Known {
    /// The flow afterwards, where the list is long enough.
    Flow(Vec<u8>),
    /// Number, record and position.
    Refused([u64; 3]),
}

/// A flow, and what the plan says of it, where it does.
pub struct Made {
    pub flow: Vec<u8>,
    pub known: Option<Known>,
}

/// A flow to be rebalanced.
pub struct Case {
    pub made: Made,
    /// How many numbers the list has.
    pub list: usize,
    pub account: Account,
    /// The place of its sort; a flow from a file has none.
    pub sort: Option<usize>,
}

type Make = fn(&mut Rng, &Pool, Size) -> Made;

/// The sorts of flows, each drawn alike.
pub const SORTS: [(Make, &str); 16] = [
    (untouched, "sound"),
    (one_field, "one field wrong"),
    (some_fields, "some fields wrong"),
    (many_fields, "many fields wrong"),
    (all_fields, "all fields alike"),
    (one_record, "the fields of one record"),
    (other_lines, "lines changed after balancing"),
    (other_records, "a line or a delega more or fewer"),
    (bad_byte, "a bad byte in a field"),
    (fault, "another fault"),
    (fault_and_fields, "another fault, fields wrong"),
    (faults_and_fields, "two faults, fields wrong"),
    (too_large, "sums that do not fit"),
    (too_large_and_fault, "these and another fault"),
    (too_large_and_negative, "these and a negative delega"),
    (any, "any damages"),
];

pub fn any_case(rng: &mut Rng, pool: &Pool) -> Case {
    let size = match rng.below(1000) {
        0..=149 => Size::Least,
        150..=579 => Size::Tiny,
        580..=899 => Size::Small,
        900..=984 => Size::Medium,
        985..=994 => Size::Large,
        _ => Size::Full,
    };
    case_of(rng, pool, size)
}

/// The same with the size given.
pub fn case_of(rng: &mut Rng, pool: &Pool, size: Size) -> Case {
    let sort = rng.place(SORTS.len());
    let made = (SORTS[sort].0)(rng, pool, size);
    let account = Account::of(&made.flow);
    let list = list(rng, account.changed.len());
    Case { made, list, account, sort: Some(sort) }
}

/// The length of a list where so many fields change, or would.
pub fn list(rng: &mut Rng, fields: usize) -> usize {
    let exact = 2 * fields;
    match rng.below(16) {
        0 | 1 => 0,
        2 => 1,
        3 => exact.saturating_sub(2),
        4 | 5 => exact.saturating_sub(1),
        6..=8 => exact,
        9 | 10 => exact + 1,
        11 => exact + 2,
        12 => exact + rng.place(20),
        13 => rng.place(exact + 1),
        14 => rng.pick(&[CHANGED_MOST, CHANGED_MOST, CHANGED_MOST - 1, CHANGED_MOST + 1]),
        _ => rng.pick(&[2, 3, 4, 8, 9]),
    }
}

// ------------------------------------------------------------ stored fields

/// Place of the record, start and width of every stored field.
fn fields(flow: &Flow) -> Vec<(usize, usize, usize)> {
    let of = |(at, kind): (usize, &Kind)| kind.stored().iter().map(move |&(start, width)| (at, start, width));
    flow.kinds.iter().enumerate().flat_map(of).collect()
}

/// Puts something else into a stored field, now and then the same again.
fn spoil(rng: &mut Rng, record: &mut [u8], start: usize, width: usize) {
    let field = &mut record[start - 1..start - 1 + width];
    if width == 1 {
        field[0] = match (rng.below(4), field[0]) {
            (0, _) => rng.pick(b" pn+-0DCOMQ~"),
            (1, _) => 32 + rng.below(95) as u8,
            (_, b'P') => b'N',
            _ => b'P',
        };
        return;
    }
    match rng.below(12) {
        0..=4 => drop(damage::bend(rng, record, start, width)),
        5 => field[rng.place(width)] = b'0' + rng.below(10) as u8,
        6 => field.iter_mut().for_each(|byte| *byte = b'0' + rng.below(10) as u8),
        7 | 8 => damage::spoil(rng, record, &[(start, width)]),
        9 => field.fill(b' '),
        10 => field.iter_mut().for_each(|byte| *byte = 32 + rng.below(95) as u8),
        _ => field.rotate_left(1),
    }
}

/// Spoils up to so many stored fields.
pub fn spoil_some(rng: &mut Rng, flow: &mut Flow, most: u64) {
    let all = fields(flow);
    for _ in 0..rng.between(1, most) {
        let (at, start, width) = rng.pick(&all);
        spoil(rng, flow.record(at), start, width);
    }
}

/// A flow of some plan, and its stored fields spoiled by something.
fn spoiled(rng: &mut Rng, pool: &Pool, size: Size, how: impl FnOnce(&mut Rng, &mut Flow)) -> Made {
    let plan = sound::plan(rng, size);
    spoiled_plan(rng, pool, &plan, how)
}

fn spoiled_plan(rng: &mut Rng, pool: &Pool, plan: &Plan, how: impl FnOnce(&mut Rng, &mut Flow)) -> Made {
    let mut flow = sound::write(rng, pool, plan);
    let known = Some(Known::Flow(flow.bytes.clone()));
    how(rng, &mut flow);
    Made { flow: flow.bytes, known }
}

fn untouched(rng: &mut Rng, pool: &Pool, size: Size) -> Made {
    spoiled(rng, pool, size, |_, _| ())
}

fn one_field(rng: &mut Rng, pool: &Pool, size: Size) -> Made {
    spoiled(rng, pool, size, |rng, flow| spoil_some(rng, flow, 1))
}

fn some_fields(rng: &mut Rng, pool: &Pool, size: Size) -> Made {
    spoiled(rng, pool, size, |rng, flow| spoil_some(rng, flow, 8))
}

fn many_fields(rng: &mut Rng, pool: &Pool, size: Size) -> Made {
    let most = rng.between(1, 4);
    spoiled(rng, pool, size, |rng, flow| {
        for (at, start, width) in fields(flow) {
            if rng.below(4) < most {
                spoil(rng, flow.record(at), start, width);
            }
        }
    })
}

/// Every one full of a character, mostly of blanks, or all but one.
fn all_fields(rng: &mut Rng, pool: &Pool, size: Size) -> Made {
    let byte = if rng.one_in(2) { b' ' } else { rng.pick(b"0019PNx~!") };
    let plan = if size == Size::Full && rng.one_in(2) { most_fields(rng) } else { sound::plan(rng, size) };
    spoiled_plan(rng, pool, &plan, |rng, flow| {
        let all = fields(flow);
        let left = if rng.one_in(3) { rng.place(all.len()) } else { all.len() };
        for (nth, &(at, start, width)) in all.iter().enumerate() {
            if nth != left {
                flow.record(at)[start - 1..start - 1 + width].fill(byte);
            }
        }
    })
}

/// As many stored fields as 546 records can hold: deleghe of four sections of one
/// line, and one of a single line.
fn most_fields(rng: &mut Rng) -> Plan {
    let whole = (MOST_RECORDS - 2) / 11;
    let delega = |sections: usize| DelegaPlan {
        sections: (0..sections).map(|section| sound::empty(section, 1)).collect(),
        receipts: &[],
    };
    let deleghe = (0..=whole).map(|nth| delega(if nth < whole { 4 } else { 1 })).collect();
    sound::finish(rng, deleghe, Amounts::Wide)
}

/// Those of one record, often of the tail.
fn one_record(rng: &mut Rng, pool: &Pool, size: Size) -> Made {
    spoiled(rng, pool, size, |rng, flow| {
        let all = fields(flow);
        let (one, _, _) = if rng.one_in(3) { all[all.len() - 1] } else { rng.pick(&all) };
        for &(at, start, width) in all.iter().filter(|field| field.0 == one) {
            spoil(rng, flow.record(at), start, width);
        }
    })
}

/// A byte that no record may have, in a stored field; others may be wrong besides.
fn bad_byte(rng: &mut Rng, pool: &Pool, size: Size) -> Made {
    let mut made = spoiled(rng, pool, size, |rng, flow| {
        if rng.one_in(2) {
            spoil_some(rng, flow, 5);
        }
        let all = fields(flow);
        for _ in 0..if rng.one_in(3) { 2 } else { 1 } {
            let (at, start, width) = rng.pick(&all);
            let byte = match rng.below(3) {
                0 => rng.pick(&[0, 9, 10, 31, 127, 128, 160, 255]),
                1 => rng.below(32) as u8,
                _ => rng.between(127, 255) as u8,
            };
            flow.record(at)[start - 1 + rng.place(width)] = byte;
        }
    });
    let first = made.flow.iter().position(|byte| !(32..=126).contains(byte)).expect("a bad byte was put in");
    made.known = Some(Known::Refused([3, (first / RECORD + 1) as u64, (first % RECORD + 1) as u64]));
    made
}

// ------------------------------------------------------------------- plans

/// What a plan whose records are sound comes to: 1, 14 at the first negative
/// delega, then 23, then the flow.
fn says(plan: &Plan, flow: &[u8]) -> Known {
    if flow.len() > MOST_BYTES {
        return Known::Refused([1, 0, 0]);
    }
    let mut record = 1;
    for delega in &plan.deleghe {
        if delega.balance() < 0 {
            let payment = record + delega.records() - delega.receipts.len();
            return Known::Refused([14, payment as u64, TYPE as u64]);
        }
        record += delega.records();
    }
    let large = |sums: (u64, u64)| sums.0 > MOST_AMOUNT || sums.1 > MOST_AMOUNT;
    let most = MOST_AMOUNT as i64;
    let balances = || plan.deleghe.iter().map(DelegaPlan::balance);
    let sections = || plan.deleghe.iter().flat_map(|delega| &delega.sections);
    if sections().any(|section| large(section.sums())) || balances().any(|b| b > most) || balances().sum::<i64>() > most
    {
        return Known::Refused([23, 0, 0]);
    }
    Known::Flow(flow.to_vec())
}

/// The user's own story: some lines have other amounts than those that everything
/// behind them was worked out from.
fn other_lines(rng: &mut Rng, pool: &Pool, size: Size) -> Made {
    let mut plan = sound::plan(rng, size);
    let fillers = rng.next();
    let write = |plan: &Plan| sound::write(&mut Rng::new(fillers, 24, 0), pool, plan);
    let before = write(&plan);
    for _ in 0..rng.pick(&[1, 1, 1, 2, 5]) {
        let delega = rng.place(plan.deleghe.len());
        let sections = &mut plan.deleghe[delega].sections;
        let section = rng.place(sections.len());
        let SectionPlan { section, lines } = &mut sections[section];
        let line = rng.place(lines.len());
        lines[line] = other_amounts(rng, *section, lines[line]);
    }
    let after = write(&plan);
    let known = Some(says(&plan, &after.bytes));
    let mut flow = after;
    for (at, start, width) in fields(&flow) {
        let field = start - 1..start - 1 + width;
        let old = before.bytes[at * RECORD..(at + 1) * RECORD][field.clone()].to_vec();
        flow.record(at)[field].copy_from_slice(&old);
    }
    Made { flow: flow.bytes, known }
}

/// Amounts that keep the line rule.
pub fn other_amounts(rng: &mut Rng, section: usize, (debit, credit): (u64, u64)) -> (u64, u64) {
    let more = |rng: &mut Rng, amount: u64| amount + rng.wide(MOST_AMOUNT - amount).min(rng.wide(1 << 40));
    let (debit, credit) = match rng.below(8) {
        0 => (credit, debit),
        1 => (debit, more(rng, credit)),
        2 => (debit / 2, credit),
        3 => (debit, credit / 2),
        4 => (debit, 0),
        _ => (more(rng, debit), credit),
    };
    match (section, debit, credit) {
        (IDENTIFYING, 0, _) => (1, 0),
        (IDENTIFYING, _, _) => (debit, 0),
        (_, 0, 0) => (1, 0),
        _ => (debit, credit),
    }
}

/// A line was taken out or put in, or the last delega taken out: its section, its
/// delega and the tail's counts are wrong.
fn other_records(rng: &mut Rng, pool: &Pool, size: Size) -> Made {
    let mut plan = sound::plan(rng, size);
    let mut flow = sound::write(rng, pool, &plan);
    let at = rng.place(plan.deleghe.len());
    let first: usize = 1 + plan.deleghe[..at].iter().map(DelegaPlan::records).sum::<usize>();
    if plan.deleghe.len() > 1 && rng.one_in(4) {
        let last = plan.deleghe.pop().map_or(0, |delega| delega.records());
        for _ in 0..last {
            flow.remove(flow.kinds.len() - 2);
        }
    } else {
        let sections = &mut plan.deleghe[at].sections;
        let nth = rng.place(sections.len());
        let before: usize = sections[..nth].iter().map(|section| section.lines.len() + 1).sum();
        let SectionPlan { section, lines } = &mut sections[nth];
        let line = rng.place(lines.len());
        let record = first + 2 + before + line;
        let more = lines.len() < SECTIONS[*section].most && flow.kinds.len() < MOST_RECORDS;
        if lines.len() > 1 && (!more || rng.one_in(2)) {
            lines.remove(line);
            flow.remove(record);
        } else if more {
            lines.insert(line, lines[line]);
            let (again, kind) = (flow.copy_of(record), flow.kinds[record]);
            flow.insert(record, again, kind);
        }
    }
    // The values are those of the plan as it is now, all else is as it was.
    let right = sound::write(&mut Rng::new(0, 24, 0), pool, &plan);
    let mut after = flow.clone();
    for (at, start, width) in fields(&flow) {
        let field = at * RECORD + start - 1..at * RECORD + start - 1 + width;
        after.bytes[field.clone()].copy_from_slice(&right.bytes[field]);
    }
    let known = Some(says(&plan, &after.bytes));
    Made { flow: flow.bytes, known }
}

// ------------------------------------------------------------- other faults

/// What a damage may aim at besides: the refusals that remain, each alike but for
/// 7, which has many places, and 16, which has two records.
const AIMS: [u64; 15] = [1, 2, 3, 4, 5, 6, 7, 7, 8, 9, 14, 16, 16, 17, 26];

/// The plan's flow with so many faults that remain, its stored fields spoiled
/// before them.
fn faulty(rng: &mut Rng, pool: &Pool, mut plan: Plan, faults: u64, spoiled: u64) -> Made {
    let mut left = Vec::new();
    for _ in 0..faults {
        let aim = rng.pick(&AIMS);
        if !damage::in_plan(rng, &mut plan, aim) {
            left.push(aim);
        }
    }
    let mut flow = sound::write(rng, pool, &plan);
    if spoiled > 0 {
        spoil_some(rng, &mut flow, spoiled);
    }
    for &aim in left.iter().filter(|&&aim| aim > 2) {
        match aim {
            7 => non_digit(rng, &mut flow),
            _ => damage::in_records(rng, &mut flow, aim),
        }
    }
    for &aim in left.iter().filter(|&&aim| aim <= 2) {
        damage::in_length(rng, pool, &mut flow.bytes, aim);
    }
    Made { flow: flow.bytes, known: None }
}

/// Non-digits in a numeric field that is not stored.
fn non_digit(rng: &mut Rng, flow: &mut Flow) {
    let kept = |kind: Kind| -> Vec<(usize, usize)> {
        kind.numeric().into_iter().filter(|field| !kind.stored().contains(field)).collect()
    };
    let wanted: fn(Kind) -> bool = match rng.below(4) {
        0 => |kind| kind == Head,
        1 => |kind| matches!(kind, Balance(_) | Payment),
        2 => |kind| matches!(kind, Line(_)),
        _ => |kind| kind != Tail,
    };
    let places: Vec<usize> = (0..flow.kinds.len()).filter(|&at| wanted(flow.kinds[at])).collect();
    if !places.is_empty() {
        let at = rng.pick(&places);
        let kind = flow.kinds[at];
        if kind != Tail {
            damage::spoil(rng, flow.record(at), &kept(kind));
        }
    }
}

fn fault(rng: &mut Rng, pool: &Pool, size: Size) -> Made {
    let plan = sound::plan(rng, size);
    faulty(rng, pool, plan, 1, 0)
}

fn fault_and_fields(rng: &mut Rng, pool: &Pool, size: Size) -> Made {
    let plan = sound::plan(rng, size);
    faulty(rng, pool, plan, 1, 12)
}

fn faults_and_fields(rng: &mut Rng, pool: &Pool, size: Size) -> Made {
    let plan = sound::plan(rng, size);
    faulty(rng, pool, plan, 2, 8)
}

/// A plan of which some value has sixteen digits, mostly.
pub fn large_plan(rng: &mut Rng, size: Size) -> Plan {
    let amounts = rng.pick(&[Amounts::Small, Amounts::Middle, Amounts::Extreme]);
    let mut plan = sound::plan_with(rng, size, amounts);
    let at = rng.place(plan.deleghe.len());
    if rng.one_in(3) {
        plan.deleghe[at].sections = one_total(rng);
        return plan;
    }
    let aim = rng.pick(&[10, 11, 13, 15, 15, 20, 20]);
    if !damage::too_large(rng, &mut plan, at, aim) {
        damage::too_large(rng, &mut plan, at, 10);
    }
    plan
}

/// Sections of which one total has sixteen digits, by a cent or more, and nothing
/// else of the delega has.
fn one_total(rng: &mut Rng) -> Vec<SectionPlan> {
    let over = if rng.one_in(2) { 1 } else { 1 + rng.wide(1_000_000) };
    if rng.one_in(2) {
        let lines = vec![(MOST_AMOUNT, MOST_AMOUNT), (over, 0)];
        return vec![SectionPlan { section: rng.place(4), lines }];
    }
    let first = rng.place(3);
    let section = first + 1 + rng.place(3 - first);
    let lines = vec![(over, MOST_AMOUNT), (MOST_AMOUNT - over, over)];
    vec![SectionPlan { section: first, lines: vec![(over + rng.below(3), 0)] }, SectionPlan { section, lines }]
}

fn too_large(rng: &mut Rng, pool: &Pool, size: Size) -> Made {
    let plan = large_plan(rng, size);
    let mut flow = sound::write(rng, pool, &plan);
    let known = Some(says(&plan, &flow.bytes));
    if rng.one_in(2) {
        spoil_some(rng, &mut flow, 8);
    }
    Made { flow: flow.bytes, known }
}

fn too_large_and_fault(rng: &mut Rng, pool: &Pool, size: Size) -> Made {
    let plan = large_plan(rng, size);
    let spoiled = rng.below(6);
    faulty(rng, pool, plan, 1, spoiled)
}

fn too_large_and_negative(rng: &mut Rng, pool: &Pool, size: Size) -> Made {
    let mut plan = large_plan(rng, size);
    damage::negative(rng, &mut plan);
    let mut flow = sound::write(rng, pool, &plan);
    let known = Some(says(&plan, &flow.bytes)).filter(|_| amounts_fit(&plan));
    if rng.one_in(2) {
        spoil_some(rng, &mut flow, 8);
    }
    Made { flow: flow.bytes, known }
}

/// Whether every amount has a field that holds it.
fn amounts_fit(plan: &Plan) -> bool {
    let lines = plan.deleghe.iter().flat_map(|delega| &delega.sections).flat_map(|section| &section.lines);
    lines.into_iter().all(|&(debit, credit)| debit.max(credit) <= MOST_AMOUNT)
}

/// What a judgement is tried with, the same sizes aside.
fn any(rng: &mut Rng, pool: &Pool, size: Size) -> Made {
    Made { flow: damage::flow_of(rng, pool, size).flow, known: None }
}
