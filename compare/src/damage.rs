//! Damaged flows. A damage aims at a refusal; what the flow is then answered
//! is for the library and the reference to say, since damages meet. Where
//! nothing but the date and tax codes was damaged the generator knows it too.

use crate::codes;
use crate::columns::{Kind::*, *};
use crate::dates;
use crate::heads;
use crate::payers;
use crate::rng::Rng;
use crate::sound::{get, plan, put, write, DelegaPlan, Flow, Plan, Pool, SectionPlan, Size};

/// A flow to be judged.
pub struct Made {
    pub flow: Vec<u8>,
    /// The number that the generator says, where it knows it.
    pub known: Option<u64>,
}

/// What a damage may aim at: the refusals of a judgement, each alike but for 7,
/// which has many places, and 26, which is come by in ten ways.
#[rustfmt::skip]
pub const AIMS: [u64; 23] = [1, 2, 3, 4, 5, 6, 7, 7, 8, 9, 10, 11, 12, 13, 14, 15, 16, 17, 18, 19, 20, 26, 26];

/// A flow that is sound, damaged in one place or more, or wild.
pub fn any_flow(rng: &mut Rng, pool: &Pool) -> Made {
    let size = match rng.below(1000) {
        0..=99 => Size::Least,
        100..=529 => Size::Tiny,
        530..=849 => Size::Small,
        850..=979 => Size::Medium,
        980..=994 => Size::Large,
        _ => Size::Full,
    };
    flow_of(rng, pool, size)
}

/// The same with the size given.
pub fn flow_of(rng: &mut Rng, pool: &Pool, size: Size) -> Made {
    let plan = plan(rng, size);
    match rng.below(100) {
        0..=11 => Made { flow: write(rng, pool, &plan).bytes, known: Some(0) },
        12..=17 => Made { flow: wild(rng, pool, &plan), known: None },
        18..=79 => damaged(rng, pool, plan, 1),
        80..=91 => damaged(rng, pool, plan, 2),
        _ => {
            let damages = rng.between(3, 5);
            damaged(rng, pool, plan, damages)
        }
    }
}

/// A flow damaged this many times.
pub fn damaged(rng: &mut Rng, pool: &Pool, mut plan: Plan, damages: u64) -> Made {
    let mut left = Vec::new();
    for _ in 0..damages {
        let aim = rng.pick(&AIMS);
        if !in_plan(rng, &mut plan, aim) {
            left.push(aim);
        }
    }
    let mut flow = write(rng, pool, &plan);
    for &aim in left.iter().filter(|&&aim| aim > 2) {
        in_records(rng, &mut flow, aim);
    }
    if left.contains(&26) && rng.one_in(8) {
        behind_payer(rng, &mut flow);
    }
    for &aim in left.iter().filter(|&&aim| aim <= 2) {
        in_length(rng, pool, &mut flow.bytes, aim);
    }
    // Nothing is wrong but in records whose faults the generator knows.
    let alone = left.len() as u64 == damages && left.iter().all(|&aim| matches!(aim, 17 | 26));
    let known = alone.then(|| fault(&flow).unwrap_or(0));
    Made { flow: flow.bytes, known }
}

/// The number of the first fault in the head and the records 10, in a flow whose
/// records stand where they may.
fn fault(flow: &Flow) -> Option<u64> {
    let head = heads::fault(&flow.bytes[..RECORD]).map(|(number, _)| number);
    head.or_else(|| payer_fault(flow).map(|(_, number)| number))
}

/// The record of the first in the records 10 alone, and its number.
fn payer_fault(flow: &Flow) -> Option<(usize, u64)> {
    let slots = flow.kinds.iter().copied().zip(flow.bytes.chunks_exact(RECORD));
    payers::fault(&payers::in_slots(slots, false))
}

/// Something wrong in the record behind the first record 10 that is refused, so
/// that nobody may come to it.
fn behind_payer(rng: &mut Rng, flow: &mut Flow) {
    let behind = payer_fault(flow).map(|(at, _)| at).filter(|&at| at < flow.kinds.len());
    if let Some(at) = behind {
        codes::spoil_otherwise(rng, flow.record(at));
    }
}

/// Damages that leave all other numbers right. Tells whether it did one.
pub fn in_plan(rng: &mut Rng, plan: &mut Plan, aim: u64) -> bool {
    if plan.deleghe.is_empty() {
        return false;
    }
    let at = rng.place(plan.deleghe.len());
    match aim {
        4 if rng.one_in(3) => order(rng, plan, at),
        6 if !rng.one_in(4) => too_many_lines(rng, &mut plan.deleghe[at]),
        9 if rng.one_in(2) => line_rule(rng, &mut plan.deleghe[at]),
        10 | 11 | 13 | 15 | 20 if rng.one_in(5) => return too_large(rng, plan, at, aim),
        14 => return negative(rng, plan),
        _ => return false,
    }
    true
}

/// Sections and receipts that may not stand where they do.
fn order(rng: &mut Rng, plan: &mut Plan, at: usize) {
    let delega = &mut plan.deleghe[at];
    let sections = delega.sections.len();
    match rng.below(8) {
        0 => delega.sections.clear(),
        1 if sections > 0 => {
            let one = rng.place(sections);
            let again = delega.sections[one].clone();
            let to = rng.place(sections + 1);
            delega.sections.insert(to, again);
        }
        2 if sections > 0 => {
            let (a, b) = (rng.place(sections), rng.place(sections));
            delega.sections.swap(a, b);
        }
        1 | 2 | 3 => {
            let section = rng.place(5);
            let to = rng.place(sections + 1);
            delega.sections.insert(to, SectionPlan { section, lines: vec![(5, 0)] });
        }
        4 => delega.receipts = &[Addressee],
        5 => delega.receipts = &[Receipt, Receipt],
        6 => {
            delega.receipts =
                rng.pick::<&'static [Kind]>(&[&[Receipt, Addressee, Addressee], &[Payment], &[Receipt, Payment]])
        }
        _ => plan.deleghe.clear(),
    }
}

fn section_of<'a>(rng: &mut Rng, delega: &'a mut DelegaPlan) -> Option<&'a mut SectionPlan> {
    match delega.sections.len() {
        0 => None,
        sections => Some(&mut delega.sections[rng.place(sections)]),
    }
}

pub fn too_many_lines(rng: &mut Rng, delega: &mut DelegaPlan) {
    if let Some(section) = section_of(rng, delega) {
        let lines = SECTIONS[section.section].most + if rng.one_in(2) { 0 } else { rng.place(4) } + 1;
        while section.lines.len() < lines {
            section.lines.push((rng.between(1, 9), 0));
        }
    }
}

/// Both amounts zero, or a credit in section 17.
pub fn line_rule(rng: &mut Rng, delega: &mut DelegaPlan) {
    if let Some(section) = section_of(rng, delega) {
        let line = rng.place(section.lines.len());
        let credit = 1 + rng.wide(1000);
        section.lines[line] = match (section.section, rng.below(3)) {
            (IDENTIFYING, 0) => (0, credit),
            (IDENTIFYING, 1) => (section.lines[line].0, credit),
            _ => (0, 0),
        };
    }
}

/// A total, balance, final balance or sum that needs more than fifteen digits;
/// the field holds its last fifteen.
pub fn too_large(rng: &mut Rng, plan: &mut Plan, at: usize, aim: u64) -> bool {
    let over = if rng.one_in(2) { 0 } else { rng.wide(MOST_AMOUNT - 1) };
    if aim == 20 {
        // Each final balance fits, their sum does not.
        if plan.deleghe.len() < 2 {
            let again = plan.deleghe[0].clone();
            plan.deleghe.push(again);
        }
        let last = plan.deleghe.len() - 1;
        only(&mut plan.deleghe[0], MOST_AMOUNT);
        only(&mut plan.deleghe[last], over + 1);
        return true;
    }
    let delega = &mut plan.deleghe[at];
    if delega.sections.is_empty() {
        return false;
    }
    if aim == 15 {
        // Each section fits, the delega does not.
        if delega.sections.len() < 2 {
            return false;
        }
        for section in delega.sections.iter_mut() {
            section.lines.iter_mut().for_each(|line| *line = (1, 0));
        }
        let lines = delega.sections[0].lines.len() as u64;
        delega.sections[0].lines[0].0 = MOST_AMOUNT - lines + 1;
        delega.sections[1].lines[0].0 = over + 1;
        return true;
    }
    let one = rng.place(delega.sections.len());
    let section = &mut delega.sections[one];
    if section.lines.len() < 2 {
        section.lines.push((0, 0));
    }
    let credit = aim == 11 && section.section != IDENTIFYING;
    let amounts = |debit: u64| if credit { (1, debit) } else { (debit, 0) };
    section.lines[0] = amounts(MOST_AMOUNT);
    section.lines[1] = amounts(over + 1);
    true
}

/// A delega of this balance and nothing else, its shape kept.
fn only(delega: &mut DelegaPlan, balance: u64) {
    let mut first = true;
    for section in delega.sections.iter_mut() {
        let identifying = section.section == IDENTIFYING;
        if identifying {
            section.lines.truncate(1);
        }
        for line in section.lines.iter_mut() {
            *line = if first { (balance, 0) } else { (7, 7) };
            first = false;
        }
    }
    // The other lines of the first section would carry its total too far.
    if let Some(section) = delega.sections.first_mut() {
        section.lines.truncate(1);
    }
}

/// A delega whose credits are above its debits, often by one cent.
pub fn negative(rng: &mut Rng, plan: &mut Plan) -> bool {
    let start = rng.place(plan.deleghe.len());
    let count = plan.deleghe.len();
    for delega in (0..count).map(|k| (start + k) % count) {
        let delega = &mut plan.deleghe[delega];
        if delega.identifying() || delega.sections.is_empty() {
            continue;
        }
        let balance = delega.balance().max(0) as u64;
        let below = if rng.one_in(2) { 1 } else { 1 + rng.wide(10_000) };
        let one = rng.place(delega.sections.len());
        let section = &mut delega.sections[one];
        let line = rng.place(section.lines.len());
        section.lines[line].1 = section.lines[line].1 + balance + below;
        return true;
    }
    // Section 17 alone: give the first delega another section.
    let lines = vec![(0, 1 + rng.wide(1000))];
    plan.deleghe[start].sections = vec![SectionPlan { section: rng.place(4), lines }];
    true
}

pub fn in_length(rng: &mut Rng, pool: &Pool, bytes: &mut Vec<u8>, aim: u64) {
    if aim == 1 {
        let length = match rng.below(4) {
            0 => MOST_BYTES + 1,
            1 => MOST_BYTES + RECORD,
            2 => MOST_BYTES + 1 + rng.place(RECORD),
            _ => MOST_BYTES + 1 + rng.place(5 * RECORD),
        };
        let filler = if rng.one_in(2) { b' ' } else { rng.next() as u8 };
        bytes.resize(length.max(bytes.len()), filler);
        return;
    }
    match rng.below(5) {
        0 => bytes.clear(),
        1 => bytes.truncate(rng.place(RECORD)),
        2 => {
            let length = bytes.len().saturating_sub(1 + rng.place(RECORD - 1));
            bytes.truncate(length);
        }
        3 => {
            let length = bytes.len() + 1 + rng.place(RECORD - 1);
            bytes.resize(length, b' ');
        }
        _ => {
            let more = any_flow_small(rng, pool);
            let length = 1 + rng.place(RECORD - 1);
            bytes.extend_from_slice(&more[..length.min(more.len())]);
        }
    }
}

fn any_flow_small(rng: &mut Rng, pool: &Pool) -> Vec<u8> {
    let plan = plan(rng, Size::Tiny);
    write(rng, pool, &plan).bytes
}

/// The place of a record of such a kind, if there is one.
fn find(rng: &mut Rng, flow: &Flow, wanted: impl Fn(Kind) -> bool) -> Option<usize> {
    let places: Vec<usize> = (0..flow.kinds.len()).filter(|&at| wanted(flow.kinds[at])).collect();
    if places.is_empty() {
        None
    } else {
        Some(rng.pick(&places))
    }
}

/// The same for lines or balance records, with the section's index.
fn find_in_section(rng: &mut Rng, flow: &Flow, wanted: impl Fn(Kind) -> bool) -> Option<(usize, usize)> {
    let at = find(rng, flow, wanted)?;
    Some((at, flow.kinds[at].section()?))
}

fn is_line(kind: Kind) -> bool {
    matches!(kind, Line(_))
}

pub fn in_records(rng: &mut Rng, flow: &mut Flow, aim: u64) {
    let records = flow.kinds.len();
    if records == 0 {
        return;
    }
    let any = rng.place(records);
    match aim {
        3 => bad_character(rng, flow),
        4 => misplace(rng, flow, any),
        5 => {
            let keep = if rng.one_in(2) { records - 1 } else { rng.place(records) }.max(1);
            flow.bytes.truncate(keep * RECORD);
            flow.kinds.truncate(keep);
        }
        6 => {
            if let Some((at, section)) = find_in_section(rng, flow, is_line) {
                let (kind, line) = (flow.kinds[at], flow.copy_of(at));
                for _ in 0..SECTIONS[section].most {
                    flow.insert(at, line, kind);
                }
            }
        }
        7 => non_digit(rng, flow, any),
        8 => wrong_number(rng, flow),
        9 => {
            if let Some((at, section)) = find_in_section(rng, flow, is_line) {
                let columns = &SECTIONS[section];
                let (debit, credit) = match (section, rng.below(3)) {
                    (IDENTIFYING, 0) => (0, 1 + rng.wide(MOST_AMOUNT - 1)),
                    (IDENTIFYING, 1) => (1, 1),
                    _ => (0, 0),
                };
                let record = flow.record(at);
                put(record, columns.debit, AMOUNT, debit);
                put(record, columns.credit, AMOUNT, credit);
            }
        }
        10 | 11 | 13 => section_field(rng, flow, aim),
        12 => {
            if let Some((at, section)) = find_in_section(rng, flow, |kind| matches!(kind, Balance(_))) {
                let sign = &mut flow.record(at)[SECTIONS[section].sign - 1];
                *sign = match (rng.below(3), *sign) {
                    (0, _) => rng.pick(b" pn+-0DCOM~"),
                    (_, b'P') => b'N',
                    _ => b'P',
                };
            }
        }
        14 | 15 => {
            if let Some(at) = find(rng, flow, |kind| kind == Payment) {
                let difference = bend(rng, flow.record(at), FINAL_BALANCE, AMOUNT);
                // A lie that the tail repeats.
                if rng.one_in(4) {
                    if let Some(tail) = find(rng, flow, |kind| kind == Tail) {
                        let tail = flow.record(tail);
                        let sum = get(tail, TAIL_SUM, AMOUNT);
                        put(tail, TAIL_SUM, AMOUNT, sum.wrapping_add(difference) % (MOST_AMOUNT + 1));
                    }
                }
            }
        }
        16 => wrong_name(rng, flow),
        17 => {
            if let Some(at) = find(rng, flow, |kind| kind == Head) {
                dates::spoil(rng, flow.record(at));
            }
        }
        26 => {
            // Often the last one: flows of many deleghe are few.
            let last = flow.kinds.iter().rposition(|&kind| kind == Payer).filter(|_| rng.one_in(3));
            if let Some(at) = last.or_else(|| find(rng, flow, |kind| kind == Payer)) {
                codes::spoil(rng, flow.record(at));
            }
        }
        18 => tail_field(rng, flow, TAIL_DELEGHE, COUNT),
        19 => tail_field(rng, flow, TAIL_RECORDS, COUNT),
        _ => tail_field(rng, flow, TAIL_SUM, AMOUNT),
    }
}

fn bad_character(rng: &mut Rng, flow: &mut Flow) {
    for _ in 0..if rng.one_in(4) { rng.between(2, 4) } else { 1 } {
        let at = rng.place(flow.kinds.len());
        let place = if rng.one_in(4) { rng.pick(&[0, 1, 2, 118, 119]) } else { rng.place(RECORD) };
        let byte = match rng.below(3) {
            0 => rng.pick(&[0, 9, 10, 13, 31, 127, 128, 160, 255]),
            1 => rng.below(32) as u8,
            _ => rng.between(127, 255) as u8,
        };
        flow.record(at)[place] = byte;
    }
}

/// Records that may not stand where they do.
fn misplace(rng: &mut Rng, flow: &mut Flow, any: usize) {
    let records = flow.kinds.len();
    let other = rng.place(records);
    match rng.below(9) {
        0 if any + 1 < records => flow.swap(any, any + 1),
        1 => flow.swap(any, other),
        2 if records > 1 => flow.remove(any),
        3 => {
            let (record, kind) = (flow.copy_of(any), flow.kinds[any]);
            flow.insert(any, record, kind);
        }
        4 => {
            let (record, kind) = (flow.copy_of(any), flow.kinds[any]);
            flow.insert(other, record, kind);
        }
        5 => {
            // Another type, its subtype kept.
            let kind = if rng.one_in(4) { None } else { Some(rng.pick(&KINDS)) };
            let bytes = match kind {
                Some(kind) => kind.type_bytes(),
                None => rng.pick(&[*b"30", *b"4 ", *b" 4", *b"05", *b"f4", *b"ef", *b"F5", *b"01", *b"04", *b"60"]),
            };
            flow.record(any)[TYPE - 1..TYPE + 1].copy_from_slice(&bytes);
        }
        6 | 7 => {
            // Another subtype, its type kept.
            let forty = |kind: Kind| matches!(kind, Line(_) | Balance(_) | Payment | Receipt | Addressee);
            let at = find(rng, flow, forty).unwrap_or(any);
            let record = flow.record(at);
            match rng.below(5) {
                0 => {
                    let bytes = rng.pick(&[*b"  ", *b" 1", *b"1 ", *b"0A", *b"O1", *b"0/", *b"0:"]);
                    record[SUBTYPE - 1..SUBTYPE + 1].copy_from_slice(&bytes);
                }
                1 => put(record, SUBTYPE, 2, rng.below(100)),
                _ => put(record, SUBTYPE, 2, rng.between(1, 18)),
            }
        }
        _ => {
            // Another kind of record altogether, its columns kept.
            let kind = rng.pick(&KINDS);
            let record = flow.record(any);
            record[TYPE - 1..TYPE + 1].copy_from_slice(&kind.type_bytes());
            if let Some(subtype) = kind.subtype() {
                put(record, SUBTYPE, 2, subtype);
            }
        }
    }
}

/// Non-digits in a numeric field, and often in another of the same record.
/// What the field holds is drawn first: heads and tails are few among the
/// records, and what stands late is often hidden by a fault before it.
fn non_digit(rng: &mut Rng, flow: &mut Flow, any: usize) {
    let wanted = match rng.below(16) {
        0 | 1 => Holds::Number,
        2 | 3 => Holds::Date,
        4..=7 => Holds::Amount,
        8..=11 => Holds::Sum,
        _ => Holds::Tail,
    };
    let holding = |kind: Kind| kind.numeric().into_iter().filter(move |field| kind.holds(field.0) == wanted);
    // A line too many is refused 6 before its digits are looked at.
    let at = match line_too_many(flow).filter(|_| rng.one_in(2)) {
        Some(at) => at,
        None => find(rng, flow, |kind| holding(kind).next().is_some()).unwrap_or(any),
    };
    let all = flow.kinds[at].numeric();
    let some: Vec<(usize, usize)> = holding(flow.kinds[at]).collect();
    spoil(rng, flow.record(at), if some.is_empty() { &all } else { &some });
    if all.len() > 1 && rng.one_in(3) {
        spoil(rng, flow.record(at), &all);
    }
}

/// The first line that is more than its section has room for.
fn line_too_many(flow: &Flow) -> Option<usize> {
    (0..flow.kinds.len()).find(|&at| match flow.kinds[at] {
        Line(section) => {
            let most = SECTIONS[section].most;
            at >= most && flow.kinds[at - most..at].iter().all(|&kind| kind == Line(section))
        }
        _ => false,
    })
}

/// Puts non-digits into one of these fields: the first of them at either end
/// or between, and often more behind it.
pub fn spoil(rng: &mut Rng, record: &mut [u8], fields: &[(usize, usize)]) {
    let (start, width) = rng.pick(fields);
    let field = &mut record[start - 1..start - 1 + width];
    let first = match rng.below(12) {
        0 | 1 => 0,
        2..=5 => 1 + rng.place(width - 2),
        6..=9 => width - 1,
        10 => {
            field.fill(no_digit(rng));
            return;
        }
        _ => {
            blanks(rng, field);
            return;
        }
    };
    field[first] = no_digit(rng);
    for _ in 0..rng.pick(&[0, 0, 1, 3]) {
        field[first + rng.place(width - first)] = no_digit(rng);
    }
}

/// Blanks for leading zeros, as some programs print numbers; or the number at
/// the left and blanks behind it.
fn blanks(rng: &mut Rng, field: &mut [u8]) {
    let zeros = field[..field.len() - 1].iter().take_while(|&&digit| digit == b'0').count();
    field[..zeros].fill(b' ');
    if rng.one_in(2) {
        field.rotate_left(zeros);
    }
}

/// A printable character, seldom a digit, often one that might pass for one.
fn no_digit(rng: &mut Rng) -> u8 {
    if rng.one_in(3) {
        32 + rng.below(95) as u8
    } else {
        rng.pick(b"  /:+-.,AOo~")
    }
}

fn wrong_number(rng: &mut Rng, flow: &mut Flow) {
    let at = match find(rng, flow, |kind| !matches!(kind, Head | Tail)) {
        Some(at) => at,
        None => return,
    };
    if rng.one_in(3) {
        // The whole delega, or all that follows, has another number.
        let by = rng.between(1, 3);
        let to_end = rng.one_in(2);
        for k in at..flow.kinds.len() {
            if matches!(flow.kinds[k], Head | Tail) || (!to_end && k > at && flow.kinds[k] == Payer) {
                break;
            }
            let record = flow.record(k);
            let number = get(record, DELEGA, COUNT);
            put(record, DELEGA, COUNT, number + by);
        }
    } else {
        bend(rng, flow.record(at), DELEGA, COUNT);
    }
}

/// Totals and balances of a section, or one of its lines.
fn section_field(rng: &mut Rng, flow: &mut Flow, aim: u64) {
    if aim != 13 && rng.one_in(3) {
        let wanted = |kind| matches!(kind, Line(section) if section != IDENTIFYING);
        if let Some((at, section)) = find_in_section(rng, flow, wanted) {
            let columns = &SECTIONS[section];
            let start = if aim == 10 { columns.debit } else { columns.credit };
            bend(rng, flow.record(at), start, AMOUNT);
        }
        return;
    }
    let wanted = |kind| matches!(kind, Balance(section) if aim == 13 || section != IDENTIFYING);
    let (at, section) = match find_in_section(rng, flow, wanted) {
        Some(found) => found,
        None => return,
    };
    let columns = &SECTIONS[section];
    let record = flow.record(at);
    let start = match (aim, columns.totals) {
        (10, Some((debit, _))) => debit,
        (11, Some((_, credit))) => credit,
        _ => columns.balance,
    };
    let by = bend(rng, record, start, AMOUNT);
    // A lie that the balance repeats.
    if aim != 13 && rng.one_in(4) {
        let balance = get(record, columns.balance, AMOUNT);
        put(record, columns.balance, AMOUNT, balance.wrapping_add(by) % (MOST_AMOUNT + 1));
    }
}

/// Gives a field another value and answers by how much it grew.
pub fn bend(rng: &mut Rng, record: &mut [u8], start: usize, width: usize) -> u64 {
    let old = get(record, start, width);
    let modulus = 10_u64.pow(width as u32);
    let new = match rng.below(8) {
        0 | 1 => old + 1,
        2 => old + modulus - 1,
        3 => 0,
        4 => rng.wide(modulus - 1),
        5 => old + 10_u64.pow(rng.below(width as u64) as u32),
        6 => old % (modulus / 10) * 10,
        _ => modulus - 1 - rng.below(2),
    } % modulus;
    put(record, start, width, new);
    new.wrapping_sub(old)
}

/// A place in the name, or now and then beside it, where any character may stand.
pub fn name_place(rng: &mut Rng) -> usize {
    match rng.below(12) {
        0 => NAME - 2,
        1 => NAME - 1 + NAME_WIDTH,
        2 | 3 => rng.pick(&[NAME - 1, NAME - 2 + NAME_WIDTH]),
        _ => NAME - 1 + rng.place(NAME_WIDTH),
    }
}

fn wrong_name(rng: &mut Rng, flow: &mut Flow) {
    let place = name_place(rng);
    let byte = rng.pick(b"//::.0;9X ");
    let head = find(rng, flow, |kind| kind == Head);
    let tail = find(rng, flow, |kind| kind == Tail);
    let which = rng.below(4);
    for at in [head.filter(|_| which != 1), tail.filter(|_| which != 0)].into_iter().flatten() {
        flow.record(at)[place] = byte;
    }
}

fn tail_field(rng: &mut Rng, flow: &mut Flow, start: usize, width: usize) {
    if let Some(at) = find(rng, flow, |kind| kind == Tail) {
        bend(rng, flow.record(at), start, width);
    }
}

/// Changes that aim at nothing.
fn wild(rng: &mut Rng, pool: &Pool, sound: &Plan) -> Vec<u8> {
    let mut flow = write(rng, pool, sound);
    let length = flow.bytes.len();
    match rng.below(8) {
        0 => {
            for _ in 0..rng.between(1, 3) {
                flow.bytes[rng.place(length)] = 32 + rng.below(95) as u8;
            }
        }
        1 => {
            for _ in 0..rng.between(1, 3) {
                flow.bytes[rng.place(length)] ^= 1 << rng.below(8);
            }
        }
        2 => {
            let bytes = &mut flow.bytes;
            let digits: Vec<usize> = (0..length).filter(|&at| bytes[at].is_ascii_digit()).collect();
            bytes[rng.pick(&digits)] = b'0' + rng.below(10) as u8;
        }
        3 => {
            let records = rng.between(1, 4) as usize;
            let printable = rng.one_in(2);
            flow.bytes = (0..records * RECORD)
                .map(|_| if printable { 32 + rng.below(95) as u8 } else { rng.next() as u8 })
                .collect();
            if rng.one_in(2) {
                flow.bytes[TYPE - 1..TYPE + 1].copy_from_slice(b"F4");
            }
        }
        4 => {
            // The front of one flow and the back of another.
            let next = plan(rng, Size::Small);
            let other = write(rng, pool, &next);
            let keep = rng.place(flow.kinds.len() + 1);
            let from = rng.place(other.kinds.len() + 1);
            flow.bytes.truncate(keep * RECORD);
            flow.bytes.extend_from_slice(&other.bytes[from * RECORD..]);
        }
        5 => {
            for _ in 0..rng.between(1, 6) {
                let (a, b) = (rng.place(flow.kinds.len()), rng.place(flow.kinds.len()));
                flow.swap(a, b);
            }
        }
        6 => {
            // The same flow twice.
            let again = flow.bytes.clone();
            flow.bytes.extend_from_slice(&again);
        }
        _ => {
            // Moved along by some bytes.
            let by = rng.between(1, 119) as usize;
            flow.bytes.rotate_left(by);
        }
    }
    flow.bytes
}
