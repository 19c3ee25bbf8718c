//! Lengths that are none, and records that may not stand where they stand.

use crate::ep_columns::*;
use crate::ep_damage::{Damage, Effect};
use crate::ep_fields::Spot;
use crate::ep_sound::{self, text_of, Set};
use crate::rng::Rng;

/// The sorts of lengths. Too many records are among the large sets.
#[rustfmt::skip]
pub const LENGTHS: [(Damage, &str); 7] = [
    (empty, "no bytes"), (one_more, "one byte more"), (one_less, "one byte less"), (cut, "cut anywhere"),
    (less_than_one, "less than a record"), (line_ends, "line ends"), (spoiled, "and other faults"),
];

/// The sorts of orders.
#[rustfmt::skip]
pub const ORDERS: [(Damage, &str); 20] = [
    (v_first, "a V first"), (unknown_first, "first, unknown"), (unknown_m, "for an M, unknown"),
    (unknown_v, "for a first V, unknown"), (unknown_later, "for a later V, unknown"),
    (unknown_unjudged, "the same, total as it was"), (unknown_last, "at the end, unknown"),
    (unknown_between, "between, unknown"), (m_last, "an M at the end"), (m_twice, "an M before an M"),
    (m_unknown, "an M before unknown"), (m_unjudged, "an M with no text, no V"), (head, "a head A"),
    (closing, "a closing Z"), (lower_case, "lower case"), (exchanged, "M and V exchanged"),
    (v_moved, "a V behind the next M"), (m_as_v, "an M called V"), (v_as_m, "a V called M"), (shuffled, "in any order"),
];

/// A type that is none.
pub fn unknown(rng: &mut Rng) -> u8 {
    match rng.below(4) {
        0 => rng.pick(b"AZmvNWLU \0\xff1"),
        1 => rng.pick(b"MV") ^ 1 << rng.below(8),
        _ => Some(rng.below(256) as u8).filter(|byte| !b"MV".contains(byte)).unwrap_or(b'X'),
    }
}

/// A record of such a type, with all that a V has or an M.
pub fn unknown_record(rng: &mut Rng, set: &mut Set) -> Vec<u8> {
    let at = rng.place(set.records());
    let mut record = if rng.one_in(2) { set.record(at).to_vec() } else { ep_sound::record(rng, 0) };
    record[0] = unknown(rng);
    record
}

fn empty(_: &mut Rng, set: &mut Set) -> Option<Effect> {
    set.bytes.clear();
    Some(Effect::LENGTH)
}

fn one_more(rng: &mut Rng, set: &mut Set) -> Option<Effect> {
    let byte = rng.pick(b"\n\0 MVZ\x1a");
    let at = rng.pick(&[0, set.bytes.len()]);
    set.bytes.insert(at, byte);
    Some(Effect::LENGTH)
}

fn one_less(rng: &mut Rng, set: &mut Set) -> Option<Effect> {
    let at = rng.pick(&[0, set.bytes.len() - 1]);
    set.bytes.remove(at);
    Some(Effect::LENGTH)
}

fn cut(rng: &mut Rng, set: &mut Set) -> Option<Effect> {
    let length = rng.place(set.bytes.len());
    set.bytes.truncate(length);
    Some(Effect::LENGTH).filter(|_| length % RECORD != 0)
}

fn less_than_one(rng: &mut Rng, set: &mut Set) -> Option<Effect> {
    set.bytes.truncate(rng.pick(&[1, 2, 120, RECORD / 2, RECORD - 1]));
    Some(Effect::LENGTH)
}

fn line_ends(rng: &mut Rng, set: &mut Set) -> Option<Effect> {
    let end: &[u8] = if rng.one_in(2) { b"\n" } else { b"\r\n" };
    set.bytes = set.bytes.chunks(RECORD).flat_map(|record| [record, end].concat()).collect();
    Some(Effect::LENGTH)
}

/// Bytes of no length among faults of every sort.
fn spoiled(rng: &mut Rng, set: &mut Set) -> Option<Effect> {
    for _ in 0..40 {
        let at = rng.place(set.bytes.len());
        set.bytes[at] = rng.below(256) as u8;
    }
    set.bytes[0] = unknown(rng);
    let more = rng.between(1, RECORD as u64 - 1) as usize;
    set.bytes.extend(vec![b'V'; more]);
    Some(Effect::LENGTH)
}

fn retype(set: &mut Set, at: usize, kind: u8) {
    set.record(at)[0] = kind;
}

/// The first M is gone.
fn v_first(_: &mut Rng, set: &mut Set) -> Option<Effect> {
    set.bytes.drain(..RECORD);
    Some(Effect::refused(31, 0))
}

fn unknown_first(rng: &mut Rng, set: &mut Set) -> Option<Effect> {
    let kind = unknown(rng);
    if rng.one_in(2) {
        retype(set, 0, kind);
    } else {
        let record = unknown_record(rng, set);
        set.insert(0, &record);
    }
    Some(Effect::refused(31, 0))
}

fn unknown_m(rng: &mut Rng, set: &mut Set) -> Option<Effect> {
    let at = set.payments.get(1 + rng.place(set.payments.len().max(2) - 1))?.at;
    let kind = unknown(rng);
    retype(set, at, kind);
    Some(Effect::refused(31, at))
}

fn unknown_v(rng: &mut Rng, set: &mut Set) -> Option<Effect> {
    let at = set.payments[rng.place(set.payments.len())].at + 1;
    let kind = unknown(rng);
    retype(set, at, kind);
    Some(Effect::refused(31, at))
}

/// A V that is not the first of its M's, whose total is that of those before it.
fn unknown_later(rng: &mut Rng, set: &mut Set) -> Option<Effect> {
    let (at, m, before) = later_v(rng, set)?;
    let kind = unknown(rng);
    retype(set, at, kind);
    put(set.record(m), TOTAL, &text_of(before)?);
    Some(Effect::refused(31, at))
}

/// The same, but the total has the sum with it.
fn unknown_unjudged(rng: &mut Rng, set: &mut Set) -> Option<Effect> {
    let (at, m, before) = later_v(rng, set)?;
    let kind = unknown(rng);
    retype(set, at, kind);
    let right = text_of(before).as_ref().map_or(false, |text| text[..] == *field(set.record(m), TOTAL));
    Some(if right { Effect::refused(31, at) } else { Effect::refused(33, m) })
}

/// The record of such a V, that of its M, and the sum of those before it.
fn later_v(rng: &mut Rng, set: &Set) -> Option<(usize, usize, u64)> {
    let payment = &set.payments[rng.place(set.payments.len())];
    let nth = 1 + rng.place(payment.forms.len() - 1 + usize::from(payment.forms.len() == 1));
    let before = payment.forms.get(..nth).filter(|before| before.len() < payment.forms.len())?;
    Some((payment.at + 1 + nth, payment.at, before.iter().map(|form| form.sum()).sum()))
}

fn unknown_last(rng: &mut Rng, set: &mut Set) -> Option<Effect> {
    let (record, at) = (unknown_record(rng, set), set.records());
    set.insert(at, &record);
    Some(Effect::refused(31, at))
}

fn unknown_between(rng: &mut Rng, set: &mut Set) -> Option<Effect> {
    let at = set.payments.get(1 + rng.place(set.payments.len().max(2) - 1))?.at;
    let record = unknown_record(rng, set);
    set.insert(at, &record);
    Some(Effect::refused(31, at))
}

/// An M that is put in where one may stand and no V follows: at the end, before another
/// one or before an unknown record.
fn lone_m(rng: &mut Rng, set: &mut Set, at: usize) -> Option<Effect> {
    let sum = if rng.one_in(3) { rng.wide(MOST_TOTAL) } else { 0 };
    let record = ep_sound::m(rng, sum);
    set.insert(at, &record);
    Some(Effect::refused(31, at + 1))
}

pub fn m_last(rng: &mut Rng, set: &mut Set) -> Option<Effect> {
    let at = set.records();
    lone_m(rng, set, at)
}

fn m_twice(rng: &mut Rng, set: &mut Set) -> Option<Effect> {
    let at = set.payments[rng.place(set.payments.len())].at;
    lone_m(rng, set, at)
}

fn m_unknown(rng: &mut Rng, set: &mut Set) -> Option<Effect> {
    let starts: Vec<usize> = set.payments.iter().map(|payment| payment.at).chain([set.records()]).collect();
    let (at, record) = (rng.pick(&starts), unknown_record(rng, set));
    set.insert(at, &record);
    lone_m(rng, set, at)
}

/// An M that has no right text and no V either.
fn m_unjudged(rng: &mut Rng, set: &mut Set) -> Option<Effect> {
    let starts: Vec<usize> = set.payments.iter().map(|payment| payment.at).chain([set.records()]).collect();
    let at = rng.pick(&starts);
    let record = ep_sound::record(rng, b'M');
    set.insert(at, &record);
    Some(Effect::refused(31, at + 1))
}

fn head(rng: &mut Rng, set: &mut Set) -> Option<Effect> {
    let record = ep_sound::record(rng, b'A');
    set.insert(0, &record);
    Some(Effect::refused(31, 0))
}

fn closing(rng: &mut Rng, set: &mut Set) -> Option<Effect> {
    let (record, at) = (ep_sound::record(rng, b'Z'), set.records());
    set.insert(at, &record);
    Some(Effect::refused(31, at))
}

fn lower_case(rng: &mut Rng, set: &mut Set) -> Option<Effect> {
    let payment = &set.payments[rng.place(set.payments.len())];
    let at = payment.at + usize::from(rng.one_in(2));
    set.record(at)[0] |= 32;
    Some(Effect::refused(31, at))
}

fn exchanged(rng: &mut Rng, set: &mut Set) -> Option<Effect> {
    let at = set.payments[rng.place(set.payments.len())].at;
    let both = &mut set.bytes[at * RECORD..(at + 2) * RECORD];
    both.rotate_left(RECORD);
    Some(if at == 0 { Effect::refused(31, 0) } else { Effect::Open })
}

/// The last V of an M, of two at least, comes behind the next M.
fn v_moved(rng: &mut Rng, set: &mut Set) -> Option<Effect> {
    let next = 1 + rng.place(set.payments.len().max(2) - 1);
    let (at, before) = (set.payments.get(next)?.at, set.payments[next - 1].forms.len());
    if before < 2 {
        return None;
    }
    set.bytes[(at - 1) * RECORD..(at + 1) * RECORD].rotate_left(RECORD);
    Some(Effect::Open)
}

fn m_as_v(rng: &mut Rng, set: &mut Set) -> Option<Effect> {
    let payment = rng.place(set.payments.len());
    let at = set.payments[payment].at;
    retype(set, at, b'V');
    Some(if at == 0 { Effect::refused(31, 0) } else { Effect::Open })
}

fn v_as_m(rng: &mut Rng, set: &mut Set) -> Option<Effect> {
    let spot = Spot::any(rng, set);
    let at = spot.at(set);
    retype(set, at, b'M');
    Some(if spot.form == 0 { Effect::refused(31, at) } else { Effect::Open })
}

fn shuffled(rng: &mut Rng, set: &mut Set) -> Option<Effect> {
    for last in (1..set.records()).rev() {
        let other = rng.place(last + 1);
        let one = set.record(other).to_vec();
        let two = set.record(last).to_vec();
        set.record(last).copy_from_slice(&one);
        set.record(other).copy_from_slice(&two);
    }
    Some(Effect::Open)
}

/// Records of any types, each of them right for what follows it, or with a total of
/// another sort now and then.
pub fn any_types(rng: &mut Rng, set: &mut Set) -> Option<Effect> {
    let forms: Vec<_> = set.payments.iter().flat_map(|payment| payment.forms.clone()).collect();
    let many = rng.between(1, 9) as usize;
    let kinds: Vec<u8> = (0..many).map(|_| rng.pick(b"MMMVVVVVVX")).collect();
    let kinds: Vec<u8> = kinds.into_iter().map(|kind| if kind == b'X' { unknown(rng) } else { kind }).collect();
    let chosen: Vec<_> = kinds.iter().map(|_| forms[rng.place(forms.len())].clone()).collect();
    set.bytes.clear();
    for (at, kind) in kinds.iter().enumerate() {
        let record = match kind {
            b'M' => {
                let behind = kinds[at + 1..].iter().take_while(|&&kind| kind == b'V').count();
                let sum = chosen[at + 1..at + 1 + behind].iter().map(|form| form.sum()).sum();
                let sum = if rng.one_in(12) { rng.wide(MOST_TOTAL) } else { sum };
                ep_sound::m(rng, sum)
            }
            b'V' => ep_sound::v(rng, &chosen[at]),
            _ => ep_sound::record(rng, *kind),
        };
        set.bytes.extend(record);
    }
    Some(Effect::Open)
}
