//! Two faults of which one must be told, so that the order of the checks shows.

use crate::ep_columns::*;
use crate::ep_damage::{Damage, Effect};
use crate::ep_fields::non_digit;
use crate::ep_orders::{m_last, unknown, unknown_record};
use crate::ep_sound::Set;
use crate::ep_texts::spoil_any as wrong_total;
use crate::rng::Rng;

/// The sorts; what is told comes first.
#[rustfmt::skip]
pub const BESIDE: [(Damage, &str); 14] = [
    (v_32_total, "32 of a V, its M's total"), (v_33_total, "33 of a V, its M's total"),
    (total_unknown, "a total, unknown behind it"), (total_total, "a total, the next M's"),
    (total_lone, "a total, an M without V"), (total_last, "a total, an M at the end"),
    (total_next_v, "a total, the next M's V"), (v_next_total, "a V, the next M's total"),
    (v_v, "a V, a later V of its M"), (v_32_33, "32, 33 of the same V"), (v_unknown, "a V, unknown behind it"),
    (v_lone, "a V, an M at the end"), (unknown_v, "unknown, a V behind it"),
    (unknown_total, "unknown, a total behind it"),
];

/// One of the M's behind which another comes.
fn not_last(rng: &mut Rng, set: &Set) -> Option<usize> {
    Some(rng.place(set.payments.len().checked_sub(1).filter(|&most| most > 0)?))
}

/// One of an M's V's, of which the sum is wrong, or the digits.
fn spoil_v(rng: &mut Rng, set: &mut Set, payment: usize, form: usize, number: u64) -> Option<Effect> {
    let at = set.payments[payment].at + 1 + form;
    let sum = set.payments[payment].forms[form].sum();
    match number {
        32 => set.record(at)[FINAL_BALANCE - 1 + rng.place(WIDTH)] = non_digit(rng),
        _ => put_amount(set.record(at), FINAL_BALANCE, if sum == 0 { 1 } else { sum - 1 }),
    }
    Some(Effect::refused(number, at))
}

fn spoil_any_v(rng: &mut Rng, set: &mut Set, payment: usize) -> Option<Effect> {
    let form = rng.place(set.payments[payment].forms.len());
    let number = rng.pick(&[32, 33]);
    spoil_v(rng, set, payment, form, number)
}

fn v_and_total(rng: &mut Rng, set: &mut Set, number: u64) -> Option<Effect> {
    let payment = rng.place(set.payments.len());
    wrong_total(rng, set, payment)?;
    let form = rng.place(set.payments[payment].forms.len());
    spoil_v(rng, set, payment, form, number)
}

fn v_32_total(rng: &mut Rng, set: &mut Set) -> Option<Effect> {
    v_and_total(rng, set, 32)
}

fn v_33_total(rng: &mut Rng, set: &mut Set) -> Option<Effect> {
    v_and_total(rng, set, 33)
}

fn total_unknown(rng: &mut Rng, set: &mut Set) -> Option<Effect> {
    let payment = rng.place(set.payments.len());
    let told = wrong_total(rng, set, payment)?;
    let behind = set.payments[payment].at + 1 + set.payments[payment].forms.len();
    if behind < set.records() && rng.one_in(2) {
        set.record(behind)[0] = unknown(rng);
    } else {
        let record = unknown_record(rng, set);
        set.insert(behind, &record);
    }
    Some(told)
}

fn total_total(rng: &mut Rng, set: &mut Set) -> Option<Effect> {
    let payment = not_last(rng, set)?;
    wrong_total(rng, set, payment + 1)?;
    wrong_total(rng, set, payment)
}

/// The V's of the next M are called M.
fn total_lone(rng: &mut Rng, set: &mut Set) -> Option<Effect> {
    let payment = not_last(rng, set)?;
    let at = set.payments[payment + 1].at;
    set.record(at + 1)[0] = b'M';
    wrong_total(rng, set, payment)
}

fn total_last(rng: &mut Rng, set: &mut Set) -> Option<Effect> {
    let told = wrong_total(rng, set, set.payments.len() - 1)?;
    m_last(rng, set)?;
    Some(told)
}

fn total_next_v(rng: &mut Rng, set: &mut Set) -> Option<Effect> {
    let payment = not_last(rng, set)?;
    spoil_any_v(rng, set, payment + 1)?;
    wrong_total(rng, set, payment)
}

fn v_next_total(rng: &mut Rng, set: &mut Set) -> Option<Effect> {
    let payment = not_last(rng, set)?;
    wrong_total(rng, set, payment + 1)?;
    spoil_any_v(rng, set, payment)
}

fn v_v(rng: &mut Rng, set: &mut Set) -> Option<Effect> {
    let payment = rng.place(set.payments.len());
    let forms = set.payments[payment].forms.len();
    let first = rng.place(forms.checked_sub(1).filter(|&most| most > 0)?);
    let later = first + 1 + rng.place(forms - first - 1);
    let numbers = rng.pick(&[[32, 33], [33, 32], [32, 32], [33, 33]]);
    spoil_v(rng, set, payment, later, numbers[1])?;
    spoil_v(rng, set, payment, first, numbers[0])
}

/// The balance is wrong and a debit is no number, mostly row 28's.
fn v_32_33(rng: &mut Rng, set: &mut Set) -> Option<Effect> {
    let payment = rng.place(set.payments.len());
    let form = rng.place(set.payments[payment].forms.len());
    let used = set.payments[payment].forms[form].places(true);
    let row = if rng.one_in(3) { rng.pick(&[*used.first()?]) } else { *used.last()? };
    spoil_v(rng, set, payment, form, 33)?;
    let at = set.payments[payment].at + 1 + form;
    set.record(at)[DEBIT_AT[row] - 1 + rng.place(WIDTH)] = non_digit(rng);
    Some(Effect::refused(32, at))
}

fn v_unknown(rng: &mut Rng, set: &mut Set) -> Option<Effect> {
    let payment = rng.place(set.payments.len());
    let told = spoil_any_v(rng, set, payment)?;
    let behind = set.payments[payment].at + 1 + set.payments[payment].forms.len();
    let record = unknown_record(rng, set);
    set.insert(behind, &record);
    Some(told)
}

fn v_lone(rng: &mut Rng, set: &mut Set) -> Option<Effect> {
    let payment = rng.place(set.payments.len());
    let told = spoil_any_v(rng, set, payment)?;
    m_last(rng, set)?;
    Some(told)
}

/// For an M that is not the first, or for the first record.
fn unknown_at_m(rng: &mut Rng, set: &mut Set, payment: usize) -> Effect {
    let at = set.payments[payment].at;
    set.record(at)[0] = unknown(rng);
    Effect::refused(31, at)
}

fn unknown_v(rng: &mut Rng, set: &mut Set) -> Option<Effect> {
    let payment = rng.place(set.payments.len());
    spoil_any_v(rng, set, payment)?;
    Some(unknown_at_m(rng, set, payment))
}

fn unknown_total(rng: &mut Rng, set: &mut Set) -> Option<Effect> {
    let payment = not_last(rng, set)?;
    wrong_total(rng, set, payment + 1)?;
    Some(unknown_at_m(rng, set, payment))
}
