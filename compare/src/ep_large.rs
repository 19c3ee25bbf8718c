//! As many records as there may be, one more, and about so many.

use crate::ep_columns::*;
use crate::ep_damage::{Damage, Effect};
use crate::ep_orders::unknown;
use crate::ep_sound::{self, Form, Set};
use crate::rng::Rng;

/// The sorts; each makes a set anew.
#[rustfmt::skip]
pub const LARGES: [(Damage, &str); 10] = [
    (pairs, "5,000 M with a V each"), (one_m, "an M with 9,999 V"), (nines, "an M with 9,999 V of nines"),
    (bits_63, "the same, right in 63 bits"), (one_more, "10,001 sound ones"), (one_more_spoiled, "10,001, the first unknown"),
    (last_spoiled, "10,000, the last wrong"), (last_m, "10,000, the last an M"), (one_byte, "a byte more or less"),
    (about, "any number about that"),
];

/// A V of two rows, mostly the last among them.
fn small(rng: &mut Rng, most: u64) -> Form {
    let mut rows = [None; ROWS];
    rows[rng.place(ROWS)] = Some(rng.wide(most / 2));
    rows[if rng.one_in(3) { rng.place(ROWS) } else { ROWS - 1 }] = Some(rng.wide(most / 2));
    Form { rows }
}

/// The records of M's with so many V's each, and the sum of all.
fn write(rng: &mut Rng, forms: &[usize], most: u64) -> (Vec<u8>, u64) {
    let mut bytes = Vec::with_capacity((MOST_RECORDS + 10) * RECORD);
    let mut all = 0;
    for &many in forms {
        let forms: Vec<Form> = (0..many).map(|_| small(rng, most)).collect();
        let sum = forms.iter().map(Form::sum).sum();
        all += sum;
        bytes.extend(ep_sound::m(rng, sum));
        for form in &forms {
            bytes.extend(ep_sound::v(rng, form));
        }
    }
    (bytes, all)
}

fn pairs(rng: &mut Rng, set: &mut Set) -> Option<Effect> {
    let (bytes, sum) = write(rng, &[1; MOST_RECORDS / 2], MOST_TOTAL);
    set.bytes = bytes;
    Some(Effect::Answer([0, MOST_RECORDS as u64 / 2, sum]))
}

fn one_m(rng: &mut Rng, set: &mut Set) -> Option<Effect> {
    let (bytes, sum) = write(rng, &[MOST_RECORDS - 1], 10_000_000_000);
    set.bytes = bytes;
    Some(Effect::Answer([0, 1, sum]))
}

/// An M of 9,999 V's that come to a sum, all but one of them to nines or to nothing, with
/// the text of another one.
fn of_nines(rng: &mut Rng, set: &mut Set, sum: u64, told: u64) -> Option<Effect> {
    let mut left = sum;
    set.bytes = ep_sound::m(rng, told);
    for _ in 1..MOST_RECORDS {
        let mut rows = [None; ROWS];
        let debit = left.min(MOST_DEBIT);
        rows[rng.place(ROWS)] = Some(debit);
        left -= debit;
        let form = ep_sound::v(rng, &Form { rows });
        set.bytes.extend(form);
    }
    Some(Effect::refused(33, 0))
}

/// The most that there can be, which is above 2^63 and below 2^64, or a sum that is right
/// in fewer bits or digits.
fn nines(rng: &mut Rng, set: &mut Set) -> Option<Effect> {
    let most = (MOST_RECORDS as u64 - 1) * MOST_DEBIT;
    let any = rng.wide(MOST_TOTAL);
    let told = rng.pick(&[0, MOST_TOTAL, any]);
    let fewer = [1 << 53, 1 << 56, 1 << 60, 1 << 62, 10_u64.pow(16), 10_u64.pow(17), 10_u64.pow(18)];
    let sum = if rng.one_in(2) { most } else { told + rng.pick(&fewer) };
    of_nines(rng, set, sum, told)
}

/// The same with a sum that is right in 63 bits.
fn bits_63(rng: &mut Rng, set: &mut Set) -> Option<Effect> {
    let told = rng.wide(MOST_TOTAL);
    of_nines(rng, set, (1 << 63) + told, told)
}

/// So many records of M's with one to twenty V's each.
fn of_records(rng: &mut Rng, records: usize) -> Vec<u8> {
    let mut left = records;
    let mut forms = Vec::new();
    while left > 0 {
        // Two are left at least, or none.
        let many = rng.between(1, 20) as usize;
        let many = if left < many + 3 { left - 1 } else { many };
        forms.push(many);
        left -= 1 + many;
    }
    write(rng, &forms, 1_000_000_000).0
}

fn one_more(rng: &mut Rng, set: &mut Set) -> Option<Effect> {
    set.bytes = of_records(rng, MOST_RECORDS + 1);
    Some(Effect::LENGTH)
}

fn one_more_spoiled(rng: &mut Rng, set: &mut Set) -> Option<Effect> {
    set.bytes = of_records(rng, MOST_RECORDS + 1);
    set.bytes[0] = unknown(rng);
    Some(Effect::LENGTH)
}

fn last_spoiled(rng: &mut Rng, set: &mut Set) -> Option<Effect> {
    set.bytes = of_records(rng, MOST_RECORDS);
    let last = set.record(MOST_RECORDS - 1);
    let number = rng.pick(&[32, 33]);
    let digit = &mut last[FINAL_BALANCE - 1 + WIDTH - 1];
    *digit = if number == 32 { b' ' } else { *digit ^ 1 };
    Some(Effect::refused(number, MOST_RECORDS - 1))
}

fn last_m(rng: &mut Rng, set: &mut Set) -> Option<Effect> {
    set.bytes = of_records(rng, MOST_RECORDS - 1);
    let record = ep_sound::m(rng, 0);
    set.bytes.extend(record);
    Some(Effect::refused(31, MOST_RECORDS))
}

fn one_byte(rng: &mut Rng, set: &mut Set) -> Option<Effect> {
    set.bytes = of_records(rng, MOST_RECORDS);
    if rng.one_in(2) {
        set.bytes.push(b'\n');
    } else {
        set.bytes.pop();
    }
    Some(Effect::LENGTH)
}

fn about(rng: &mut Rng, set: &mut Set) -> Option<Effect> {
    let records = MOST_RECORDS - 9 + rng.place(19);
    set.bytes = of_records(rng, records);
    if records > MOST_RECORDS {
        return Some(Effect::LENGTH);
    }
    Some(Effect::Open)
}
