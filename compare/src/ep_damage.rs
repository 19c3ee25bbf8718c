//! The cases of the F24 EP form: sound records, records with a fault of every sort, with
//! two at once, and wild ones. Of most of them the plan knows the answer.

use crate::ep_account::Told;
use crate::ep_beside::BESIDE;
use crate::ep_columns::*;
use crate::ep_fields::FIELDS;
use crate::ep_large::LARGES;
use crate::ep_orders::{self, LENGTHS, ORDERS};
use crate::ep_sound::{self, Set, Size, TOO_LARGE};
use crate::ep_texts::{self, TEXTS};
use crate::rng::Rng;

/// What a damage comes to, where nothing else is wrong.
#[derive(Clone, Copy)]
pub enum Effect {
    /// The whole answer.
    Answer(Told),
    /// The answer is what it was.
    Same,
    /// The plan does not know.
    Open,
}

impl Effect {
    pub const LENGTH: Effect = Effect::Answer([30, 0, 0]);

    /// A refusal of a record, which is counted from 0 here.
    pub fn refused(number: u64, at: usize) -> Self {
        Effect::Answer([number, at as u64 + 1, 0])
    }
}

/// Damages a set, or not, where this set has nothing for it.
pub type Damage = fn(&mut Rng, &mut Set) -> Option<Effect>;

/// The families of cases, each with how many of a hundred it is, large ones aside.
pub const FAMILIES: [(u64, &str); 10] = [
    (14, "sound"),
    (5, "a length that is none"),
    (18, "an order that is none"),
    (24, "a field of a V"),
    (20, "a total's text"),
    (3, "a sum that has no text"),
    (8, "two faults, one told"),
    (4, "any faults"),
    (4, "wild"),
    (0, "10,000 records or about"),
];
pub const SOUND: usize = 0;
pub const LENGTH: usize = 1;
pub const ORDER: usize = 2;
pub const FIELD: usize = 3;
pub const TEXT: usize = 4;
pub const TOO: usize = 5;
pub const TWO: usize = 6;
pub const ANY: usize = 7;
pub const WILD: usize = 8;
pub const LARGE: usize = 9;

/// How many sorts a family has.
pub fn sorts(family: usize) -> usize {
    match family {
        LENGTH => LENGTHS.len(),
        ORDER => ORDERS.len(),
        FIELD => FIELDS.len(),
        TEXT => TEXTS.len(),
        TOO => TOO_LARGE.len(),
        TWO => BESIDE.len(),
        WILD => WILDS.len(),
        LARGE => LARGES.len(),
        _ => 1,
    }
}

/// Cases that aim at nothing.
#[rustfmt::skip]
pub const WILDS: [(Damage, &str); 4] = [
    (ep_orders::any_types, "any types"), (bits, "bits turned"), (any_bytes, "any bytes"),
    (twice, "a record twice, or none"),
];

/// Records, where they come from, and what the plan says of them.
pub struct Case {
    pub bytes: Vec<u8>,
    pub known: Option<Told>,
    pub family: usize,
    pub sort: usize,
    /// The sums of the M's and the place of the rows' pattern, where the records are
    /// accepted as they were planned.
    pub sums: Vec<u64>,
    pub pattern: usize,
}

pub fn any_case(rng: &mut Rng, size: Size) -> Case {
    let mut left = rng.below(FAMILIES.iter().map(|family| family.0).sum());
    let mut family = 0;
    while left >= FAMILIES[family].0 {
        left -= FAMILIES[family].0;
        family += 1;
    }
    let sort = rng.place(sorts(family));
    case_of(rng, size, family, sort)
}

/// A case of this sort. Sets are drawn until there is one that has it.
pub fn case_of(rng: &mut Rng, size: Size, family: usize, sort: usize) -> Case {
    loop {
        let mut set = match family {
            TOO => ep_sound::too_large(rng, size, sort),
            _ => ep_sound::any_set(rng, size),
        };
        let (pattern, sound) = (set.pattern, [0, set.payments.len() as u64, set.sum()]);
        let sums = set.payments.iter().map(|payment| payment.sum()).collect();
        let effect = match family {
            SOUND => Some(Effect::Same),
            LENGTH => LENGTHS[sort].0(rng, &mut set),
            ORDER => ORDERS[sort].0(rng, &mut set),
            FIELD => FIELDS[sort].0(rng, &mut set),
            TEXT => ep_texts::spoil(rng, &mut set, TEXTS[sort].0),
            TOO => no_text(rng, &mut set),
            TWO => BESIDE[sort].0(rng, &mut set),
            ANY => any_faults(rng, &mut set),
            WILD => WILDS[sort].0(rng, &mut set),
            _ => LARGES[sort].0(rng, &mut set),
        };
        let known = match effect {
            None => continue,
            Some(Effect::Same) => Some(sound),
            Some(Effect::Answer(told)) => Some(told),
            Some(Effect::Open) => None,
        };
        return Case { bytes: set.bytes, known, family, sort, sums, pattern };
    }
}

/// The M whose sum has no text is given one.
fn no_text(rng: &mut Rng, set: &mut Set) -> Option<Effect> {
    let payment = set.payments.iter().find(|payment| payment.sum() > MOST_TOTAL)?;
    let (at, sum) = (payment.at, payment.sum());
    let text = ep_texts::of_too_large(rng, sum);
    let text: Vec<u8> = text.into_iter().chain([b' '; WIDTH]).take(WIDTH).collect();
    put(set.record(at), TOTAL, &text);
    Some(Effect::refused(33, at))
}

/// Two or three damages in fields and totals, and in half of the cases one of the order
/// as well.
fn any_faults(rng: &mut Rng, set: &mut Set) -> Option<Effect> {
    for _ in 0..rng.between(1, 3) {
        if rng.one_in(2) {
            rng.pick(&FIELDS).0(rng, set);
        } else {
            let sort = rng.pick(&TEXTS).0;
            ep_texts::spoil(rng, set, sort);
        }
    }
    if rng.one_in(2) {
        rng.pick(&ORDERS).0(rng, set)?;
    }
    Some(Effect::Open)
}

/// Bits turned, mostly where something is read.
fn bits(rng: &mut Rng, set: &mut Set) -> Option<Effect> {
    for _ in 0..rng.between(1, 4) {
        let at = rng.place(set.records());
        let record = set.record(at);
        let place = match (rng.below(4), record[0]) {
            (0, _) => rng.place(RECORD),
            (1, _) => 0,
            (_, b'M') => TOTAL - 1 + rng.place(WIDTH),
            (2, _) => TYPE_AT[rng.place(ROWS)] - 1,
            _ if rng.one_in(2) => FINAL_BALANCE - 1 + rng.place(WIDTH),
            _ => DEBIT_AT[rng.place(ROWS)] - 1 + rng.place(WIDTH),
        };
        record[place] ^= 1 << rng.below(8);
    }
    Some(Effect::Open)
}

fn any_bytes(rng: &mut Rng, set: &mut Set) -> Option<Effect> {
    let many = rng.between(1, 4) as usize;
    set.bytes = (0..many).flat_map(|at| ep_sound::record(rng, if at == 0 { b'M' } else { b'V' })).collect();
    if rng.one_in(2) {
        let at = rng.place(set.bytes.len());
        set.bytes[at] = rng.below(256) as u8;
    }
    Some(Effect::Open)
}

/// A record comes twice in a row, or is left out.
fn twice(rng: &mut Rng, set: &mut Set) -> Option<Effect> {
    let at = rng.place(set.records());
    if rng.one_in(2) {
        let record = set.record(at).to_vec();
        set.insert(at, &record);
    } else {
        set.bytes.drain(at * RECORD..(at + 1) * RECORD);
    }
    Some(Effect::Open)
}
