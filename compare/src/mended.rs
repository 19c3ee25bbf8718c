//! What the generator says of any rebalancing, whatever the flow is. It goes back
//! from each stored field to the lines that it stands for, writes all of them, and
//! asks the fast judge for the flow that comes of it: what this refuses is refused
//! where it was lent, since no stored field is wrong any more.
//!
//! A value of more than fifteen digits can't be stored, and the fast judge would
//! stop at it. Then it is asked for the same records with small amounts, and the
//! deleghe that are negative are those of the amounts as they are.

use crate::columns::{Kind::*, *};
use crate::sound::{get, put};
use std::ops::Range;

/// What a rebalancing with a list of any length comes to.
pub struct Account {
    /// The number of the first fault that is no list's, 0 where there is none, and
    /// its record and position.
    pub says: [u64; 3],
    /// The flow with every stored field right.
    pub after: Vec<u8>,
    /// Record and start of each field whose bytes are others then.
    pub changed: Vec<[u64; 2]>,
}

impl Account {
    /// That of a flow that is rebalanced already.
    pub fn settled(flow: &[u8]) -> Self {
        Account { says: [0; 3], after: flow.to_vec(), changed: Vec::new() }
    }

    pub fn of(flow: &[u8]) -> Self {
        let mut account = Account::settled(flow);
        if flow.len() > MOST_BYTES || flow.is_empty() || flow.len() % RECORD != 0 {
            account.says[0] = if flow.len() > MOST_BYTES { 1 } else { 2 };
            return account;
        }
        let kinds: Vec<Option<Kind>> = flow.chunks_exact(RECORD).map(Kind::of).collect();
        let stored = store(&mut account.after, &kinds);
        account.changed = changed(flow, &account.after, &kinds);
        let judged = if stored.too_large {
            let mut small = with_small_amounts(&account.after, &kinds);
            store(&mut small, &kinds);
            fast::judge(&small)
        } else {
            fast::judge(&account.after)
        };
        let fault = judged
            .err()
            .map(|fast::Refusal { number, record, position }| [u64::from(number), record as u64, position as u64]);
        // That of small amounts is none of these.
        let negative = stored.negative.filter(|_| stored.too_large).map(|record| [14, record, TYPE as u64]);
        account.says = match (fault, negative) {
            (Some(fault), Some(negative)) if negative[1] < fault[1] => negative,
            (Some(fault), _) => fault,
            (None, Some(negative)) => negative,
            (None, None) if stored.too_large => [23, 0, 0],
            (None, None) => [0; 3],
        };
        account
    }
}

/// What came up while values were stored.
struct Stored {
    /// One has more digits than its field, which holds the last of them.
    too_large: bool,
    /// The first 50-01 of a negative delega, counted from 1.
    negative: Option<u64>,
}

/// Writes every stored field, from the lines before it. A field with a byte that no
/// record may have is left, since nobody comes so far.
fn store(flow: &mut [u8], kinds: &[Option<Kind>]) -> Stored {
    let mut stored = Stored { too_large: false, negative: None };
    let mut balances = Vec::new();
    for at in 0..kinds.len() {
        let kind = match kinds[at] {
            Some(kind) => kind,
            None => continue,
        };
        let back_to = |same: &dyn Fn(Option<Kind>) -> bool| kinds[..at].iter().rposition(|&kind| !same(kind));
        let values = match kind {
            Balance(section) => {
                let before = back_to(&|kind| kind == Some(Line(section)));
                let (debits, credits) = sums(flow, kinds, before.map_or(0, |before| before + 1)..at);
                let (sign, balance) =
                    if debits < credits { (b'N', credits - debits) } else { (b'P', debits - credits) };
                match kind.stored().len() {
                    4 => vec![debits, credits, u64::from(sign), balance],
                    _ => vec![u64::from(sign), balance],
                }
            }
            Payment => {
                let before = back_to(&|kind| kind != Some(Payer));
                let (debits, credits) = sums(flow, kinds, before.unwrap_or(0)..at);
                if debits < credits {
                    stored.negative = stored.negative.or(Some(at as u64 + 1));
                }
                balances.push(debits.abs_diff(credits));
                vec![debits.abs_diff(credits)]
            }
            Tail => {
                let deleghe = kinds[..at].iter().filter(|&&kind| kind == Some(Payer)).count();
                vec![deleghe as u64, balances.iter().sum(), at as u64 + 1]
            }
            _ => continue,
        };
        let record = &mut flow[at * RECORD..(at + 1) * RECORD];
        for (&(start, width), value) in kind.stored().iter().zip(values) {
            let field = &mut record[start - 1..start - 1 + width];
            if field.iter().any(|byte| !(32..=126).contains(byte)) {
                continue;
            }
            if width == 1 {
                field[0] = value as u8;
            } else {
                stored.too_large |= value >= 10_u64.pow(width as u32);
                put(record, start, width, value);
            }
        }
    }
    stored
}

/// Debits and credits of the lines among these records.
fn sums(flow: &[u8], kinds: &[Option<Kind>], records: Range<usize>) -> (u64, u64) {
    let mut sums = (0, 0);
    for at in records {
        if let Some(Line(section)) = kinds[at] {
            let record = &flow[at * RECORD..(at + 1) * RECORD];
            sums.0 += get(record, SECTIONS[section].debit, AMOUNT);
            sums.1 += get(record, SECTIONS[section].credit, AMOUNT);
        }
    }
    sums
}

/// The fields that are not the same in both, by record and start.
pub fn changed(before: &[u8], after: &[u8], kinds: &[Option<Kind>]) -> Vec<[u64; 2]> {
    let mut changed = Vec::new();
    for (at, kind) in kinds.iter().enumerate() {
        for &(start, width) in kind.map_or(&[][..], Kind::stored) {
            let field = at * RECORD + start - 1..at * RECORD + start - 1 + width;
            if before[field.clone()] != after[field] {
                changed.push([at as u64 + 1, start as u64]);
            }
        }
    }
    changed
}

/// The same records, with 1 for every amount that is not zero and 1,000 for the
/// first such debit of each delega: so none is negative that has a debit.
fn with_small_amounts(flow: &[u8], kinds: &[Option<Kind>]) -> Vec<u8> {
    let mut small = flow.to_vec();
    let mut first = true;
    for (record, kind) in small.chunks_exact_mut(RECORD).zip(kinds) {
        match kind {
            Some(Payer) => first = true,
            &Some(Line(section)) => {
                for start in [SECTIONS[section].debit, SECTIONS[section].credit] {
                    let field = &record[start - 1..start - 1 + AMOUNT];
                    if field.iter().all(u8::is_ascii_digit) && get(record, start, AMOUNT) > 0 {
                        let large = first && start == SECTIONS[section].debit;
                        put(record, start, AMOUNT, if large { 1000 } else { 1 });
                        first &= !large;
                    }
                }
            }
            _ => (),
        }
    }
    small
}
