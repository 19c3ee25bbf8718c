//! Damages in the fields of a V: of its rows, its final balance, and what nobody reads.

use crate::ep_columns::*;
use crate::ep_damage::{Damage, Effect};
use crate::ep_sound::{text_of, used_type, Form, Set};
use crate::rng::Rng;

/// The sorts that are 32, that are 33, and that must not matter.
#[rustfmt::skip]
pub const FIELDS: [(Damage, &str); 29] = [
    (debit_first, "32: a debit's first place"), (debit_last, "32: a debit's last place"),
    (debit_between, "32: a debit's middle"), (row_28, "32: row 28's debit"), (row_1, "32: row 1's debit"),
    (blank_debit, "32: a blank debit"), (blanks_for_zeros, "32: blanks for leading zeros"),
    (balance_first, "32: the balance's first place"), (balance_last, "32: the balance's last place"),
    (balance_between, "32: the balance's middle"), (blank_balance, "32: a blank balance"),
    (balance_and_debit, "32: the balance and a debit"), (used_garbage, "32: an unused row, used"),
    (digits_and_sum, "32: and the sum is wrong"),
    (balance_cent, "33: the balance a cent off"), (another_balance, "33: another balance"),
    (another_debit, "33: another debit"), (without_row_28, "33: without row 28"),
    (without_row, "33: without another row"),
    (with_unused, "33: with an unused row"), (sixteen_digits, "33: sixteen digits"),
    (wrong_column, "33: the section's balance"), (made_unused, "33: a used row, unused"),
    (made_used, "33: an unused row, used"), (moved_balance, "33: a balance moved"),
    (unread_debit, "an unused row's debit"), (another_type, "another type of a used row"),
    (same_sum, "rows of the same sum"), (elsewhere, "what nobody reads"),
];

/// A V: its M's place and its own among that one's V's.
#[derive(Clone, Copy)]
pub struct Spot {
    pub payment: usize,
    pub form: usize,
}

impl Spot {
    pub fn any(rng: &mut Rng, set: &Set) -> Self {
        let payment = rng.place(set.payments.len());
        let forms = set.payments[payment].forms.len();
        let any = rng.place(forms);
        Spot { payment, form: rng.pick(&[0, forms - 1, any]) }
    }

    /// Its record, counted from 0.
    pub fn at(&self, set: &Set) -> usize {
        set.payments[self.payment].at + 1 + self.form
    }

    fn of<'a>(&self, set: &'a Set) -> &'a Form {
        &set.payments[self.payment].forms[self.form]
    }
}

/// A V that has a used row, or an unused one, and that row.
fn with_row(rng: &mut Rng, set: &Set, used: bool) -> Option<(Spot, usize)> {
    let spot = Spot::any(rng, set);
    let places = spot.of(set).places(used);
    Some((spot, *places.get(rng.place(places.len().max(1)))?))
}

/// Often one that a careless reader takes for a digit.
pub fn non_digit(rng: &mut Rng) -> u8 {
    match rng.below(4) {
        0 => b' ',
        1 => rng.pick(b"-+.,/:;OoxlI\0\x09\x0a\x0d\xff"),
        2 => b'0' + rng.below(10) as u8 + rng.pick(&[128, 64, 16, 32]),
        _ => Some(rng.below(256) as u8).filter(|byte| !byte.is_ascii_digit()).unwrap_or(b'x'),
    }
}

/// Puts non-digits into a field, the first of them at a place of it, with others
/// behind it now and then.
fn put_non_digit(rng: &mut Rng, field: &mut [u8], place: usize) {
    field[place] = non_digit(rng);
    if rng.one_in(4) {
        field[place..].iter_mut().for_each(|byte| *byte = non_digit(rng));
    }
}

fn field_of(set: &mut Set, at: usize, position: usize) -> &mut [u8] {
    &mut set.record(at)[position - 1..position - 1 + WIDTH]
}

/// A used debit with a non-digit at a place that is chosen.
fn in_debit(rng: &mut Rng, set: &mut Set, row: Option<usize>, place: usize) -> Option<Effect> {
    let (spot, any) = with_row(rng, set, true)?;
    let row = row.unwrap_or(any);
    spot.of(set).rows[row]?;
    let at = spot.at(set);
    put_non_digit(rng, field_of(set, at, DEBIT_AT[row]), place);
    Some(Effect::refused(32, at))
}

fn debit_first(rng: &mut Rng, set: &mut Set) -> Option<Effect> {
    in_debit(rng, set, None, 0)
}

fn debit_last(rng: &mut Rng, set: &mut Set) -> Option<Effect> {
    in_debit(rng, set, None, WIDTH - 1)
}

fn debit_between(rng: &mut Rng, set: &mut Set) -> Option<Effect> {
    let place = 1 + rng.place(WIDTH - 2);
    in_debit(rng, set, None, place)
}

fn row_28(rng: &mut Rng, set: &mut Set) -> Option<Effect> {
    let place = rng.place(WIDTH);
    in_debit(rng, set, Some(ROWS - 1), place)
}

fn row_1(rng: &mut Rng, set: &mut Set) -> Option<Effect> {
    let place = rng.place(WIDTH);
    in_debit(rng, set, Some(0), place)
}

fn blank_debit(rng: &mut Rng, set: &mut Set) -> Option<Effect> {
    let (spot, row) = with_row(rng, set, true)?;
    let at = spot.at(set);
    field_of(set, at, DEBIT_AT[row]).fill(rng.pick(b"    \0-"));
    Some(Effect::refused(32, at))
}

fn blanks_for_zeros(rng: &mut Rng, set: &mut Set) -> Option<Effect> {
    let (spot, row) = with_row(rng, set, true)?;
    let at = spot.at(set);
    let position = rng.pick(&[FINAL_BALANCE, DEBIT_AT[row]]);
    let field = field_of(set, at, position);
    let zeros = field.iter().take_while(|&&byte| byte == b'0').count();
    if zeros == 0 {
        return None;
    }
    field[..zeros].fill(b' ');
    Some(Effect::refused(32, at))
}

fn in_balance(rng: &mut Rng, set: &mut Set, place: usize) -> Option<Effect> {
    let at = Spot::any(rng, set).at(set);
    put_non_digit(rng, field_of(set, at, FINAL_BALANCE), place);
    Some(Effect::refused(32, at))
}

fn balance_first(rng: &mut Rng, set: &mut Set) -> Option<Effect> {
    in_balance(rng, set, 0)
}

fn balance_last(rng: &mut Rng, set: &mut Set) -> Option<Effect> {
    in_balance(rng, set, WIDTH - 1)
}

fn balance_between(rng: &mut Rng, set: &mut Set) -> Option<Effect> {
    let place = 1 + rng.place(WIDTH - 2);
    in_balance(rng, set, place)
}

fn blank_balance(rng: &mut Rng, set: &mut Set) -> Option<Effect> {
    let at = Spot::any(rng, set).at(set);
    field_of(set, at, FINAL_BALANCE).fill(rng.pick(b"    \0-"));
    Some(Effect::refused(32, at))
}

fn balance_and_debit(rng: &mut Rng, set: &mut Set) -> Option<Effect> {
    let (spot, row) = with_row(rng, set, true)?;
    let at = spot.at(set);
    for position in [FINAL_BALANCE, DEBIT_AT[row]] {
        let place = rng.place(WIDTH);
        put_non_digit(rng, field_of(set, at, position), place);
    }
    Some(Effect::refused(32, at))
}

/// An unused row gets a type; its debit has a non-digit, as it mostly has anyway.
fn used_garbage(rng: &mut Rng, set: &mut Set) -> Option<Effect> {
    let (spot, row) = with_row(rng, set, false)?;
    let at = spot.at(set);
    let kind = used_type(rng);
    set.record(at)[TYPE_AT[row] - 1] = kind;
    let field = field_of(set, at, DEBIT_AT[row]);
    if field.iter().all(u8::is_ascii_digit) {
        field[rng.place(WIDTH)] = non_digit(rng);
    }
    Some(Effect::refused(32, at))
}

/// A non-digit, and a balance that is not the sum either.
fn digits_and_sum(rng: &mut Rng, set: &mut Set) -> Option<Effect> {
    let (spot, row) = with_row(rng, set, true)?;
    let at = spot.at(set);
    let place = rng.place(WIDTH);
    put_non_digit(rng, field_of(set, at, DEBIT_AT[row]), place);
    let balance = other_than(rng, spot.of(set).sum());
    put_amount(set.record(at), FINAL_BALANCE, balance);
    Some(Effect::refused(32, at))
}

/// What an amount is the same without, in fewer bits.
pub const FEWER: [u64; 7] = [1 << 8, 1 << 16, 1 << 24, 1 << 31, 1 << 32, 1 << 32, 1 << 48];

/// Another amount.
fn other_than(rng: &mut Rng, amount: u64) -> u64 {
    let other = match rng.below(6) {
        0 => 0,
        1 => amount.wrapping_add(rng.pick(&[1, 100, 10_000])),
        2 => amount % 10u64.pow(rng.below(15) as u32),
        3 => amount % rng.pick(&FEWER),
        4 => amount + rng.pick(&FEWER),
        _ => rng.wide(MOST_DEBIT),
    };
    Some(other).filter(|&other| other != amount && other <= MOST_DEBIT).unwrap_or(u64::from(amount == 0))
}

/// A V with a balance that is not its sum; in half of the cases the total of its M
/// follows it.
fn lie(rng: &mut Rng, set: &mut Set, spot: Spot, balance: u64) -> Option<Effect> {
    let (at, sum) = (spot.at(set), spot.of(set).sum());
    if balance == sum || balance > MOST_DEBIT {
        return None;
    }
    put_amount(set.record(at), FINAL_BALANCE, balance);
    follow(rng, set, spot, sum, balance);
    Some(Effect::refused(33, at))
}

/// In half of the cases the total has this in the place of a V's sum.
fn follow(rng: &mut Rng, set: &mut Set, spot: Spot, sum: u64, told: u64) {
    let payment = &set.payments[spot.payment];
    let (at, total) = (payment.at, payment.sum() - sum + told);
    if let Some(text) = text_of(total).filter(|_| rng.one_in(2)) {
        put(set.record(at), TOTAL, &text);
    }
}

fn balance_cent(rng: &mut Rng, set: &mut Set) -> Option<Effect> {
    let spot = Spot::any(rng, set);
    let sum = spot.of(set).sum();
    let balance = if rng.one_in(2) { sum + 1 } else { sum.checked_sub(1)? };
    lie(rng, set, spot, balance)
}

fn another_balance(rng: &mut Rng, set: &mut Set) -> Option<Effect> {
    let spot = Spot::any(rng, set);
    let balance = other_than(rng, spot.of(set).sum());
    lie(rng, set, spot, balance)
}

fn another_debit(rng: &mut Rng, set: &mut Set) -> Option<Effect> {
    let (spot, row) = with_row(rng, set, true)?;
    let (at, old) = (spot.at(set), spot.of(set).rows[row]?);
    let debit = match rng.below(3) {
        0 => {
            let digit = 10u64.pow(rng.below(15) as u32);
            if old / digit % 10 < 9 {
                old + digit
            } else {
                old - digit
            }
        }
        _ => other_than(rng, old),
    };
    put_amount(set.record(at), DEBIT_AT[row], debit);
    let sum = spot.of(set).sum();
    follow(rng, set, spot, sum, sum - old + debit);
    Some(Effect::refused(33, at))
}

fn without_row_28(rng: &mut Rng, set: &mut Set) -> Option<Effect> {
    let spot = Spot::any(rng, set);
    let balance = spot.of(set).sum() - spot.of(set).rows[ROWS - 1]?;
    lie(rng, set, spot, balance)
}

fn without_row(rng: &mut Rng, set: &mut Set) -> Option<Effect> {
    let (spot, row) = with_row(rng, set, true)?;
    let row = if rng.one_in(2) { 0 } else { row };
    let balance = spot.of(set).sum() - spot.of(set).rows[row]?;
    lie(rng, set, spot, balance)
}

fn with_unused(rng: &mut Rng, set: &mut Set) -> Option<Effect> {
    let (spot, row) = with_row(rng, set, false)?;
    let (at, debit) = (spot.at(set), 1 + rng.wide(MOST_TOTAL));
    put_amount(set.record(at), DEBIT_AT[row], debit);
    let balance = spot.of(set).sum() + debit;
    lie(rng, set, spot, balance)
}

/// Rows of more than fifteen digits, and their last fifteen as the balance.
fn sixteen_digits(rng: &mut Rng, set: &mut Set) -> Option<Effect> {
    let spot = Spot::any(rng, set);
    let used = spot.of(set).places(true);
    let at = spot.at(set);
    let mut rows = 0;
    let all = rng.one_in(2);
    for &row in &used {
        let debit = if all { MOST_DEBIT } else { rng.between(MOST_DEBIT / 2, MOST_DEBIT) };
        put_amount(set.record(at), DEBIT_AT[row], debit);
        rows += debit;
    }
    if rows <= MOST_DEBIT {
        return None;
    }
    let balance = match rng.below(4) {
        0 => MOST_DEBIT,
        _ => rows % (MOST_DEBIT + 1),
    };
    put_amount(set.record(at), FINAL_BALANCE, balance);
    let sum = spot.of(set).sum();
    follow(rng, set, spot, sum, balance);
    Some(Effect::refused(33, at))
}

/// The sum stands where the section's balance is, or its debits, and another number in
/// the place of the final one.
fn wrong_column(rng: &mut Rng, set: &mut Set) -> Option<Effect> {
    let spot = Spot::any(rng, set);
    let (at, sum) = (spot.at(set), spot.of(set).sum());
    for position in [SECTION_DEBITS, SECTION_BALANCE] {
        put_amount(set.record(at), position, sum);
    }
    let balance = other_than(rng, sum);
    put_amount(set.record(at), FINAL_BALANCE, balance);
    Some(Effect::refused(33, at))
}

fn made_unused(rng: &mut Rng, set: &mut Set) -> Option<Effect> {
    let (spot, row) = with_row(rng, set, true)?;
    let (at, debit) = (spot.at(set), spot.of(set).rows[row].filter(|&debit| debit > 0)?);
    set.record(at)[TYPE_AT[row] - 1] = b' ';
    let sum = spot.of(set).sum();
    follow(rng, set, spot, sum, sum - debit);
    Some(Effect::refused(33, at))
}

fn made_used(rng: &mut Rng, set: &mut Set) -> Option<Effect> {
    let (spot, row) = with_row(rng, set, false)?;
    let (at, debit) = (spot.at(set), 1 + rng.wide(MOST_TOTAL));
    let kind = used_type(rng);
    set.record(at)[TYPE_AT[row] - 1] = kind;
    put_amount(set.record(at), DEBIT_AT[row], debit);
    let sum = spot.of(set).sum();
    follow(rng, set, spot, sum, sum + debit);
    Some(Effect::refused(33, at))
}

/// The balance's digits a column too far to the left or to the right.
fn moved_balance(rng: &mut Rng, set: &mut Set) -> Option<Effect> {
    let spot = Spot::any(rng, set);
    let sum = spot.of(set).sum();
    let balance = if rng.one_in(2) { sum / 10 } else { sum % (MOST_DEBIT / 10 + 1) * 10 + rng.below(10) };
    lie(rng, set, spot, balance)
}

fn unread_debit(rng: &mut Rng, set: &mut Set) -> Option<Effect> {
    let (spot, row) = with_row(rng, set, false)?;
    let at = spot.at(set);
    match rng.below(4) {
        0 => put_amount(set.record(at), DEBIT_AT[row], 1 + rng.wide(MOST_DEBIT - 1)),
        1 => field_of(set, at, DEBIT_AT[row]).fill(b' '),
        2 => field_of(set, at, DEBIT_AT[row]).fill(b'9'),
        _ => put_non_digit(rng, field_of(set, at, DEBIT_AT[row]), 0),
    }
    Some(Effect::Same)
}

fn another_type(rng: &mut Rng, set: &mut Set) -> Option<Effect> {
    let (spot, row) = with_row(rng, set, true)?;
    let (at, kind) = (spot.at(set), used_type(rng));
    set.record(at)[TYPE_AT[row] - 1] = kind;
    Some(Effect::Same)
}

/// Two debits exchanged, or a row of zero more or less.
fn same_sum(rng: &mut Rng, set: &mut Set) -> Option<Effect> {
    let used = rng.one_in(2);
    let (spot, row) = with_row(rng, set, used)?;
    let at = spot.at(set);
    if !used {
        let kind = used_type(rng);
        set.record(at)[TYPE_AT[row] - 1] = kind;
        put_amount(set.record(at), DEBIT_AT[row], 0);
    } else if spot.of(set).rows[row] == Some(0) {
        set.record(at)[TYPE_AT[row] - 1] = b' ';
    } else {
        let places = spot.of(set).places(true);
        let other = rng.pick(&places);
        let (one, two) = (spot.of(set).rows[row]?, spot.of(set).rows[other]?);
        put_amount(set.record(at), DEBIT_AT[row], two);
        put_amount(set.record(at), DEBIT_AT[other], one);
    }
    Some(Effect::Same)
}

/// Other bytes in the columns between the types, the debits and the balance, and in an
/// M before its total and behind it.
fn elsewhere(rng: &mut Rng, set: &mut Set) -> Option<Effect> {
    let at = rng.place(set.records());
    let parts: &[(usize, usize)] = match set.record(at)[0] {
        b'M' => &[(2, 1872), (1888, 1900), (1872, 1872), (1888, 1888)],
        _ => &[(2, 99), (1668, 1787), (1803, 1900), (1787, 1787), (1803, 1803), (101, 140), (1613, 1652), (1668, 1668)],
    };
    let (from, to) = rng.pick(parts);
    let byte = rng.pick(&[None, Some(b' '), Some(b'0'), Some(b'9'), Some(0), Some(255)]);
    for place in from..=to {
        set.record(at)[place - 1] = byte.unwrap_or(rng.below(256) as u8);
    }
    Some(Effect::Same)
}
