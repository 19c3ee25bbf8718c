//! Texts of an M's total that are not the one of its sum.

use crate::ep_columns::*;
use crate::ep_damage::Effect;
use crate::ep_fields::FEWER;
use crate::ep_sound::{text_of, Set};
use crate::rng::Rng;

/// The M that gets one, and its sum.
pub struct Of<'a> {
    set: &'a Set,
    payment: usize,
    sum: u64,
}

/// A text, or none where this sum or this set has none of the sort. Spaces follow it,
/// and what is beyond fifteen characters is cut off.
pub type Text = fn(&mut Rng, &Of) -> Option<Vec<u8>>;

/// The sorts of wrong texts.
#[rustfmt::skip]
pub const TEXTS: [(Text, &str); 25] = [
    (leading_zeros, "leading zeros"), (missing_dots, "missing dots"), (dots_elsewhere, "dots elsewhere"),
    (dots_beyond, "dots from ten digits on"), (no_comma, "no comma, or elsewhere"), (decimals, "no two decimals"),
    (in_front, "spaces in front"), (within, "a space within"), (padding, "not spaces behind"), (sign, "a sign"),
    (cent, "a cent off"), (digit, "another digit"), (character, "another character"), (nothing, "no number"),
    (anything, "any characters"), (of_all, "the sum of all M"), (of_some, "the sum of some of its V"),
    (of_another, "another M's sum"), (running, "the sum up to it"), (without_row, "without a row"),
    (with_unused, "with an unused row"), (scaled, "euros for cents"), (moved, "moved by a column"),
    (fewer_bits, "fewer bits or digits"), (as_balance, "as a balance"),
];

/// Gives one of the M's, with V's, a wrong text of this sort.
pub fn spoil(rng: &mut Rng, set: &mut Set, sort: Text) -> Option<Effect> {
    let payment = rng.place(set.payments.len());
    spoil_one(rng, set, payment, sort)
}

/// The same of the M with this place.
pub fn spoil_one(rng: &mut Rng, set: &mut Set, payment: usize, sort: Text) -> Option<Effect> {
    let sum = set.payments[payment].sum();
    let text = sort(rng, &Of { set, payment, sum })?;
    let mut field = [b' '; WIDTH];
    let length = text.len().min(WIDTH);
    field[..length].copy_from_slice(&text[..length]);
    if text_of(sum) == Some(field) {
        return None;
    }
    let at = set.payments[payment].at;
    put(set.record(at), TOTAL, &field);
    Some(Effect::refused(33, at))
}

/// A wrong text of any sort.
pub fn spoil_any(rng: &mut Rng, set: &mut Set, payment: usize) -> Option<Effect> {
    let sort = rng.pick(&TEXTS).0;
    spoil_one(rng, set, payment, sort)
}

fn euros(of: &Of) -> String {
    (of.sum / 100).to_string()
}

fn cents(of: &Of) -> String {
    format!("{:02}", of.sum % 100)
}

/// Digits in groups of so many, from behind, with a dot between them.
fn grouped(digits: &str, by: usize) -> String {
    let groups: Vec<&[u8]> = digits.as_bytes().rchunks(by).rev().collect();
    String::from_utf8(groups.join(&b'.')).expect("digits and dots")
}

/// The right text of what has one, without the spaces behind it.
fn right(of: &Of) -> Option<String> {
    let text = text_of(of.sum)?;
    Some(String::from_utf8_lossy(&text).trim_end().to_string())
}

/// What stands before the comma in it.
fn whole(of: &Of) -> Option<String> {
    let right = right(of)?;
    Some(right[..right.len() - 3].to_string())
}

fn fits(text: String) -> Option<Vec<u8>> {
    Some(text.into_bytes()).filter(|text| text.len() <= WIDTH)
}

/// The text of another sum.
fn of_sum(sum: u64) -> Option<Vec<u8>> {
    text_of(sum).map(|text| text.to_vec())
}

fn leading_zeros(rng: &mut Rng, of: &Of) -> Option<Vec<u8>> {
    let euros = euros(of);
    let most = 12_usize.checked_sub(euros.len()).filter(|&most| most > 0)?;
    let zeros = match rng.below(3) {
        0 => 1,
        1 => most,
        _ => 1 + rng.place(most),
    };
    let longer = "0".repeat(zeros) + &euros;
    let whole = match rng.below(3) {
        0 => longer,
        1 => "0".repeat(zeros) + &grouped(&euros, 3),
        _ => grouped(&longer, 3),
    };
    fits(format!("{whole},{}", cents(of)))
}

fn missing_dots(rng: &mut Rng, of: &Of) -> Option<Vec<u8>> {
    let (euros, cents) = (euros(of), cents(of));
    if !(4..=9).contains(&euros.len()) {
        return None;
    }
    let (front, last) = euros.split_at(euros.len() - 3);
    let whole = match rng.below(3) {
        0 if front.len() > 3 => format!("{front}.{last}"),
        1 if front.len() > 3 => grouped(front, 3) + last,
        _ => euros,
    };
    fits(format!("{whole},{cents}"))
}

fn dots_elsewhere(rng: &mut Rng, of: &Of) -> Option<Vec<u8>> {
    let (euros, cents, right) = (euros(of), cents(of), right(of)?);
    let mut moved = right.clone().into_bytes();
    match rng.below(4) {
        0 => fits(format!("{},{cents}", grouped(&euros, rng.pick(&[1, 2, 4, 5])))),
        1 => {
            moved.insert(rng.place(moved.len() + 1), b'.');
            Some(moved).filter(|text| text.len() <= WIDTH)
        }
        2 => {
            let dot = moved.iter().position(|&byte| byte == b'.')?;
            let other = if rng.one_in(2) { dot + 1 } else { dot - 1 };
            moved.swap(dot, other);
            Some(moved)
        }
        _ => {
            // Groups from the left.
            let groups: Vec<&[u8]> = euros.as_bytes().chunks(3).collect();
            let whole = String::from_utf8(groups.join(&b'.')).expect("digits and dots");
            fits(format!("{whole},{cents}"))
        }
    }
}

fn dots_beyond(rng: &mut Rng, of: &Of) -> Option<Vec<u8>> {
    let (euros, cents) = (euros(of), cents(of));
    if euros.len() < 10 {
        return None;
    }
    if rng.one_in(3) {
        return Some(format!("{},{cents}", grouped(&euros, 3)).into_bytes());
    }
    // Some of the dots, as many as fit.
    let mut whole = euros.clone();
    for place in [3, 6, 9] {
        if whole.len() + 3 < WIDTH && rng.one_in(2) {
            whole.insert(euros.len() - place, '.');
        }
    }
    fits(format!("{whole},{cents}"))
}

fn no_comma(rng: &mut Rng, of: &Of) -> Option<Vec<u8>> {
    let (euros, cents, whole) = (euros(of), cents(of), whole(of)?);
    fits(match rng.below(7) {
        0 => format!("{whole}{cents}"),
        1 => format!("{euros}{cents}"),
        2 => format!("{whole}.{cents}"),
        3 => format!("{},{cents}", whole.replace('.', ",")),
        4 => format!("{}.{cents}", whole.replace('.', ",")),
        5 => format!("{whole}{}{}", &cents[..1], ",".to_string() + &cents[1..]),
        _ => format!("{whole} {cents}"),
    })
}

fn decimals(rng: &mut Rng, of: &Of) -> Option<Vec<u8>> {
    let (cents, whole) = (cents(of), whole(of)?);
    fits(match rng.below(5) {
        0 => format!("{whole},{}", &cents[..1]),
        1 => format!("{whole},"),
        2 => whole,
        3 => format!("{whole},{cents}{}", rng.below(10)),
        _ => format!("{whole},0{cents}"),
    })
}

fn in_front(rng: &mut Rng, of: &Of) -> Option<Vec<u8>> {
    let right = right(of)?;
    let most = WIDTH.checked_sub(right.len()).filter(|&most| most > 0)?;
    let spaces = match rng.below(3) {
        0 => 1,
        1 => most,
        _ => 1 + rng.place(most),
    };
    fits(" ".repeat(spaces) + &right)
}

fn within(rng: &mut Rng, of: &Of) -> Option<Vec<u8>> {
    let mut right = right(of)?;
    if rng.one_in(2) && right.contains('.') {
        return fits(right.replace('.', " "));
    }
    right.insert(1 + rng.place(right.len() - 1), ' ');
    fits(right)
}

fn padding(rng: &mut Rng, of: &Of) -> Option<Vec<u8>> {
    let right = right(of)?.into_bytes();
    let room = WIDTH.checked_sub(right.len()).filter(|&room| room > 0)?;
    let byte = match rng.below(4) {
        0 => 0,
        1 => rng.pick(&[b'0', b'.', b',', 9, 10, 13, 160, 255, b'_', b'-', 31, 33]),
        _ => rng.below(256) as u8,
    };
    let mut behind = vec![b' '; room];
    match rng.below(4) {
        0 => behind.fill(byte),
        1 => behind[0] = byte,
        2 => behind[room - 1] = byte,
        _ => behind[rng.place(room)] = byte,
    }
    Some([right, behind].concat())
}

fn sign(rng: &mut Rng, of: &Of) -> Option<Vec<u8>> {
    let (right, sign) = (right(of)?, rng.pick(&["+", "-", "E", "EUR ", "'", "\""]));
    fits(if rng.one_in(3) { right + sign } else { sign.to_string() + &right })
}

fn cent(rng: &mut Rng, of: &Of) -> Option<Vec<u8>> {
    of_sum(if rng.one_in(2) { of.sum + 1 } else { of.sum.checked_sub(1)? })
}

fn digit(rng: &mut Rng, of: &Of) -> Option<Vec<u8>> {
    let mut right = right(of)?.into_bytes();
    let digits: Vec<usize> = (0..right.len()).filter(|&at| right[at].is_ascii_digit()).collect();
    right[rng.pick(&digits)] = b'0' + rng.below(10) as u8;
    Some(right)
}

fn character(rng: &mut Rng, of: &Of) -> Option<Vec<u8>> {
    let mut field = text_of(of.sum)?.to_vec();
    let at = rng.place(WIDTH);
    field[at] = match rng.below(4) {
        0 => field[at] ^ 1 << rng.below(8),
        1 => rng.pick(b"/:.,+- ;\0"),
        2 => rng.pick(b"0123456789"),
        _ => rng.below(256) as u8,
    };
    Some(field)
}

fn nothing(rng: &mut Rng, _: &Of) -> Option<Vec<u8>> {
    let texts: [&[u8]; 10] = [
        b"",
        b"0",
        b",",
        b",00",
        b"0,",
        b"000000000000000",
        b"\0\0\0\0\0\0\0\0\0\0\0\0\0\0\0",
        b".",
        b"-",
        b"00000000000,0,0",
    ];
    Some(rng.pick(&texts).to_vec())
}

fn anything(rng: &mut Rng, _: &Of) -> Option<Vec<u8>> {
    let any = rng.one_in(2);
    Some((0..WIDTH).map(|_| if any { rng.below(256) as u8 } else { rng.pick(b"0123456789.,, ") }).collect())
}

fn of_all(_: &mut Rng, of: &Of) -> Option<Vec<u8>> {
    of_sum(of.set.sum())
}

fn of_some(rng: &mut Rng, of: &Of) -> Option<Vec<u8>> {
    let sums: Vec<u64> = of.set.payments[of.payment].forms.iter().map(|form| form.sum()).collect();
    if sums.len() < 2 {
        return None;
    }
    of_sum(match rng.below(4) {
        0 => sums[0],
        1 => sums[sums.len() - 1],
        2 => of.sum - sums[0],
        _ => of.sum - sums[sums.len() - 1],
    })
}

fn of_another(rng: &mut Rng, of: &Of) -> Option<Vec<u8>> {
    of_sum(rng.pick(&of.set.payments.iter().map(|payment| payment.sum()).collect::<Vec<u64>>()))
}

fn running(_: &mut Rng, of: &Of) -> Option<Vec<u8>> {
    of_sum(of.set.payments[..=of.payment].iter().map(|payment| payment.sum()).sum())
}

fn without_row(rng: &mut Rng, of: &Of) -> Option<Vec<u8>> {
    let row = rng.pick(&[0, ROWS - 1, ROWS - 1]);
    let debits = of.set.payments[of.payment].forms.iter().filter_map(|form| form.rows[row]);
    of_sum(of.sum - debits.sum::<u64>())
}

fn with_unused(_: &mut Rng, of: &Of) -> Option<Vec<u8>> {
    let payment = &of.set.payments[of.payment];
    let mut debits = Vec::new();
    for (form, at) in payment.forms.iter().zip(payment.at + 1..) {
        let record = &of.set.bytes[at * RECORD..(at + 1) * RECORD];
        let fields = form.places(false).into_iter().map(|row| field(record, DEBIT_AT[row]));
        let fields = fields.filter(|field| field.iter().all(u8::is_ascii_digit));
        debits.extend(fields.map(|field| field.iter().fold(0, |sum, digit| 10 * sum + u64::from(digit - b'0'))));
    }
    of_sum(of.sum + debits.first()?)
}

fn scaled(rng: &mut Rng, of: &Of) -> Option<Vec<u8>> {
    of_sum(rng.pick(&[of.sum / 100, of.sum / 10, of.sum * 10, of.sum * 100]))
}

fn moved(rng: &mut Rng, of: &Of) -> Option<Vec<u8>> {
    let right = right(of)?;
    let byte = if rng.one_in(4) { rng.below(256) as u8 } else { rng.pick(b" 0O") };
    Some(if rng.one_in(2) { right.into_bytes()[1..].to_vec() } else { [&[byte], right.as_bytes()].concat() })
}

fn fewer_bits(rng: &mut Rng, of: &Of) -> Option<Vec<u8>> {
    let digits = [1_000_000_000, 100_000_000_000, 10_000_000_000_000];
    let few = if rng.one_in(3) { rng.pick(&digits) } else { rng.pick(&FEWER) };
    of_sum(if rng.one_in(2) { of.sum % few } else { of.sum + few })
}

fn as_balance(rng: &mut Rng, of: &Of) -> Option<Vec<u8>> {
    fits(match rng.below(3) {
        0 => format!("{:015}", of.sum),
        1 => format!("{:012},{:02}", of.sum / 100, of.sum % 100),
        _ => of.sum.to_string(),
    })
}

/// What a program might write for a sum that has no text: cut, reduced or without a part.
pub fn of_too_large(rng: &mut Rng, sum: u64) -> Vec<u8> {
    let euros = sum / 100;
    match rng.below(8) {
        0 => format!("{euros},{:02}", sum % 100).into_bytes(),
        1 => of_sum(sum % (MOST_TOTAL + 1)).unwrap_or_default(),
        2 => format!("{:012},{:02}", euros % 1_000_000_000_000, sum % 100).into_bytes(),
        3 => of_sum(MOST_TOTAL).unwrap_or_default(),
        4 => sum.to_string().into_bytes(),
        5 => euros.to_string().into_bytes(),
        6 => of_sum(rng.pick(&[sum % (1 << 32), sum % (1 << 46), sum / 100, sum / 10_000])).unwrap_or_default(),
        _ => Vec::new(),
    }
}
