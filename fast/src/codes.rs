//! Refusal 26: the taxpayer's code, as document 02 has it. A person's code is
//! looked up character by character and added up with no branch; a firm's is
//! tested and added up by two words.

use crate::layout::*;
use crate::words::{all_digits, bytes, each, word};

/// What no place may hold counts more than all that is allowed together, which
/// is less than sixteen times 26.
const WRONG: u16 = 512;

/// What a character counts, by its byte; none is above 126.
type Values = [u16; 128];

/// "In even places a digit counts itself and a letter its place from A as 0; in
/// odd places A to Z count", by the place that a letter has from A.
const EVEN: [u16; 26] = [0, 1, 2, 3, 4, 5, 6, 7, 8, 9, 10, 11, 12, 13, 14, 15, 16, 17, 18, 19, 20, 21, 22, 23, 24, 25];
const ODD: [u16; 26] = [1, 0, 5, 7, 9, 13, 15, 17, 19, 21, 2, 4, 18, 20, 11, 3, 6, 8, 12, 14, 16, 10, 22, 25, 24, 23];

/// The last letter, "A is 0", brings the sum of all sixteen up to a multiple
/// of 26.
const LAST: [u16; 26] = [26, 25, 24, 23, 22, 21, 20, 19, 18, 17, 16, 15, 14, 13, 12, 11, 10, 9, 8, 7, 6, 5, 4, 3, 2, 1];

/// Capital letters alone.
const fn letters(row: [u16; 26]) -> Values {
    let mut values = [WRONG; 128];
    let mut at = 0;
    while at < 26 {
        values[b'A' as usize + at] = row[at];
        at += 1;
    }
    values
}

/// "digits, or L M N P Q R S T U V for 0 to 9"; "0 to 9 count as A to J".
const fn digits(row: [u16; 26]) -> Values {
    let mut values = [WRONG; 128];
    let standing_in = *b"LMNPQRSTUV";
    let mut at = 0;
    while at < 10 {
        values[b'0' as usize + at] = row[at];
        values[standing_in[at] as usize] = row[(standing_in[at] - b'A') as usize];
        at += 1;
    }
    values
}

static ODD_LETTER: Values = letters(ODD);
static EVEN_LETTER: Values = letters(EVEN);
static ODD_DIGIT: Values = digits(ODD);
static EVEN_DIGIT: Values = digits(EVEN);
static LAST_LETTER: Values = letters(LAST);

/// "Places 7, 8, 10, 11 and 13 to 15 hold digits .. the others capital letters."
#[rustfmt::skip]
static PLACES: [&Values; CODE_WIDTH] = [
    &ODD_LETTER, &EVEN_LETTER, &ODD_LETTER, &EVEN_LETTER, &ODD_LETTER, &EVEN_LETTER,
    &ODD_DIGIT, &EVEN_DIGIT, &ODD_LETTER, &EVEN_DIGIT, &ODD_DIGIT, &EVEN_LETTER,
    &ODD_DIGIT, &EVEN_DIGIT, &ODD_DIGIT, &LAST_LETTER,
];

/// Whether there can be such a code as the record 10 has. No code of a firm
/// starts as one of a person does.
#[inline(always)]
pub fn passes(record: &Record) -> bool {
    if record[CODE - 1] < b'A' {
        firm(record)
    } else {
        person(record)
    }
}

#[inline(always)]
fn person(record: &Record) -> bool {
    let code: [u8; CODE_WIDTH] = bytes(record, CODE);
    let sum: u16 = PLACES.iter().zip(code).map(|(values, byte)| values[usize::from(byte & 127)]).sum();
    sum < WRONG && sum % 26 == 0
}

/// "Eleven digits (a VAT number) and five spaces: with even places doubled, less
/// 9 if above 9, all eleven sum to a multiple of ten."
#[inline(always)]
fn firm(record: &Record) -> bool {
    const SPACES: u64 = 0xFFFF_FFFF_FF00_0000;
    // Spaces become zeros as digits do; the first place is in the lowest byte.
    let first = word(record, CODE) ^ each(b'0');
    let second = word(record, CODE + 8) ^ u64::from_le_bytes(*b"000     ");
    if second & SPACES != 0 || !all_digits([first, second]) {
        return false;
    }
    // Eight columns up to 18, which a multiplication adds up in the highest.
    let columns = counted(first) + counted(second);
    (columns.wrapping_mul(each(1)) >> 56) % 10 == 0
}

/// Eight digits with every second doubled.
#[inline(always)]
fn counted(digits: u64) -> u64 {
    const EVEN_PLACES: u64 = 0xFF00_FF00_FF00_FF00;
    let even = digits & EVEN_PLACES;
    // 5 and more are above 9 when they are doubled.
    let above = (even + each(128 - 5)) >> 7 & each(1);
    digits + even - 9 * above
}
