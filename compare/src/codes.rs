//! Which tax codes a record 10 is given: codes that can be, at the limits of the
//! rule, and what is none but close to one.

use crate::columns::*;
use crate::rng::Rng;
use crate::taxcodes::{check_digit, check_letter, holds_digit, Code, DIGITS, FIRM, LETTERS, STAND_INS};

/// So many characters stand before a person's check letter and a firm's check
/// digit.
pub const PERSON_BEGINS: usize = CODE_WIDTH - 1;
pub const FIRM_BEGINS: usize = FIRM - 1;

/// A code that can be.
pub fn sound(rng: &mut Rng) -> Code {
    match rng.below(20) {
        0..=6 => person(rng, false),
        7..=12 => person(rng, true),
        _ => firm(rng),
    }
}

/// Writes a code into a record 10.
pub fn set(record: &mut [u8], code: &Code) {
    record[CODE - 1..CODE - 1 + CODE_WIDTH].copy_from_slice(code);
}

/// A person's code, with letters for digits in one place, several or all.
fn person(rng: &mut Rng, with_letters: bool) -> Code {
    let mut code = match rng.below(16) {
        0 => *b"RSSMRA85T10A562S",
        // The least and the most that the fifteen can count, digits alone.
        1 => *b"BABABA10B01A101A",
        2 => *b"XZXZXZ99X99Z999 ",
        // One letter and one digit all over.
        3 => {
            let (letter, digit) = (rng.pick(LETTERS), rng.pick(DIGITS));
            each_place(|at| if holds_digit(at) { digit } else { letter })
        }
        _ => each_place(|at| if holds_digit(at) { rng.pick(DIGITS) } else { rng.pick(LETTERS) }),
    };
    if with_letters {
        let digits: Vec<usize> = (0..PERSON_BEGINS).filter(|&at| holds_digit(at)).collect();
        let one = rng.pick(&digits);
        let others = rng.pick(&[0, 0, 1, 2, 7]);
        for at in digits {
            if at == one || rng.below(7) < others {
                code[at] = rng.pick(STAND_INS);
            }
        }
    }
    mend(&mut code);
    if rng.one_in(8) {
        // Place 12 brings any letter about at the end.
        let wanted = rng.pick(b"AZ");
        LETTERS.iter().find(|&&letter| {
            code[11] = letter;
            mend(&mut code);
            code[PERSON_BEGINS] == wanted
        });
    }
    code
}

/// The check letter of a code that is otherwise a person's, or in whose places
/// others stand than may: what a careless check would have there.
fn mend(code: &mut Code) {
    if let Some(letter) = check_letter(&code[..PERSON_BEGINS]) {
        code[PERSON_BEGINS] = letter;
    }
}

fn each_place(mut character: impl FnMut(usize) -> u8) -> Code {
    let mut code = [b' '; CODE_WIDTH];
    for (at, byte) in code.iter_mut().enumerate() {
        *byte = character(at);
    }
    code
}

/// Eleven digits and five spaces.
fn firm(rng: &mut Rng) -> Code {
    let mut code = [b' '; CODE_WIDTH];
    let style = rng.below(12);
    let same = rng.pick(DIGITS);
    let zeros = if style == 2 { rng.place(FIRM) } else { 0 };
    for (at, byte) in code[..FIRM_BEGINS].iter_mut().enumerate() {
        *byte = match style {
            0 => b'0',
            1 => same,
            _ if at < zeros => b'0',
            _ => rng.pick(DIGITS),
        };
    }
    mend_firm(&mut code);
    if style == 3 {
        let wanted = rng.pick(b"09");
        end_in(&mut code, wanted);
    }
    code
}

/// Brings this digit about at a firm's end, by its first place.
fn end_in(code: &mut Code, wanted: u8) {
    DIGITS.iter().find(|&&digit| {
        code[0] = digit;
        mend_firm(code);
        code[FIRM_BEGINS] == wanted
    });
}

fn mend_firm(code: &mut Code) {
    if let Some(digit) = check_digit(&code[..FIRM_BEGINS]) {
        code[FIRM_BEGINS] = digit;
    }
}

/// Gives a record 10 what is no code, or only by luck; one in six has another
/// fault besides, which comes before 26. In a sheet the number is not looked at.
pub fn spoil(rng: &mut Rng, record: &mut [u8]) {
    set(record, &wrong(rng));
    if rng.one_in(6) {
        spoil_otherwise(rng, record);
    }
}

/// A bad byte, another type, which may not stand where a record 10 may, even if
/// both its characters are changed, one after the other, or another number.
pub fn spoil_otherwise(rng: &mut Rng, record: &mut [u8]) {
    match rng.below(4) {
        0 => {
            let place = if rng.one_in(2) { CODE - 1 + rng.place(CODE_WIDTH) } else { rng.place(RECORD) };
            record[place] = rng.pick(&[0, 10, 31, 127, 128, 225, 255]);
        }
        1 => record[TYPE - 1 + rng.place(2)] = rng.pick(b"2346 Fe"),
        2 => record[DELEGA - 1 + rng.place(COUNT)] = rng.pick(b" /:Ox"),
        _ => record[DELEGA - 1 + rng.place(COUNT)] = b'0' + rng.below(10) as u8,
    }
}

/// Sixteen characters that are close to a code. Those that are mistyped may be
/// one by luck.
fn wrong(rng: &mut Rng) -> Code {
    let with_letters = rng.one_in(2);
    match rng.below(21) {
        0 | 1 => [b' '; CODE_WIDTH],
        2 | 3 => mistyped(rng, false),
        4 | 5 => mistyped(rng, true),
        6 | 7 => mistyped_firm(rng),
        8 | 9 => digits_not_eleven(rng),
        10 => behind_eleven(rng),
        11 | 12 => lower_case(rng, with_letters),
        13 | 14 => with_blanks(rng, with_letters),
        15 | 16 if rng.one_in(6) => digit_at_end(rng, with_letters),
        15 | 16 => out_of_place(rng, with_letters, true),
        17 | 18 => out_of_place(rng, with_letters, false),
        _ => other_character(rng),
    }
}

/// A person's code with another last letter, one character mistyped for another
/// of its sort, or two neighbours of one sort exchanged.
fn mistyped(rng: &mut Rng, with_letters: bool) -> Code {
    let mut code = person(rng, with_letters);
    let at = rng.place(CODE_WIDTH);
    match rng.below(4) {
        0 => code[PERSON_BEGINS] = another(rng, code[PERSON_BEGINS], LETTERS),
        1 => {
            let neighbours: Vec<usize> = (1..PERSON_BEGINS)
                .filter(|&at| holds_digit(at - 1) == holds_digit(at) && code[at - 1] != code[at])
                .collect();
            if let Some(at) = neighbours.get(at % neighbours.len().max(1)) {
                code.swap(at - 1, *at);
            }
        }
        // The digit that a letter stands for, or the letter for a digit.
        2 if with_letters && holds_digit(at) => {
            let digit = DIGITS.iter().chain(STAND_INS).position(|&byte| byte == code[at]).unwrap_or(0);
            code[at] = if digit < DIGITS.len() { STAND_INS[digit] } else { DIGITS[digit - DIGITS.len()] };
        }
        _ if !holds_digit(at) => code[at] = another(rng, code[at], LETTERS),
        _ if DIGITS.contains(&code[at]) => code[at] = another(rng, code[at], DIGITS),
        _ => code[at] = another(rng, code[at], STAND_INS),
    }
    code
}

/// A firm's with another last digit, one digit mistyped, or two neighbours
/// exchanged: 09 and 90 count the same.
fn mistyped_firm(rng: &mut Rng) -> Code {
    let mut code = firm(rng);
    match rng.below(4) {
        0 => code[FIRM_BEGINS] = another(rng, code[FIRM_BEGINS], DIGITS),
        1 => {
            let neighbours: Vec<usize> = (1..FIRM).filter(|&at| code[at - 1] != code[at]).collect();
            if !neighbours.is_empty() {
                let at = rng.pick(&neighbours);
                code.swap(at - 1, at);
            }
        }
        _ => {
            let at = rng.place(FIRM);
            code[at] = another(rng, code[at], DIGITS);
        }
    }
    code
}

/// One of these that is not this one.
fn another(rng: &mut Rng, byte: u8, among: &[u8]) -> u8 {
    let others: Vec<u8> = among.iter().copied().filter(|&other| other != byte).collect();
    rng.pick(&others)
}

/// Digits and blanks that are not eleven and five, though a careless check has
/// its sum right: zeros left out or put behind, the number at the right.
fn digits_not_eleven(rng: &mut Rng) -> Code {
    let mut code = firm(rng);
    match rng.below(7) {
        0 => code.rotate_right(rng.pick(&[1, 1, 2, 5, 5])),
        1 => {
            // Ten whose sum is right already.
            end_in(&mut code, b'0');
            code[FIRM_BEGINS] = b' ';
        }
        2 => {
            let more = rng.pick(&[1, 2, 3, 4, 5, 5, 5]);
            code[FIRM..FIRM + more].fill(b'0');
        }
        3 => {
            let zeros: Vec<usize> = (0..FIRM).filter(|&at| code[at] == b'0').collect();
            let at = if zeros.is_empty() { rng.place(FIRM) } else { rng.pick(&zeros) };
            code[at] = b' ';
        }
        4 => code[FIRM..].iter_mut().for_each(|byte| *byte = rng.pick(DIGITS)),
        5 => code[FIRM + rng.place(CODE_WIDTH - FIRM)] = rng.pick(DIGITS),
        _ => {
            let fewer = rng.place(FIRM);
            code[fewer..].fill(b' ');
        }
    }
    code
}

/// Eleven digits whose sum is right, and more than spaces behind them; or whose
/// sum is that of one who counts on from the space.
fn behind_eleven(rng: &mut Rng) -> Code {
    let mut code = firm(rng);
    let any = FIRM + rng.place(CODE_WIDTH - FIRM);
    let at = rng.pick(&[FIRM, PERSON_BEGINS, any]);
    if rng.one_in(2) {
        let counts = rng.between(1, 9);
        code[at] = b' ' + counts as u8;
        turn(&mut code[FIRM_BEGINS], DIGITS, -in_firm(at, counts as i64));
        return code;
    }
    let byte = rng.pick(b"AAZLOaz!~/:");
    code[at] = byte;
    if rng.one_in(4) {
        code[FIRM..].fill(byte);
    }
    code
}

/// What a number counts in this place of a firm's code, counted from 0.
fn in_firm(at: usize, number: i64) -> i64 {
    match (at % 2, 2 * number) {
        (0, _) => number,
        (_, doubled) if doubled > 9 => doubled - 9,
        (_, doubled) => doubled,
    }
}

/// One letter small, the last alone, or all.
fn lower_case(rng: &mut Rng, with_letters: bool) -> Code {
    let mut code = person(rng, with_letters);
    match rng.below(4) {
        0 => code.make_ascii_lowercase(),
        1 => code[PERSON_BEGINS].make_ascii_lowercase(),
        _ => {
            let capitals: Vec<usize> = (0..CODE_WIDTH).filter(|&at| code[at].is_ascii_uppercase()).collect();
            code[rng.pick(&capitals)].make_ascii_lowercase();
        }
    }
    code
}

/// Blanks at either end or within, or the code moved by a column.
fn with_blanks(rng: &mut Rng, with_letters: bool) -> Code {
    let mut code = person(rng, with_letters);
    match rng.below(6) {
        0 => code[0] = b' ',
        1 => code[PERSON_BEGINS] = b' ',
        2 => {
            code.rotate_left(1);
            code[PERSON_BEGINS] = b' ';
        }
        3 => {
            code.rotate_right(1);
            code[0] = b' ';
        }
        4 => {
            // Moved from some place on.
            let at = 1 + rng.place(PERSON_BEGINS);
            code[at..].rotate_right(1);
            code[at] = b' ';
        }
        _ => code[rng.place(CODE_WIDTH)] = b' ',
    }
    code
}

/// A digit in a letter's place, or a letter in a digit's that stands for none,
/// mostly with the letter at the end that a check of the sum alone would have
/// there.
fn out_of_place(rng: &mut Rng, with_letters: bool, digit: bool) -> Code {
    let mut code = person(rng, with_letters);
    let places: Vec<usize> = (0..PERSON_BEGINS).filter(|&at| holds_digit(at) != digit).collect();
    let (one, all) = (rng.pick(&places), rng.one_in(8));
    for at in places.into_iter().filter(|&at| all || at == one) {
        code[at] = if digit { rng.pick(DIGITS) } else { rng.pick(b"ABCDEFGHIJKKKKOOOOWWWWXYZ") };
    }
    if !rng.one_in(8) {
        mend(&mut code);
    }
    code
}

/// A digit for the last letter; up to J it is the one that counts the same.
fn digit_at_end(rng: &mut Rng, with_letters: bool) -> Code {
    let mut code = person(rng, with_letters);
    let counts = LETTERS.iter().position(|&letter| letter == code[PERSON_BEGINS]).unwrap_or(0);
    code[PERSON_BEGINS] = DIGITS[counts % DIGITS.len()];
    code
}

/// A character that is neither digit nor letter, mostly one beside them, with
/// the check character of one who counts it for nothing, or on from 0 or from A.
fn other_character(rng: &mut Rng) -> Code {
    let (of_firm, with_letters) = (rng.one_in(2), rng.one_in(2));
    let mut code = if of_firm { firm(rng) } else { person(rng, with_letters) };
    let at = rng.place(if of_firm { FIRM } else { CODE_WIDTH });
    let (base, beside) = if of_firm || holds_digit(at) { (b'0', b"/:") } else { (b'A', b"@[") };
    let byte = if rng.one_in(4) { rng.pick(b"!\"#-.*_|}~`{") } else { rng.pick(beside) };
    // With a sign, or in a byte without one.
    let counts = match rng.below(4) {
        0 | 1 => 0,
        2 => i64::from(byte) - i64::from(base),
        _ => i64::from(byte.wrapping_sub(base)),
    };
    if of_firm && at < FIRM_BEGINS {
        code[at] = b'0';
        mend_firm(&mut code);
        turn(&mut code[FIRM_BEGINS], DIGITS, -in_firm(at, counts));
    } else if !of_firm && at < PERSON_BEGINS {
        // What counts nothing in this place.
        code[at] = match (at % 2, holds_digit(at)) {
            (0, true) => b'1',
            (0, false) => b'B',
            (_, true) => b'0',
            (_, false) => b'A',
        };
        mend(&mut code);
        turn(&mut code[PERSON_BEGINS], LETTERS, counts);
    }
    code[at] = byte;
    code
}

/// Moves a check character on by so many.
fn turn(check: &mut u8, wheel: &[u8], by: i64) {
    let from = wheel.iter().position(|other| other == check).unwrap_or(0) as i64;
    *check = wheel[(from + by).rem_euclid(wheel.len() as i64) as usize];
}

/// Changes one character of a record 10: to any other, to one of its sort, to
/// the next or the one before, or its case.
pub fn change(rng: &mut Rng, record: &mut [u8]) {
    let byte = &mut record[CODE - 1 + rng.place(CODE_WIDTH)];
    *byte = match (rng.below(8), *byte) {
        (0, _) => 32 + rng.below(95) as u8,
        (1, byte) => (byte + 1).min(126),
        (2, byte) => (byte - 1).max(32),
        (3, byte) => byte ^ 32,
        (4, byte) => byte ^ 1 << rng.below(5),
        (_, byte) if byte.is_ascii_digit() => another(rng, byte, DIGITS),
        (_, byte) => another(rng, byte, LETTERS),
    }
    .clamp(32, 126);
}
