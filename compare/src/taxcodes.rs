//! The generator's own account of tax codes. The library, the reference and the
//! fast judge follow the same sentences of document 02, so that a slip in their
//! meaning may be in all of them and show in no comparison of one with another.
//! What can be a code and what can't is therefore drawn and said from here, and
//! this is kept in another manner than theirs: the characters stand in rows by
//! what they count, each after the one that counts one less, and the check
//! character is where a wheel stops that every character turns on.

use crate::columns::CODE_WIDTH;

/// As it stands in a record 10.
pub type Code = [u8; CODE_WIDTH];

/// The letters of the wheel, which is also the row of the even places.
pub const LETTERS: &[u8; 26] = b"ABCDEFGHIJKLMNOPQRSTUVWXYZ";
/// The row of the odd places.
const ODD: &[u8; 26] = b"BAKPLCQDREVOSFTGUHMINJWZYX";
pub const DIGITS: &[u8; 10] = b"0123456789";
/// The row of a firm's even places: 1 doubled comes after 5 doubled less 9.
const DOUBLED: &[u8; 10] = b"0516273849";
/// What may stand for a digit.
pub const STAND_INS: &[u8; 10] = b"LMNPQRSTUV";

/// The length of a firm's code, which has spaces behind it.
pub const FIRM: usize = 11;

/// A letter or a digit in each place of a person's code.
const PERSON: &[u8; CODE_WIDTH] = b"LLLLLLDDLDDLDDDL";

/// Whether this place, counted from 0, of a person's code is one for a digit.
pub fn holds_digit(at: usize) -> bool {
    PERSON[at] == b'D'
}

fn steps(row: &[u8], byte: u8) -> Option<usize> {
    row.iter().position(|&other| other == byte)
}

/// The letter behind these characters, digits and capital letters in whichever
/// places; `None` where there is another among them.
pub fn check_letter(first: &[u8]) -> Option<u8> {
    let mut wheel = 0;
    for (at, &byte) in first.iter().enumerate() {
        // A digit turns the wheel as the letter does that has its place.
        let letter = steps(DIGITS, byte).map_or(byte, |digit| LETTERS[digit]);
        let row = if at % 2 == 0 { ODD } else { LETTERS };
        wheel = (wheel + steps(row, letter)?) % LETTERS.len();
    }
    Some(LETTERS[wheel])
}

/// The digit that brings these back to where the wheel of ten began.
pub fn check_digit(first: &[u8]) -> Option<u8> {
    let mut wheel = 0;
    for (at, &byte) in first.iter().enumerate() {
        let row = if at % 2 == 0 { DIGITS } else { DOUBLED };
        wheel = (wheel + steps(row, byte)?) % DIGITS.len();
    }
    Some(DIGITS[(DIGITS.len() - wheel) % DIGITS.len()])
}

/// Whether there can be such a code.
pub fn can_be(code: &[u8]) -> bool {
    matches!(sort(code), Sort::Person | Sort::PersonWithLetters | Sort::Firm)
}

/// What sixteen characters are, for the tallies. What could be called by several
/// names has the first that fits.
pub fn sort(code: &[u8]) -> Sort {
    let any = |sort: fn(u8) -> bool| code.iter().any(|&byte| sort(byte));
    let (first, last) = code.split_at(CODE_WIDTH - 1);
    if code == [b' '; CODE_WIDTH] {
        Sort::Blank
    } else if any(|byte| !byte.is_ascii_alphanumeric() && byte != b' ') {
        Sort::Other
    } else if any(|byte| byte.is_ascii_lowercase()) {
        Sort::LowerCase
    } else if !any(|byte| byte.is_ascii_uppercase()) {
        let (number, behind) = code.split_at(FIRM);
        let whole = !number.contains(&b' ') && behind.iter().all(|&byte| byte == b' ');
        match check_digit(&number[..FIRM - 1]).filter(|_| whole) {
            None => Sort::FirmForm,
            digit if digit == Some(number[FIRM - 1]) => Sort::Firm,
            _ => Sort::FirmSum,
        }
    } else if any(|byte| byte == b' ') {
        Sort::BlankWithin
    } else if (0..CODE_WIDTH).any(|at| !holds_digit(at) && DIGITS.contains(&code[at])) {
        Sort::DigitForLetter
    } else if (0..CODE_WIDTH).any(|at| holds_digit(at) && !DIGITS.contains(&code[at]) && !STAND_INS.contains(&code[at]))
    {
        Sort::LetterForDigit
    } else {
        let with_letters = (0..CODE_WIDTH).any(|at| holds_digit(at) && STAND_INS.contains(&code[at]));
        match (check_letter(first) == Some(last[0]), with_letters) {
            (true, false) => Sort::Person,
            (true, true) => Sort::PersonWithLetters,
            (false, false) => Sort::PersonSum,
            (false, true) => Sort::LettersSum,
        }
    }
}

/// Three sorts of codes and ten of what is none.
#[derive(Clone, Copy, PartialEq, Eq, Debug)]
pub enum Sort {
    /// A person's, with digits in all seven places.
    Person,
    /// A person's, with letters for some of them or for all.
    PersonWithLetters,
    Firm,
    /// Nothing but blanks.
    Blank,
    /// With a character that is no digit, no letter and no blank.
    Other,
    LowerCase,
    /// A person's in all but its last letter, as these two.
    PersonSum,
    LettersSum,
    /// Eleven digits and five blanks, of another sum.
    FirmSum,
    /// Digits, with blanks or without, and not these.
    FirmForm,
    /// A blank beside letters.
    BlankWithin,
    /// A digit in a letter's place.
    DigitForLetter,
    /// A letter in a digit's place that stands for none.
    LetterForDigit,
}

/// Each with its answer and its name.
pub const SORTS: [(Sort, &str); 13] = [
    (Sort::Person, "0 for a person's with digits"),
    (Sort::PersonWithLetters, "0 for a person's with letters"),
    (Sort::Firm, "0 for a firm's"),
    (Sort::Blank, "26 for nothing but blanks"),
    (Sort::Other, "26 for another character"),
    (Sort::LowerCase, "26 for lower case"),
    (Sort::PersonSum, "26 for a person's last letter"),
    (Sort::LettersSum, "26 for that behind letters"),
    (Sort::FirmSum, "26 for a firm's sum"),
    (Sort::FirmForm, "26 for digits that are not eleven"),
    (Sort::BlankWithin, "26 for a blank beside letters"),
    (Sort::DigitForLetter, "26 for a digit in a letter's place"),
    (Sort::LetterForDigit, "26 for a letter in a digit's place"),
];
