//! The taxpayer's code of record 10, after document 02, whose words are those
//! in quotation marks: "Tax codes that can't exist". A code has sixteen
//! characters: a person's fill them all, a firm's are "eleven digits (a VAT
//! number) and five spaces".

use super::layout::CODE_WIDTH;

/// The taxpayer's code as it stands in its columns.
pub type Code = [u8; CODE_WIDTH];

/// "in odd places A to Z count"
const ODD: [u32; 26] = [
    1, 0, 5, 7, 9, 13, 15, 17, 19, 21, 2, 4, 18, 20, 11, 3, 6, 8, 12, 14, 16, 10, 22, 25, 24, 23,
];

/// Whether there can be such a code.
pub fn valid(code: &Code) -> bool {
    person(code) || firm(code)
}

/// "Sixteen characters follow the Italian decree of 23 December 1976".
fn person(code: &Code) -> bool {
    let in_place = (1..).zip(code).all(|(place, &byte)| fits(place, byte));
    in_place && code[15] == last_letter(&code[..15])
}

/// "Places 7, 8, 10, 11 and 13 to 15 hold digits, or L M N P Q R S T U V for 0
/// to 9; the others capital letters."
fn fits(place: usize, byte: u8) -> bool {
    match place {
        7 | 8 | 10 | 11 | 13..=15 => {
            byte.is_ascii_digit() || matches!(byte, b'L'..=b'N' | b'P'..=b'V')
        }
        _ => byte.is_ascii_uppercase(),
    }
}

/// "the values of the first fifteen, summed modulo 26, give the last letter (A
/// is 0)". They are digits and capital letters.
fn last_letter(first: &[u8]) -> u8 {
    let value = |(place, &byte)| match place % 2 {
        0 => in_even_place(byte),
        _ => in_odd_place(byte),
    };
    let sum: u32 = (1..).zip(first).map(value).sum();
    b'A' + (sum % 26) as u8
}

/// "In even places a digit counts itself and a letter its place from A as 0".
/// A letter that stands for a digit counts as the letter that it is.
fn in_even_place(byte: u8) -> u32 {
    match byte {
        b'0'..=b'9' => u32::from(byte - b'0'),
        _ => u32::from(byte - b'A'),
    }
}

/// "and 0 to 9 count as A to J", which in even places they do as well: both
/// have the same place in their rows.
fn in_odd_place(byte: u8) -> u32 {
    ODD[in_even_place(byte) as usize]
}

/// "Eleven digits (a VAT number) and five spaces: with even places doubled,
/// less 9 if above 9, all eleven sum to a multiple of ten."
fn firm(code: &Code) -> bool {
    let (digits, rest) = code.split_at(11);
    if rest != b"     " || !digits.iter().all(u8::is_ascii_digit) {
        return false;
    }
    let value = |(place, &byte): (u32, &u8)| {
        let digit = u32::from(byte - b'0');
        match (place % 2, 2 * digit) {
            (1, _) => digit,
            (_, doubled) if doubled > 9 => doubled - 9,
            (_, doubled) => doubled,
        }
    };
    let sum: u32 = (1..).zip(digits).map(value).sum();
    sum % 10 == 0
}

#[cfg(test)]
mod tests {
    use super::*;

    fn passes(text: &str) -> bool {
        valid(text.as_bytes().try_into().expect("sixteen characters"))
    }

    /// The last characters with which these fifteen pass.
    fn endings(first: &str) -> String {
        (32..=126_u8)
            .map(char::from)
            .filter(|last| passes(&format!("{first}{last}")))
            .collect()
    }

    #[test]
    fn the_code_of_the_request() {
        assert!(passes("RSSMRA85T10A562S"));
        assert!(!passes("RSSMRA85T10A562T"));
        assert_eq!(endings("RSSMRA85T10A562"), "S");
    }

    #[test]
    fn the_values_one_by_one() {
        // B counts 0 in odd places, A in even ones: all fifteen together 0.
        assert_eq!(endings("BABABA10B01A101"), "A");
        let row = [
            1, 0, 5, 7, 9, 13, 15, 17, 19, 21, 2, 4, 18, 20, 11, 3, 6, 8, 12, 14, 16, 10, 22, 25,
            24, 23,
        ];
        let letter = |value: u8| char::from(b'A' + value).to_string();
        for byte in b'A'..=b'Z' {
            for place in [1, 3, 5, 9] {
                let value = row[usize::from(byte - b'A')];
                assert_eq!(endings(&replaced(place, byte)), letter(value));
            }
            for place in [2, 4, 6, 12] {
                assert_eq!(endings(&replaced(place, byte)), letter(byte - b'A'));
            }
        }
        for byte in b'0'..=b'9' {
            for place in [7, 11, 13, 15] {
                let value = row[usize::from(byte - b'0')];
                assert_eq!(endings(&replaced(place, byte)), letter(value));
            }
            for place in [8, 10, 14] {
                assert_eq!(endings(&replaced(place, byte)), letter(byte - b'0'));
            }
        }
        for byte in *b"LMNPQRSTUV" {
            // As letters, and not as the digits that they stand for.
            for place in [7, 11, 13, 15] {
                let value = row[usize::from(byte - b'A')];
                assert_eq!(endings(&replaced(place, byte)), letter(value));
            }
            for place in [8, 10, 14] {
                assert_eq!(endings(&replaced(place, byte)), letter(byte - b'A'));
            }
        }
    }

    /// The fifteen that count nothing, with another character in one place.
    fn replaced(place: usize, byte: u8) -> String {
        let mut first = *b"BABABA10B01A101";
        first[place - 1] = byte;
        String::from_utf8(first.to_vec()).unwrap()
    }

    #[test]
    fn what_each_place_holds() {
        let digits = [7, 8, 10, 11, 13, 14, 15];
        for place in 1..=15 {
            for byte in 32..=126 {
                let held = match byte {
                    b'0'..=b'9' => digits.contains(&place),
                    b'L' | b'M' | b'N' | b'P' | b'Q' | b'R' | b'S' | b'T' | b'U' | b'V' => true,
                    b'A'..=b'Z' => !digits.contains(&place),
                    _ => false,
                };
                let endings = endings(&replaced(place, byte));
                assert_eq!(endings.len(), usize::from(held), "{byte} in place {place}");
            }
        }
    }

    #[test]
    fn letters_for_digits() {
        // One, two and all seven; O and I are none of them.
        for first in [
            "RSSMRAU5T10A562",
            "RSSMRA8RT1LA562",
            "RSSMRAURTMLARSN",
            "LLLLLLLLLLLLLLL",
            "VVVVVVVVVVVVVVV",
        ] {
            assert_eq!(endings(first).len(), 1, "{first}");
        }
        for first in ["RSSMRA85T1OA562", "RSSMRA85TI0A562", "RSSMRAO5T10A562"] {
            assert_eq!(endings(first), "", "{first}");
        }
        // The check letter of the digits is not that of the letters.
        assert!(!passes("RSSMRAURTMLARSNS"));
    }

    #[test]
    fn sums_at_the_ends() {
        // 25 in eight places and 21 in seven: 347, which leaves 9.
        assert_eq!(endings("XZXZXZ9VXV9Z9V9"), "J");
        assert_eq!(endings("BABABA10B01A101"), "A");
        // Every letter is the last of some code.
        let letters: String = (b'A'..=b'Z')
            .map(|byte| endings(&replaced(12, byte)))
            .collect();
        assert_eq!(letters, "ABCDEFGHIJKLMNOPQRSTUVWXYZ");
        // Any capital in place 9, which in life is a month's.
        for month in b'A'..=b'Z' {
            assert_eq!(endings(&replaced(9, month)).len(), 1);
        }
    }

    #[test]
    fn lower_case_does_not_pass() {
        let code = "RSSMRA85T10A562S";
        assert!(!passes(&code.to_lowercase()));
        for place in (0..16).filter(|&place| code.as_bytes()[place].is_ascii_uppercase()) {
            let mut lower = code.to_string();
            lower[place..=place].make_ascii_lowercase();
            assert!(!passes(&lower), "{lower}");
        }
        assert!(!passes("RSSMRAu5T10A562S"));
    }

    #[test]
    fn eleven_digits_and_five_spaces() {
        for digits in ["00000000000", "12345678903", "00743110157", "99999999990"] {
            assert!(passes(&format!("{digits}     ")), "{digits}");
        }
        // Every digit in every place: in odd places it counts itself.
        let doubled = [0, 2, 4, 6, 8, 1, 3, 5, 7, 9];
        for place in 0..10 {
            for digit in 0..10 {
                let value = if place % 2 == 0 {
                    digit
                } else {
                    doubled[digit]
                };
                let passing: Vec<usize> = (0..10)
                    .filter(|last| {
                        let mut digits = [0; 11];
                        (digits[place], digits[10]) = (digit, *last);
                        passes(&format!("{}     ", digits.map(|d| d.to_string()).concat()))
                    })
                    .collect();
                assert_eq!(passing, [(10 - value) % 10]);
            }
        }
    }

    #[test]
    fn what_is_neither_does_not_pass() {
        for code in [
            "                ",
            // Not at the left, fewer, more, something behind them.
            " 00000000000    ",
            "     00000000000",
            "0000000000      ",
            "000000000000    ",
            "0000000000000000",
            "00000000000    0",
            "00000000000A    ",
            "00000000000    .",
            "00000 00000     ",
            // Digits and their neighbours.
            "0000000000/     ",
            "0000000000:     ",
            "0000000000O     ",
            "/0000000000     ",
            // Fifteen of a person's, or moved by one.
            "RSSMRA85T10A562 ",
            " RSSMRA85T10A562",
            "SSMRA85T10A562S ",
            "RSSMRA85 T10A562",
            "RSSMRA 5T10A562S",
            // A digit where a letter belongs, at the end too.
            "R5SMRA85T10A562S",
            "RSSMRA8510A562SS",
            "RSSMRA85T1005625",
            "RSSMRA85T10A5628",
        ] {
            assert!(!passes(code), "{code}");
        }
    }
}
