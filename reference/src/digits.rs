//! Numeric fields: "A numeric field holds digits only: blank is not zero."

use super::layout::Record;

/// The six-digit field that starts at `position`, or `None` at a non-digit.
pub fn six(record: &Record, position: usize) -> Option<u64> {
    let start = position - 1;
    record[start..start + 6]
        .iter()
        .try_fold(0, |value, &byte| match byte {
            b'0'..=b'9' => Some(10 * value + u64::from(byte - b'0')),
            _ => None,
        })
}

/// The seven-digit field that starts at `position`, which must be 2 or more.
///
/// The byte before the field is loaded along with it and counts as a zero.
pub fn seven(record: &Record, position: usize) -> Option<u64> {
    let start = position - 2;
    let mut bytes = [0; 8];
    bytes.copy_from_slice(&record[start..start + 8]);
    bytes[0] = b'0';
    eight_digits(u64::from_le_bytes(bytes))
}

/// The fifteen-digit field that starts at `position`, which must be 2 or more.
///
/// Here too the byte before the field counts as a zero.
pub fn fifteen(record: &Record, position: usize) -> Option<u64> {
    let start = position - 2;
    let mut bytes = [0; 16];
    bytes.copy_from_slice(&record[start..start + 16]);
    bytes[0] = b'0';
    let halves = u128::from_le_bytes(bytes);
    let high = eight_digits(halves as u64);
    let low = eight_digits((halves >> 64) as u64);
    Some(high? * 100_000_000 + low?)
}

/// The position of the first non-digit of a field that starts at `position`
/// and has one: "which character is wrong", in document 02's words.
///
/// The readers above don't say it, since they test many bytes at once; this is
/// asked of the one field for which a flow or a sheet is refused.
pub fn non_digit(record: &Record, position: usize) -> usize {
    let digits = record[position - 1..]
        .iter()
        .take_while(|byte| byte.is_ascii_digit());
    position + digits.count()
}

/// Writes `amount`, at most fifteen digits, with leading zeros at `position`.
pub fn write_fifteen(record: &mut [u8], position: usize, mut amount: u64) {
    let start = position - 1;
    for byte in record[start..start + 15].iter_mut().rev() {
        *byte = b'0' + (amount % 10) as u8;
        amount /= 10;
    }
}

/// The value of eight digits at once, the first and highest in the lowest byte.
fn eight_digits(bytes: u64) -> Option<u64> {
    // Digits become 0 to 9. Adding 0x76 sets the top bit of a byte from 10 to
    // 127; one above has it set already, and only such a one can carry.
    let digits = bytes ^ 0x3030_3030_3030_3030;
    let above_nine = digits | digits.wrapping_add(0x7676_7676_7676_7676);
    if above_nine & 0x8080_8080_8080_8080 != 0 {
        return None;
    }

    // Neighbours join: eight digits, four pairs, two fours, one eight. The
    // multiplication adds 10, 100, 10000 times a part to the part after it.
    let pairs = (digits.wrapping_mul((10 << 8) + 1) >> 8) & 0x00FF_00FF_00FF_00FF;
    let fours = (pairs.wrapping_mul((100 << 16) + 1) >> 16) & 0x0000_FFFF_0000_FFFF;
    Some(fours.wrapping_mul((10_000 << 32) + 1) >> 32)
}

#[cfg(test)]
mod tests {
    use super::*;

    fn record_with(field: &[u8], position: usize) -> Record {
        let mut record = [b' '; 120];
        record[position - 1..position - 1 + field.len()].copy_from_slice(field);
        record
    }

    #[test]
    fn the_field_examples() {
        assert_eq!(
            fifteen(&record_with(b"000000000007500", 29), 29),
            Some(7500)
        );
        for (field, wrong) in [(b"00000000000750 ", 43), (b"               ", 29)] {
            let record = record_with(field, 29);
            assert_eq!(fifteen(&record, 29), None);
            assert_eq!(non_digit(&record, 29), wrong);
        }
        assert_eq!(
            fifteen(&record_with(b"999999999999999", 106), 106),
            Some(999_999_999_999_999)
        );
        assert_eq!(
            fifteen(&record_with(b"123456789012345", 2), 2),
            Some(123_456_789_012_345)
        );
    }

    #[test]
    fn the_narrow_fields() {
        assert_eq!(six(&record_with(b"311299", 14), 14), Some(311_299));
        assert_eq!(six(&record_with(b"31129a", 14), 14), None);
        assert_eq!(non_digit(&record_with(b"31129a", 14), 14), 19);
        assert_eq!(seven(&record_with(b"9876543", 4), 4), Some(9_876_543));
        assert_eq!(seven(&record_with(b"987654+", 4), 4), None);
        assert_eq!(non_digit(&record_with(b"987654+", 4), 4), 10);
        assert_eq!(seven(&record_with(b"9876543", 114), 114), Some(9_876_543));
    }

    #[test]
    fn every_byte_in_every_place_is_a_digit_or_none() {
        for place in 0..15 {
            for byte in 0..=255_u8 {
                let mut field = *b"123456789012345";
                field[place] = byte;
                let plain = field.iter().try_fold(0_u64, |value, &byte| {
                    byte.is_ascii_digit()
                        .then(|| 10 * value + u64::from(byte - b'0'))
                });
                // The bytes around the field play no part.
                for around in [b' ', b'9', 0, 255] {
                    let mut record = [around; 120];
                    record[28..43].copy_from_slice(&field);
                    assert_eq!(fifteen(&record, 29), plain, "{byte} at {place}");
                    if plain.is_none() {
                        assert_eq!(non_digit(&record, 29), 29 + place);
                    }
                }
            }
        }
    }

    #[test]
    fn of_several_non_digits_the_first_is_told() {
        for first in 0..15 {
            for second in first + 1..15 {
                for bytes in [b"  ", b"x ", b" x", b"/:", b":/", b"~-"] {
                    let mut field = *b"123456789012345";
                    (field[first], field[second]) = (bytes[0], bytes[1]);
                    // What stands before the field is no part of it.
                    for around in [b' ', b'9', b'x'] {
                        let mut record = [around; 120];
                        record[28..43].copy_from_slice(&field);
                        assert_eq!(non_digit(&record, 29), 29 + first);
                    }
                }
            }
        }
        // In the last place that a field can have.
        assert_eq!(non_digit(&record_with(b"98765432109876x", 106), 106), 120);
    }

    #[test]
    fn what_is_written_is_read_back() {
        for amount in [0, 1, 7500, 123_456_789_012_345, 999_999_999_999_999] {
            let mut record = [b'x'; 120];
            write_fifteen(&mut record, 46, amount);
            assert_eq!(fifteen(&record, 46), Some(amount));
            assert!(record[..45]
                .iter()
                .chain(&record[60..])
                .all(|&byte| byte == b'x'));
        }
    }
}
