//! M's total as a text. Document 02: it "has at least one digit, dots for
//! thousands and a comma with two decimals, then spaces (0,05); any other text
//! gives 33; the dots go only when the text would pass fifteen characters".

/// "the text would pass fifteen characters"
pub const TEXT: usize = 15;

/// The cents that the field's text stands for, or `None` where it is not the one
/// text of a number.
pub fn cents(field: &[u8; TEXT]) -> Option<u128> {
    let spaces = field.iter().rev().take_while(|&&byte| byte == b' ');
    let text = &field[..TEXT - spaces.count()];
    match text {
        [euros @ .., b',', tens, ones] => Some(100 * whole(euros)? + number(&[*tens, *ones])?),
        _ => None,
    }
}

/// What stands before the comma: groups of digits with a dot between them, or
/// digits alone.
fn whole(euros: &[u8]) -> Option<u128> {
    let groups: Vec<&[u8]> = euros.split(|&byte| byte == b'.').collect();
    let digits = groups.concat();
    let placed = match groups[..] {
        [alone] => alone.len() <= 3 || with_dots(alone.len()) > TEXT,
        [first, ref behind @ ..] => {
            (1..=3).contains(&first.len()) && behind.iter().all(|group| group.len() == 3)
        }
        [] => false,
    };
    let leading = digits.len() > 1 && digits[0] == b'0';
    number(&digits).filter(|_| placed && !leading)
}

/// How long a text is with its dots, of so many digits before the comma.
fn with_dots(digits: usize) -> usize {
    digits + (digits - 1) / 3 + ",00".len()
}

/// The number of these digits, of which there is one at least.
pub fn number(digits: &[u8]) -> Option<u128> {
    let value = |value: u128, &byte: &u8| {
        let digit = byte.is_ascii_digit().then(|| byte - b'0')?;
        Some(10 * value + u128::from(digit))
    };
    digits.first()?;
    digits.iter().try_fold(0, value)
}
