//! What the generator says of a head, from the columns and the calendar of its
//! own: 7, then 16, then 17, or that it is sound. It is asked at every answer to
//! a flow or a sheet, whatever the answer is. Where the library, the reference
//! and the fast judge share a mistake, none of them differs from another, but
//! all of them differ from this.

use crate::calendar::{Date, SORTS};
use crate::calls::is_of_records;
use crate::columns::*;
use crate::sorts;

/// The first fault of a head whose characters and type have passed: its number
/// and its position.
pub fn fault(head: &[u8]) -> Option<(u64, usize)> {
    let date = &head[DATE - 1..DATE - 1 + DAY];
    if let Some(place) = date.iter().position(|byte| !byte.is_ascii_digit()) {
        return Some((7, DATE + place));
    }
    let mut name = head[NAME - 1..NAME - 1 + NAME_WIDTH].iter();
    if name.any(|byte| matches!(byte, b'/' | b':')) {
        return Some((16, NAME));
    }
    Some((17, DATE)).filter(|_| !Date::read(date).exists())
}

/// Why the answer to a flow or a sheet, either of which begins with its head,
/// can't be right.
pub fn unlike(bytes: &[u8], code: u64, answer: &[u64]) -> Option<String> {
    // These come before the head's own fields.
    if !is_of_records(code) || (matches!(code, 3 | 4) && answer[0] == 1) {
        return None;
    }
    let says = fault(bytes.get(..RECORD)?).map(|(number, position)| (number, 1, position as u64));
    // In other records there are 7 and 16 too, and no 17.
    let told = match code {
        7 | 16 if answer[0] != 1 => None,
        7 | 16 | 17 => Some((code, answer[0], answer[1])),
        _ => None,
    };
    if told == says {
        return None;
    }
    Some(match says {
        Some((number, record, position)) => {
            format!("the generator says {number} at record {record} position {position}")
        }
        None => "the generator says that the head is sound".to_string(),
    })
}

/// Which dates were taken and how 17 was come by.
#[derive(Default)]
pub struct Dates {
    counts: [u64; SORTS.len()],
}

impl Dates {
    /// Counts the date of a flow or a sheet that was answered 0 or 17.
    pub fn count(&mut self, bytes: &[u8], code: u64) {
        if matches!(code, 0 | 17) {
            let sort = Date::read(&bytes[DATE - 1..DATE - 1 + DAY]).sort();
            self.counts[sort as usize] += 1;
        }
    }

    pub fn rarest(&self, call: &str) -> Option<(u64, String)> {
        sorts::rarest(&self.counts, &SORTS, call)
    }

    pub fn print(&self, call: &str) {
        sorts::print("date", &self.counts, &SORTS, call);
    }
}
