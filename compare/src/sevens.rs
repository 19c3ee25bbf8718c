//! Refusal 7 as the generator says it, from columns of its own: the first
//! non-digit of the first bad field. Where both sides answer 7 they must tell
//! this character, and the tallies say where in its field it was.

use crate::columns::{Holds, Kind, HOLDS, RECORD};
use crate::sheet;

/// A non-digit in a numeric field.
#[derive(Clone, Copy, Debug)]
pub struct Character {
    /// Both counted from 1.
    record: usize,
    position: usize,
    holds: Holds,
    place: Place,
}

/// Where in its field.
#[derive(Clone, Copy, Debug)]
enum Place {
    First,
    Middle,
    Last,
}

const PLACES: [Place; 3] = [Place::First, Place::Middle, Place::Last];

/// The character that an answer tells, or why the generator says another.
pub fn told(says: Option<Character>, answer: &[u64]) -> Result<Character, String> {
    match says {
        Some(character) if answer[..2] == [character.record as u64, character.position as u64] => Ok(character),
        Some(Character { record, position, .. }) => {
            Err(format!("the generator says 7 at record {record} position {position}"))
        }
        None => Err("the generator says that every field has digits only".to_string()),
    }
}

/// The first in a flow. Of one that is refused 7 all records before it passed.
pub fn in_flow(flow: &[u8]) -> Option<Character> {
    flow.chunks_exact(RECORD).zip(1..).find_map(|(bytes, record)| {
        let kind = Kind::of(bytes)?;
        first(kind, &kind.numeric(), bytes, record)
    })
}

/// The first in a sheet, where it is read as it was keyed.
pub fn in_sheet(sheet: &[u8]) -> Option<Character> {
    let slots = sheet::slots(sheet)?;
    slots.iter().zip(1..).find_map(|(&(slot, keyed), record)| first(slot, &sheet::read(slot), keyed, record))
}

/// The first in these fields of a record, which go by their positions.
fn first(kind: Kind, fields: &[(usize, usize)], bytes: &[u8], record: usize) -> Option<Character> {
    fields.iter().find_map(|&(start, width)| {
        let digits = bytes[start - 1..start - 1 + width].iter().take_while(|byte| byte.is_ascii_digit()).count();
        let place = match digits {
            digits if digits == width => return None,
            0 => Place::First,
            digits if digits == width - 1 => Place::Last,
            _ => Place::Middle,
        };
        Some(Character { record, position: start + digits, holds: kind.holds(start), place })
    })
}

/// How often 7 was told where.
#[derive(Default)]
pub struct Sevens {
    /// By what the field holds and by the place in it.
    counts: [[u64; PLACES.len()]; HOLDS.len()],
}

impl Sevens {
    pub fn count(&mut self, character: &Character) {
        self.counts[character.holds as usize][character.place as usize] += 1;
    }

    /// The place that came up least in the fields that hold one thing.
    pub fn rarest(&self, call: &str) -> Option<(u64, String)> {
        let all = HOLDS.iter().flat_map(|&holds| PLACES.iter().map(move |&place| (holds, place)));
        let named = |(holds, place): (Holds, Place)| {
            let times = self.counts[holds as usize][place as usize];
            (times, format!("{call} 7 {} of a {}", place_name(place), holds_name(holds)))
        };
        all.map(named).min()
    }

    /// The place that came up least in all fields together.
    pub fn rarest_place(&self, call: &str) -> Option<(u64, String)> {
        let times = |place: Place| self.counts.iter().map(|counts| counts[place as usize]).sum();
        PLACES.iter().map(|&place| (times(place), format!("{call} 7 {} of a field", place_name(place)))).min()
    }

    /// Prints a row for each kind of field in which 7 was told.
    pub fn print(&self, call: &str) {
        let told: Vec<Holds> = HOLDS.into_iter().filter(|&holds| self.counts[holds as usize] != [0; 3]).collect();
        if !told.is_empty() {
            println!("{:<16} {:>10} {:>10} {:>10}", format!("7 by {call}"), "first", "middle", "last");
        }
        for holds in told {
            let [first, middle, last] = self.counts[holds as usize];
            println!("{:<16} {first:>10} {middle:>10} {last:>10}", holds_name(holds));
        }
    }
}

fn place_name(place: Place) -> &'static str {
    match place {
        Place::First => "at the first place",
        Place::Middle => "in the middle",
        Place::Last => "at the last place",
    }
}

fn holds_name(holds: Holds) -> &'static str {
    match holds {
        Holds::Number => "delega number",
        Holds::Date => "date",
        Holds::Amount => "line's amount",
        Holds::Sum => "total or balance",
        Holds::Tail => "tail's field",
    }
}
