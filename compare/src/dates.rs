//! Which dates a head is given: sound ones at the limits of the rule, and what
//! is no date but close to one.

use crate::calendar::{last_day, Date, LEAP_YEARS};
use crate::columns::*;
use crate::rng::Rng;
use crate::sound::put;

/// A date that exists: often the last or the first day of a month, 29 February,
/// 28 February of a year that is not leap, or in 2000, 2096 or 2099.
///
/// It takes five random numbers whatever it becomes, so that what is drawn after
/// it does not hang on it.
pub fn sound(rng: &mut Rng) -> [u8; DAY] {
    let (limit, edge) = (rng.below(8), rng.below(6));
    let (any_month, any_year, any) = (rng.between(1, 12), rng.below(100), rng.next());
    let year = match edge {
        0 => 0,
        1 => 99,
        _ => any_year,
    };
    let leap_year = match edge {
        0 => LEAP_YEARS[0],
        1 => LEAP_YEARS[LEAP_YEARS.len() - 1],
        _ => LEAP_YEARS[any_year as usize * LEAP_YEARS.len() / 100],
    };
    let date = match limit {
        0 => Date { day: 29, month: 2, year: leap_year },
        // A leap year is followed by one that is not.
        1 => Date { day: 28, month: 2, year: if LEAP_YEARS.contains(&year) { year + 1 } else { year } },
        2 | 3 => Date { day: last_day(any_month, year), month: any_month, year },
        4 => Date { day: 1, month: any_month, year },
        _ => Date { day: 1 + any % last_day(any_month, year), month: any_month, year },
    };
    date.digits()
}

/// Makes the head's date none, in each of seven ways alike. Now and then the
/// head has another fault besides, which comes before 17.
pub fn spoil(rng: &mut Rng, head: &mut [u8]) {
    let year = rng.below(100);
    match rng.below(7) {
        0 => put(head, DATE, 2, 0),
        1 => put(head, DATE, 2, if rng.one_in(2) { 32 } else { rng.between(32, 99) }),
        2 => put(head, DATE + 2, 2, 0),
        3 => put(head, DATE + 2, 2, if rng.one_in(2) { 13 } else { rng.between(13, 99) }),
        4 => set(head, Date { day: 31, month: rng.pick(&[4, 6, 9, 11]), year }),
        5 => set(head, Date { day: rng.between(30, 31), month: 2, year }),
        _ => set(head, Date { day: 29, month: 2, year: common_year(rng) }),
    }
    match rng.below(12) {
        0 => head[DATE - 1 + rng.place(DAY)] = rng.pick(b" /:x"),
        1 => head[NAME - 1 + rng.place(NAME_WIDTH)] = rng.pick(b"/:"),
        _ => (),
    }
}

/// A year that is not leap: odd, or even and not each fourth.
fn common_year(rng: &mut Rng) -> u64 {
    if rng.one_in(4) {
        return rng.pick(&[1, 2, 3, 97, 98, 99]);
    }
    let year = rng.below(100);
    if LEAP_YEARS.contains(&year) {
        year + rng.between(1, 3)
    } else {
        year
    }
}

/// Changes the head's date, which is one, a little: a day, a month or a year on
/// or back, day and month exchanged, another digit. Tells whether it is one still.
pub fn change(rng: &mut Rng, head: &mut [u8]) -> bool {
    let field = &mut head[DATE - 1..DATE - 1 + DAY];
    let Date { day, month, year } = Date::read(field);
    let back = rng.one_in(2);
    let next = |number: u64| (number + if back { 99 } else { 1 }) % 100;
    match rng.below(6) {
        0 | 1 => set(head, Date { day: next(day), month, year }),
        2 => set(head, Date { day, month: next(month), year }),
        3 => set(head, Date { day, month, year: next(year) }),
        4 => set(head, Date { day: month, month: day, year }),
        _ => field[rng.place(DAY)] = b'0' + rng.below(10) as u8,
    }
    Date::read(&head[DATE - 1..DATE - 1 + DAY]).exists()
}

pub fn set(head: &mut [u8], date: Date) {
    head[DATE - 1..DATE - 1 + DAY].copy_from_slice(&date.digits());
}
