//! The generator's own calendar. The library, the reference and the fast judge
//! follow the same sentence of document 02, so that a slip in its meaning may be
//! in all of them and show in no comparison of one with another. What is sound
//! and what is not is therefore drawn and said from here, and this is kept in
//! another manner than theirs: by the days that have gone by before each month,
//! and with the leap years written out one by one.

use crate::columns::DAY;

/// The days of a common year before each month, and those of all twelve.
const BEFORE: [u64; 13] = [0, 31, 59, 90, 120, 151, 181, 212, 243, 273, 304, 334, 365];

#[rustfmt::skip]
pub const LEAP_YEARS: [u64; 25] = [
    0, 4, 8, 12, 16, 20, 24, 28, 32, 36, 40, 44, 48, 52, 56, 60, 64, 68, 72, 76, 80, 84, 88, 92, 96,
];

/// The dates from 2000 to 2099: a hundred years of 365 days and 25 leap days.
pub const DATES: u64 = 36_525;

/// Any two digits for each, whether there is such a date or not.
#[derive(Clone, Copy, PartialEq, Eq, Debug)]
pub struct Date {
    pub day: u64,
    pub month: u64,
    pub year: u64,
}

impl Date {
    /// Six digits as they stand in a head.
    pub fn read(digits: &[u8]) -> Date {
        let two = |at: usize| u64::from(digits[at] - b'0') * 10 + u64::from(digits[at + 1] - b'0');
        Date { day: two(0), month: two(2), year: two(4) }
    }

    pub fn digits(self) -> [u8; DAY] {
        let mut digits = [b'0'; DAY];
        for (pair, number) in digits.chunks_exact_mut(2).zip([self.day, self.month, self.year]) {
            pair[0] += (number / 10) as u8;
            pair[1] += (number % 10) as u8;
        }
        digits
    }

    pub fn exists(self) -> bool {
        (1..=12).contains(&self.month) && self.day > 0 && self.day <= last_day(self.month, self.year)
    }

    /// What six digits are, for the tallies. What could be called by several
    /// names has the first of them.
    pub fn sort(self) -> Sort {
        let Date { day, month, year } = self;
        if self.exists() {
            return match (day, month) {
                (29, 2) => Sort::LeapDay,
                _ if day == last_day(month, year) => Sort::LastDay,
                _ => Sort::OtherDay,
            };
        }
        match (day, month) {
            (0, _) => Sort::NoDay,
            (32.., _) => Sort::DayAbove31,
            (_, 0) => Sort::NoMonth,
            (_, 13..) => Sort::MonthAbove12,
            (29, 2) => Sort::NoLeapYear,
            (_, 2) => Sort::February,
            _ => Sort::MonthOf30,
        }
    }
}

/// The last day of a month, which is 1 to 12.
pub fn last_day(month: u64, year: u64) -> u64 {
    let month = month as usize;
    let leap_day = month == 2 && LEAP_YEARS.contains(&year);
    BEFORE[month] - BEFORE[month - 1] + u64::from(leap_day)
}

/// Three sorts of dates and seven of what is none.
#[derive(Clone, Copy, PartialEq, Eq, Debug)]
pub enum Sort {
    LeapDay,
    /// Any other last day of a month.
    LastDay,
    OtherDay,
    NoDay,
    DayAbove31,
    NoMonth,
    MonthAbove12,
    /// The 31st of a month of thirty days.
    MonthOf30,
    /// The 30th or 31st of February.
    February,
    /// The 29th of February in a year that is not leap.
    NoLeapYear,
}

/// Each with its answer and its name.
pub const SORTS: [(Sort, &str); 10] = [
    (Sort::LeapDay, "0 for 29 February"),
    (Sort::LastDay, "0 for a month's last day"),
    (Sort::OtherDay, "0 for another day"),
    (Sort::NoDay, "17 for day 0"),
    (Sort::DayAbove31, "17 for a day above 31"),
    (Sort::NoMonth, "17 for month 0"),
    (Sort::MonthAbove12, "17 for a month above 12"),
    (Sort::MonthOf30, "17 for 31 in a month of thirty"),
    (Sort::February, "17 for 30 or 31 February"),
    (Sort::NoLeapYear, "17 for 29 February of no leap year"),
];
