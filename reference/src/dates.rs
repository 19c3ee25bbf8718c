//! The date rule, as document 02 amends that of 01: "A date is valid only if
//! the day exists in that month; years are 2000 to 2099, with a leap year each
//! fourth."

/// Whether six digits, "day, month, two-digit year", are a valid date.
pub fn valid(date: u64) -> bool {
    let (day, month, year) = (date / 10_000, date / 100 % 100, date % 100);
    (1..=days(month, year)).contains(&day)
}

/// How many days a month has. One that is no month has none.
fn days(month: u64, year: u64) -> u64 {
    match month {
        1 | 3 | 5 | 7 | 8 | 10 | 12 => 31,
        4 | 6 | 9 | 11 => 30,
        2 if leap(year) => 29,
        2 => 28,
        _ => 0,
    }
}

/// "a leap year each fourth": 00 is 2000, which is one, then 04, 08 and so on
/// to 96. No year of these hundred is left out.
fn leap(year: u64) -> bool {
    year % 4 == 0
}

#[cfg(test)]
mod tests {
    use super::*;

    /// The date of the day that comes so many days after 1 January 2000, by the
    /// Gregorian calendar of every century and with no month's length in it:
    /// years are taken to begin on 1 March, so that a leap day is the last of
    /// its year, and any five months from March or August on have 153 days.
    fn date_of(day: u64) -> u64 {
        // From 1 March of the year 0 on, in periods of 400 years.
        let since = day + 730_425;
        let (period, day) = (since / 146_097, since % 146_097);
        let year = (day - day / 1_460 + day / 36_524 - day / 146_096) / 365;
        let day = day - (365 * year + year / 4 - year / 100);
        let month = (5 * day + 2) / 153;
        let day = day - (153 * month + 2) / 5 + 1;
        // January and February belong to the next year.
        let (month, next) = if month < 10 {
            (month + 3, 0)
        } else {
            (month - 9, 1)
        };
        let year = 400 * period + year + next;
        assert!((2000..2100).contains(&year));
        day * 10_000 + month * 100 + year % 100
    }

    #[test]
    fn every_six_digits_are_a_day_of_the_century_or_no_date() {
        let mut days = vec![false; 1_000_000];
        for day in 0..36_525 {
            days[date_of(day) as usize] = true;
        }
        assert_eq!(days.iter().filter(|&&is_day| is_day).count(), 36_525);
        assert_eq!((date_of(0), date_of(59)), (10_100, 290_200));
        assert_eq!(date_of(36_524), 311_299);
        for (date, is_day) in (0..).zip(days) {
            assert_eq!(valid(date), is_day, "{date:06}");
        }
    }

    #[test]
    fn the_dates_of_the_request() {
        assert!(valid(290_216));
        for date in [310_215, 290_215, 310_416] {
            assert!(!valid(date), "{date:06}");
        }
    }
}
