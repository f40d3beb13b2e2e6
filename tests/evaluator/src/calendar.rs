//! The Gregorian calendar, day by day: day 0 is 1 January 2000.
use std::sync::OnceLock;

const LAST_DAY: usize = 36_524;

#[derive(Clone, Copy, PartialEq, Eq, PartialOrd, Ord, Debug)]
pub struct Date {
    pub year: u32,
    pub month: u32,
    pub day: u32,
}

const FIRST: Date = Date { year: 2000, month: 1, day: 1 };

/// Every fourth year is a leap year, but of those that end a century only every fourth.
fn leap(year: u32) -> bool {
    year.is_multiple_of(400) || year.is_multiple_of(4) && !year.is_multiple_of(100)
}

fn days(year: u32, month: u32) -> u32 {
    match month {
        4 | 6 | 9 | 11 => 30,
        2 => 28 + u32::from(leap(year)),
        _ => 31,
    }
}

fn next(date: Date) -> Date {
    if date.day < days(date.year, date.month) {
        Date { day: date.day + 1, ..date }
    } else if date.month < 12 {
        Date { month: date.month + 1, day: 1, ..date }
    } else {
        Date { year: date.year + 1, month: 1, day: 1 }
    }
}

/// The dates of all days, one after another.
fn dates() -> &'static [Date] {
    static DATES: OnceLock<Vec<Date>> = OnceLock::new();
    DATES.get_or_init(|| std::iter::successors(Some(FIRST), |date| Some(next(*date))).take(LAST_DAY + 1).collect())
}

pub fn date(day: u32) -> Date {
    dates()[day as usize]
}

/// "right's calendar date one year after. 29 February goes to 28 February."
fn one_year_after(date: Date) -> Date {
    let day = if (date.month, date.day) == (2, 29) { 28 } else { date.day };
    Date { year: date.year + 1, day, ..date }
}

/// "left is no later than right's calendar date one year after"
pub fn within_year(left: u32, right: u32) -> bool {
    date(left) <= one_year_after(date(right))
}
