//! Days as dates: day 0 is 1 January 2000, day 36,524 is 31 December 2099.

const FIRST_YEAR: u32 = 2000;

fn leap(year: u32) -> bool {
    year.is_multiple_of(4) && !year.is_multiple_of(100) || year.is_multiple_of(400)
}

fn days_of_year(year: u32) -> u32 {
    if leap(year) {
        366
    } else {
        365
    }
}

fn days_of_month(year: u32, month: u32) -> u32 {
    match month {
        2 if leap(year) => 29,
        2 => 28,
        4 | 6 | 9 | 11 => 30,
        _ => 31,
    }
}

/// `2026-11-16`
pub fn date(day: u32) -> String {
    let (mut year, mut rest) = (FIRST_YEAR, day);
    while rest >= days_of_year(year) {
        rest -= days_of_year(year);
        year += 1;
    }
    let mut month = 1;
    while rest >= days_of_month(year, month) {
        rest -= days_of_month(year, month);
        month += 1;
    }
    format!("{year:04}-{month:02}-{:02}", rest + 1)
}

/// The day of a date from 2000 to 2099, if there is such a date.
pub fn day(year: u32, month: u32, day_of_month: u32) -> Option<u32> {
    let in_range = (FIRST_YEAR..FIRST_YEAR + 100).contains(&year) && (1..=12).contains(&month);
    if !in_range || !(1..=days_of_month(year, month)).contains(&day_of_month) {
        return None;
    }
    let years: u32 = (FIRST_YEAR..year).map(days_of_year).sum();
    let months: u32 = (1..month).map(|m| days_of_month(year, m)).sum();
    Some(years + months + day_of_month - 1)
}

#[cfg(test)]
mod tests {
    use super::*;

    #[test]
    fn every_day_is_its_date() {
        for n in 0..=secpal::limits::LAST_DAY as u32 {
            let text = date(n);
            let part = |from: usize, to: usize| text[from..to].parse().expect("digits");
            assert_eq!(day(part(0, 4), part(5, 7), part(8, 10)), Some(n));
        }
        assert_eq!(date(0), "2000-01-01");
        assert_eq!(date(59), "2000-02-29");
        assert_eq!(date(secpal::limits::LAST_DAY as u32), "2099-12-31");
        assert_eq!(day(2023, 2, 29), None);
        assert_eq!(day(2100, 1, 1), None);
    }
}
