//! The Gregorian calendar by counting days, with no list of months and no test for leap years. Years are taken to begin with
//! March, so that 29 February, where there is one, is a year's last day. A date is real where the day that it counts to has that
//! very date.

use std::ops::RangeInclusive;

/// The years that a date may have.
pub const YEARS: RangeInclusive<u32> = 1900..=2199;

/// How many days they have. Days are numbered from 0, which is 1 January 1900.
pub const DAYS: usize = 109_573;

/// Real or not.
#[derive(Clone, Copy, Debug, PartialEq, Eq)]
pub struct Date {
    pub year: u32,
    pub month: u32,
    pub day: u32,
}

impl Date {
    pub const fn new(year: u32, month: u32, day: u32) -> Date {
        Date { year, month, day }
    }

    /// The day of this number.
    pub fn of(number: usize) -> Date {
        assert!(number < DAYS, "there is no day {number}");
        Date::counted(start() + number as i64)
    }

    /// The number of the day, if the date is real.
    pub fn number(self) -> Option<usize> {
        let real = YEARS.contains(&self.year) && Date::counted(self.count()) == self;
        real.then(|| (self.count() - start()) as usize)
    }

    /// The days since 1 March of the year 0, as if each month had every day.
    fn count(self) -> i64 {
        let [year, month, day] = [self.year, self.month, self.day].map(i64::from);
        let year = if month <= 2 { year - 1 } else { year };
        before_year(year) + before_month((month + 9) % 12) + day - 1
    }

    /// The date so many days after 1 March of the year 0.
    fn counted(days: i64) -> Date {
        let near = days * 400 / before_year(400);
        let year = (near - 1..).take_while(|&year| before_year(year) <= days).last().expect("near is not far too high");
        let days = days - before_year(year);
        let month = (0..12).take_while(|&month| before_month(month) <= days).last().expect("no day is before March");
        let day = days - before_month(month) + 1;
        let (year, month) = if month < 10 { (year, month + 3) } else { (year + 1, month - 9) };
        Date { year: year as u32, month: month as u32, day: day as u32 }
    }
}

/// The count of 1 January 1900.
fn start() -> i64 {
    Date::new(1900, 1, 1).count()
}

/// The days of the years before this one, from 0 on: a day more every fourth year, but not every hundredth, but every
/// four-hundredth.
fn before_year(year: i64) -> i64 {
    365 * year + year / 4 - year / 100 + year / 400
}

/// The days of the months before this one, March being 0: five months have 153 days, two of 30 among them.
fn before_month(month: i64) -> i64 {
    (153 * month + 2) / 5
}

#[cfg(test)]
mod tests {
    use super::*;

    const DAYS_OF_WEEK: [&str; 7] = ["Monday", "Tuesday", "Wednesday", "Thursday", "Friday", "Saturday", "Sunday"];

    /// 1 January 1900 was a Monday.
    fn weekday(year: u32, month: u32, day: u32) -> &'static str {
        DAYS_OF_WEEK[Date::new(year, month, day).number().expect("a real date") % 7]
    }

    fn is_real(year: u32, month: u32, day: u32) -> bool {
        Date::new(year, month, day).number().is_some()
    }

    #[test]
    fn weekdays_are_those_of_known_days() {
        assert_eq!(weekday(1945, 5, 8), "Tuesday");
        assert_eq!(weekday(1969, 7, 20), "Sunday");
        assert_eq!(weekday(1989, 11, 9), "Thursday");
        assert_eq!(weekday(2000, 1, 1), "Saturday");
        assert_eq!(weekday(2000, 2, 29), "Tuesday");
        assert_eq!(weekday(2100, 2, 28), "Sunday");
        assert_eq!(weekday(2100, 3, 1), "Monday");
        assert_eq!(weekday(2199, 12, 31), "Tuesday");
    }

    #[test]
    fn four_hundred_years_have_146097_days() {
        assert_eq!(before_year(400), 146_097);
        assert!((0..1_000).all(|year| before_year(year + 400) - before_year(year) == 146_097));
    }

    #[test]
    fn there_are_as_many_real_dates_as_days() {
        let dates_of = |year: u32| (0..=15).flat_map(move |month| (0..=40).map(move |day| Date::new(year, month, day)));
        let numbers: Vec<usize> = (1890..=2210).flat_map(dates_of).filter_map(Date::number).collect();
        assert!(numbers.iter().copied().eq(0..DAYS));
        assert!((0..DAYS).all(|number| Date::of(number).number() == Some(number)));
        assert_eq!((Date::of(0), Date::of(DAYS - 1)), (Date::new(1900, 1, 1), Date::new(2199, 12, 31)));
    }

    #[test]
    fn february_has_its_days() {
        let leap = [1904, 1996, 2000, 2004, 2096, 2104, 2196];
        let common = [1900, 1901, 1902, 1903, 1999, 2001, 2023, 2100, 2199];
        assert!(leap.into_iter().all(|year| is_real(year, 2, 29) && !is_real(year, 2, 30)));
        assert!(common.into_iter().all(|year| is_real(year, 2, 28) && !is_real(year, 2, 29)));
        assert_eq!((1900..=2199).filter(|&year| is_real(year, 2, 29)).count(), 73);
    }

    /// Thirty days hath September, April, June and November.
    #[test]
    fn the_other_months_have_theirs() {
        for month in [1, 3, 4, 5, 6, 7, 8, 9, 10, 11, 12] {
            assert!(is_real(2026, month, 1) && is_real(2026, month, 30), "{month}");
            assert_eq!(is_real(2026, month, 31), ![9, 4, 6, 11].contains(&month), "{month}");
            assert!(!is_real(2026, month, 0) && !is_real(2026, month, 32), "{month}");
        }
        assert!([0, 13, 14, 15, 24].into_iter().all(|month| !is_real(2026, month, 1)));
        assert!([0, 26, 1899, 2200, 2400].into_iter().all(|year| !is_real(year, 1, 1)));
    }

    #[test]
    fn numbers_that_are_far_too_high_are_no_dates() {
        let far = [1 << 8, 1 << 16, 1 << 24, 1 << 31, u32::MAX - 2_000];
        for by in far {
            assert!(!is_real(2000 + by, 1, 1) && !is_real(2000, 1 + by, 1) && !is_real(2000, 1, 1 + by), "{by}");
        }
        assert!(!is_real(u32::MAX, u32::MAX, u32::MAX) && !is_real(2000, u32::MAX, u32::MAX));
    }
}
