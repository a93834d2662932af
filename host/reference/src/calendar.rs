//! Dates, what is wrong with one, and the count of months between two.

use std::ops::RangeInclusive;

/// The years of the calendar.
pub const YEARS: RangeInclusive<u32> = 1900..=2199;
/// The months of a year.
const MONTHS: RangeInclusive<u32> = 1..=12;
/// The days that some month has.
const DAYS: RangeInclusive<u32> = 1..=31;

/// Why a date is not in the calendar. The first that applies is given.
#[derive(Clone, Copy, Debug, PartialEq, Eq, PartialOrd, Ord)]
#[repr(u8)]
pub enum DateFault {
    /// The day is not 1 to 31.
    Day = 1,
    /// The month is not 1 to 12.
    Month = 2,
    /// The year is not 1900 to 2199.
    Year = 3,
    /// The month has fewer days in that year.
    MonthLength = 4,
}

impl DateFault {
    /// The number of the fault in the change requests.
    pub fn number(self) -> u8 {
        self as u8
    }
}

/// What is wrong with a year, month and day, which may be any numbers, or nothing
/// if they are a day of the Gregorian calendar, 1900 to 2199.
pub fn date_fault(year: u32, month: u32, day: u32) -> Option<DateFault> {
    if !DAYS.contains(&day) {
        Some(DateFault::Day)
    } else if !MONTHS.contains(&month) {
        Some(DateFault::Month)
    } else if !YEARS.contains(&year) {
        Some(DateFault::Year)
    } else {
        // A month and a year of the calendar fit.
        let length = days_in_month(year as u16, month as u8);
        (day > u32::from(length)).then_some(DateFault::MonthLength)
    }
}

/// A year, month and day as stated; it need not be in the calendar. Dates
/// compare in the order of time.
#[derive(Clone, Copy, Debug, Default, PartialEq, Eq, PartialOrd, Ord)]
pub struct Date {
    pub year: u16,
    pub month: u8,
    pub day: u8,
}

impl Date {
    pub const fn new(year: u16, month: u8, day: u8) -> Self {
        Date { year, month, day }
    }

    /// Whether the date is a day of the Gregorian calendar, 1900 to 2199.
    pub fn is_in_calendar(self) -> bool {
        date_fault(self.year.into(), self.month.into(), self.day.into()).is_none()
    }

    /// Complete months from this date to a later one: a month is complete on
    /// the same day of the month, and on the last day of a month that is too
    /// short to have it.
    pub fn months_until(self, later: Date) -> i32 {
        let years = i32::from(later.year) - i32::from(self.year);
        let months = i32::from(later.month) - i32::from(self.month);
        let last_is_complete = later.day >= self.day || later.is_last_of_month();
        12 * years + months - i32::from(!last_is_complete)
    }

    fn is_last_of_month(self) -> bool {
        self.day == days_in_month(self.year, self.month)
    }

    /// The birthday at an age in years of somebody born on this date: the same
    /// day and month, or the last day of the month if that year has no such day.
    /// The year may lie beyond the calendar.
    pub fn birthday(self, years: u16) -> Date {
        let year = self.year + years;
        let day = self.day.min(days_in_month(year, self.month));
        Date { year, day, ..self }
    }
}

/// Days of a month from 1 to 12.
pub fn days_in_month(year: u16, month: u8) -> u8 {
    match month {
        2 if is_leap_year(year) => 29,
        2 => 28,
        4 | 6 | 9 | 11 => 30,
        _ => 31,
    }
}

fn is_leap_year(year: u16) -> bool {
    year.is_multiple_of(4) && (!year.is_multiple_of(100) || year.is_multiple_of(400))
}

#[cfg(test)]
mod tests {
    use super::*;

    #[test]
    fn months_of_the_pension_office() {
        let born = Date::new(1972, 6, 30);
        assert_eq!(born.months_until(Date::new(2023, 10, 15)), 615);
        let january = Date::new(2023, 1, 31);
        assert_eq!(january.months_until(Date::new(2023, 2, 28)), 1);
    }

    #[test]
    fn a_month_is_complete_on_the_same_day() {
        let date = Date::new(2000, 2, 29);
        assert_eq!(date.months_until(date), 0);
        assert_eq!(date.months_until(Date::new(2001, 2, 27)), 11);
        assert_eq!(date.months_until(Date::new(2001, 2, 28)), 12);
        assert_eq!(date.months_until(Date::new(2001, 3, 1)), 12);
        assert_eq!(date.months_until(Date::new(2004, 2, 28)), 47);
        assert_eq!(date.months_until(Date::new(2004, 2, 29)), 48);
    }

    /// A day of January 2023, a later date, and the months between.
    const TO_SHORT_MONTHS: [(u8, Date, i32); 19] = [
        (31, Date::new(2023, 2, 27), 0),
        (31, Date::new(2023, 2, 28), 1),
        (30, Date::new(2023, 2, 28), 1),
        (29, Date::new(2023, 2, 28), 1),
        (29, Date::new(2023, 2, 27), 0),
        (28, Date::new(2023, 2, 28), 1),
        (28, Date::new(2023, 2, 27), 0),
        (31, Date::new(2023, 3, 1), 1),
        (31, Date::new(2023, 3, 30), 1),
        (31, Date::new(2023, 3, 31), 2),
        (31, Date::new(2023, 4, 29), 2),
        (31, Date::new(2023, 4, 30), 3),
        (31, Date::new(2024, 2, 28), 12),
        (31, Date::new(2024, 2, 29), 13),
        (30, Date::new(2024, 2, 28), 12),
        (31, Date::new(2100, 2, 28), 925),
        (31, Date::new(2200, 2, 28), 2125),
        (31, Date::new(2204, 2, 28), 2172),
        (31, Date::new(2204, 2, 29), 2173),
    ];

    #[test]
    fn a_month_is_complete_on_the_last_day_of_a_short_one() {
        for (day, later, months) in TO_SHORT_MONTHS {
            let earlier = Date::new(2023, 1, day);
            assert_eq!(earlier.months_until(later), months, "{earlier:?} to {later:?}");
        }
    }

    /// Only a month that the day of the later date leaves incomplete is made
    /// complete, and the last day of the earlier date's month is a day as any.
    #[test]
    fn last_days_add_no_other_month() {
        let date = |month, day| Date::new(2023, month, day);
        for (earlier, later, months) in [
            (date(1, 31), date(1, 31), 0),
            (date(1, 1), date(1, 31), 0),
            (date(1, 15), date(2, 28), 1),
            (date(1, 31), date(3, 31), 2),
            (date(2, 28), date(3, 27), 0),
            (date(2, 28), date(3, 28), 1),
            (date(2, 28), date(3, 31), 1),
            (date(4, 30), date(5, 29), 0),
            (date(4, 30), date(5, 30), 1),
            (date(4, 30), date(5, 31), 1),
        ] {
            assert_eq!(earlier.months_until(later), months, "{earlier:?} to {later:?}");
        }
    }

    /// 29 February is the last day of its month also where the year has none.
    #[test]
    fn sixtieth_birthdays() {
        for (birth, birthday) in [
            (Date::new(1970, 6, 15), Date::new(2030, 6, 15)),
            (Date::new(1970, 12, 31), Date::new(2030, 12, 31)),
            (Date::new(1940, 2, 28), Date::new(2000, 2, 28)),
            (Date::new(1940, 2, 29), Date::new(2000, 2, 29)),
            (Date::new(2040, 2, 28), Date::new(2100, 2, 28)),
            (Date::new(2040, 2, 29), Date::new(2100, 2, 28)),
            (Date::new(2040, 3, 1), Date::new(2100, 3, 1)),
            (Date::new(2140, 2, 29), Date::new(2200, 2, 28)),
            (Date::new(2144, 2, 29), Date::new(2204, 2, 29)),
        ] {
            assert_eq!(birth.birthday(60), birthday, "{birth:?}");
        }
    }

    #[test]
    fn ends_of_the_calendar() {
        assert!(Date::new(1900, 1, 1).is_in_calendar());
        assert!(!Date::new(1899, 12, 31).is_in_calendar());
        assert!(Date::new(2199, 12, 31).is_in_calendar());
        assert!(!Date::new(2200, 1, 1).is_in_calendar());
        assert!(!Date::new(2000, 0, 1).is_in_calendar());
        assert!(!Date::new(2000, 13, 1).is_in_calendar());
        assert!(!Date::new(2000, 1, 0).is_in_calendar());
    }

    #[test]
    fn faults_one_at_a_time() {
        for (year, month, day, fault) in [
            (2024, 2, 29, None),
            (2024, 2, 0, Some(DateFault::Day)),
            (2024, 2, 32, Some(DateFault::Day)),
            (2024, 0, 29, Some(DateFault::Month)),
            (2024, 13, 29, Some(DateFault::Month)),
            (1899, 3, 29, Some(DateFault::Year)),
            (2200, 3, 29, Some(DateFault::Year)),
            (2024, 2, 30, Some(DateFault::MonthLength)),
            (2023, 2, 29, Some(DateFault::MonthLength)),
        ] {
            assert_eq!(date_fault(year, month, day), fault, "{day}.{month}.{year}");
        }
    }

    #[test]
    fn the_first_of_several_faults() {
        assert_eq!(date_fault(2200, 13, 32), Some(DateFault::Day));
        assert_eq!(date_fault(2200, 13, 31), Some(DateFault::Month));
        assert_eq!(date_fault(2200, 2, 31), Some(DateFault::Year));
        assert_eq!(date_fault(2199, 2, 31), Some(DateFault::MonthLength));
    }

    #[test]
    fn numbers_are_not_cut() {
        assert_eq!(date_fault(2024, 1, 256 + 1), Some(DateFault::Day));
        assert_eq!(date_fault(2024, 256 + 1, 1), Some(DateFault::Month));
        assert_eq!(date_fault(65_536 + 2024, 1, 1), Some(DateFault::Year));
        assert_eq!(date_fault(u32::MAX, u32::MAX, u32::MAX), Some(DateFault::Day));
    }

    #[test]
    fn numbers_of_the_faults() {
        let faults = [DateFault::Day, DateFault::Month, DateFault::Year, DateFault::MonthLength];
        assert_eq!(faults.map(DateFault::number), [1, 2, 3, 4]);
    }

    #[test]
    fn lengths_of_months() {
        let lengths = [31, 28, 31, 30, 31, 30, 31, 31, 30, 31, 30, 31];
        for (month, length) in (1..).zip(lengths) {
            assert!(Date::new(2023, month, length).is_in_calendar());
            assert!(!Date::new(2023, month, length + 1).is_in_calendar());
        }
    }

    #[test]
    fn leap_years() {
        for (year, leap) in
            [(1900, false), (1904, true), (2000, true), (2023, false), (2100, false)]
        {
            assert_eq!(Date::new(year, 2, 29).is_in_calendar(), leap, "{year}");
        }
    }
}
