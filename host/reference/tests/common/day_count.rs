//! A calendar that is counted in days, and the months that are complete as it is
//! walked through day by day. It shares nothing with the reference's but the type
//! of a date and its order.

use std::ops::RangeInclusive;

use reference::calendar::Date;

/// A year, a month and a day, of any size.
pub type Numbers = (u32, u32, u32);

/// The date of a day counted from 1 March of the year 0. With years that begin in
/// March a leap day is the last of its year, and of 4 or 400 years; so whole
/// spans are taken off the count, the longest first, and a last day that is one
/// too many stays with the span before.
pub fn date_of(count: u32) -> Numbers {
    let (spans_of_400, rest) = (count / 146_097, count % 146_097);
    let centuries = (rest / 36_524).min(3);
    let rest = rest - 36_524 * centuries;
    let (spans_of_4, rest) = (rest / 1_461, rest % 1_461);
    let years = (rest / 365).min(3);
    let day_of_year = rest - 365 * years;
    let year = 400 * spans_of_400 + 100 * centuries + 4 * spans_of_4 + years;
    // Five months from March or August on have 31, 30, 31, 30 and 31 days: 153.
    let month = (5 * day_of_year + 2) / 153;
    let day = day_of_year - (153 * month + 2) / 5 + 1;
    if month < 10 {
        (year, month + 3, day)
    } else {
        (year + 1, month - 9, day)
    }
}

/// The days from 1 January 1900 to 1 January 2205, counted from 1 March of the
/// year 0: those of the calendar, the 60th birthdays of all who can have a pension
/// in it, and one day more to tell that a month has ended.
const WALKED_DAYS: RangeInclusive<u32> = 693_901..=805_300;

/// The days to walk through, in the order of time.
pub struct Walk {
    days: Vec<Date>,
}

impl Walk {
    pub fn new() -> Self {
        let date = |(year, month, day)| Date::new(year as u16, month as u8, day as u8);
        Walk { days: WALKED_DAYS.map(date_of).map(date).collect() }
    }

    /// The days of some years.
    pub fn years(&self, years: RangeInclusive<u16>) -> &[Date] {
        let first = self.days.partition_point(|day| day.year < *years.start());
        let behind = self.days.partition_point(|day| day.year <= *years.end());
        &self.days[first..behind]
    }

    /// A day, and so many days before and behind it.
    pub fn around(&self, day: Date, count: usize) -> &[Date] {
        let place = self.place(day);
        &self.days[place - count..=place + count]
    }

    /// Walks on from a date until so many months are complete, or all days are
    /// walked through.
    pub fn months_from(&self, date: Date, months: usize) -> CompleteMonths {
        // On the day of the same number, or on the last day, before a first, of a
        // month that ends without one.
        let is_complete = |today: Date, tomorrow: Date| {
            today.day == date.day || today.day < date.day && tomorrow.day == 1
        };
        let days_behind = self.days[self.place(date) + 1..].windows(2);
        let complete = days_behind.filter(|days| is_complete(days[0], days[1]));
        CompleteMonths(complete.take(months).map(|days| days[0]).collect())
    }

    fn place(&self, day: Date) -> usize {
        self.days.binary_search(&day).expect("a day of the walk")
    }
}

/// The days on which the months from a date are complete, in the order of time.
pub struct CompleteMonths(Vec<Date>);

impl CompleteMonths {
    /// How many are complete on a day.
    pub fn on(&self, day: Date) -> usize {
        self.0.partition_point(|&complete| complete <= day)
    }

    /// The first day on which so many are complete, at least one.
    pub fn day_of(&self, months: usize) -> Date {
        self.0[months - 1]
    }
}
