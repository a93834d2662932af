//! Random good cases in which every date is the last day of its month, or next to
//! it, often 29 February: the dates that a count of months has most to do with.

use std::ops::RangeInclusive;

use reference::calendar::{days_in_month, Date};

use crate::fields::{dates_after, day_after, CaseFields, PensionFields};
use crate::generator::Generator;
use crate::random::{ages_for, any_kinds, good_pension, with_amounts};

/// A month of the calendar, counted from January of the year 0.
type Month = u32;

const FIRST_MONTH: Month = 1900 * 12;
const LAST_MONTH: Month = 2199 * 12 + 11;

/// The first of the days next to the end of a month. Every month has it and one
/// day more at the least.
const FIRST_NEAR_END: u8 = 27;

/// A good case of random kinds, all its dates last days of months.
pub fn month_end_case(random: &mut Generator) -> CaseFields {
    case_on_days(random, |_, month, _| last_day(month))
}

/// A good case of random kinds, all its dates among the last days of months.
pub fn near_month_end_case(random: &mut Generator) -> CaseFields {
    case_on_days(random, near_end)
}

/// A good case of random kinds. `day` gives a day from the 27th on of a month,
/// within a range that holds one.
fn case_on_days(
    random: &mut Generator,
    day: impl Fn(&mut Generator, Month, RangeInclusive<Date>) -> Date,
) -> CaseFields {
    let kinds = any_kinds(random);
    let look_up = random.once_in(2);
    let ages = ages_for(random, &kinds, look_up);
    let birth_month = leap_or_any(random, FIRST_MONTH..=LAST_MONTH - ages.end());
    let birth = day(random, birth_month, first_day(birth_month)..=last_day(birth_month));
    let month = commencement_month(random, birth_month, ages.clone());
    // The first day of the youngest age, which is from the 27th on as birth is.
    let earliest = dates_after(birth, *ages.start())[0];
    let commencement = day(random, month, earliest..=last_day(month));
    let mut pensions: Vec<PensionFields> = Vec::new();
    for kind in kinds {
        let (start, end) = service(random, birth_month, month);
        let start = day(random, start, day_after(birth)..=commencement);
        let end = day(random, end, start..=commencement);
        pensions.push(good_pension(random, kind, look_up, start, end));
    }
    with_amounts(random, birth, commencement, pensions)
}

/// A month of commencement at one of some ages, now and then at the youngest or
/// the oldest. On its last day the age is as many months as lie between.
fn commencement_month(random: &mut Generator, birth: Month, ages: RangeInclusive<u32>) -> Month {
    let (youngest, oldest) = (birth + ages.start(), birth + ages.end());
    let any = leap_or_any(random, youngest..=oldest);
    random.pick(&[any, any, any, any, youngest, oldest])
}

/// Service after the month of birth that ends by commencement, now and then of
/// a length next to the two-and-a-quarter cap.
fn service(random: &mut Generator, birth: Month, commencement: Month) -> (Month, Month) {
    let start = leap_or_any(random, birth + 1..=commencement);
    let capped = start + random.pick(&[299, 300, 301, 359, 360, 361]);
    if random.once_in(8) && capped <= commencement {
        return (start, capped);
    }
    (start, leap_or_any(random, start..=commencement))
}

/// A month of a range: half the times any, half the times a February of a leap
/// year if there is one.
fn leap_or_any(random: &mut Generator, months: RangeInclusive<Month>) -> Month {
    let any = random.within(months.clone());
    if random.once_in(2) {
        return any;
    }
    let mut later_first = (any..=*months.end()).chain(*months.start()..any);
    later_first.find(|&month| is_leap_day(last_day(month))).unwrap_or(any)
}

fn is_leap_day(date: Date) -> bool {
    (date.month, date.day) == (2, 29)
}

/// One of the last days of a month, within a range that holds one.
fn near_end(random: &mut Generator, month: Month, dates: RangeInclusive<Date>) -> Date {
    let last = last_day(month);
    let days = (FIRST_NEAR_END..=last.day).map(|day| Date { day, ..last });
    let days: Vec<Date> = days.filter(|day| dates.contains(day)).collect();
    random.pick(&days)
}

fn first_day(month: Month) -> Date {
    Date { day: 1, ..last_day(month) }
}

fn last_day(month: Month) -> Date {
    let (year, month) = ((month / 12) as u16, (month % 12) as u8 + 1);
    Date::new(year, month, days_in_month(year, month))
}
