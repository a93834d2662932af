//! Quotes at every age and at the ends of the calendar and of service, engine
//! against reference.

mod common;

use cases::fields::{at_every_place, dates_after, plain_case, CaseFields};
use cases::generator::Generator;
use cases::month_ends::month_end_case;
use common::compare::{assert_quote, assert_refusal};
use reference::calendar::Date;

#[test]
fn every_entry_of_table_1() {
    for age in 630..=880 {
        for kind in [1, 2] {
            let mut case = plain_case(&[kind]);
            case.pensions[0].f1 = 0;
            let refusal = match age {
                660.. if kind == 2 => 8,
                636..=875 => 0,
                _ => 9,
            };
            for commencement in ends(dates_after(case.birth, age)) {
                case.commencement = commencement;
                assert_refusal(&case, refusal);
            }
        }
    }
}

/// The first and the last of some dates.
fn ends(dates: Vec<Date>) -> [Date; 2] {
    [dates[0], dates[dates.len() - 1]]
}

/// Ages from 54 years 11 months to 60 years 1 month, for births on every
/// seventh day of two years.
#[test]
fn every_month_of_early_payment() {
    let mut case = plain_case(&[3]);
    case.pensions[0].yearly = 1_234_567;
    for birth in [1970, 1972].into_iter().flat_map(all_days).step_by(7) {
        case.birth = birth;
        for age in 659..=721 {
            for commencement in ends(dates_after(birth, age)) {
                case.commencement = commencement;
                assert_refusal(&case, if age < 660 { 8 } else { 0 });
            }
        }
    }
}

fn all_days(year: u16) -> impl Iterator<Item = Date> {
    let days = (1..=12).flat_map(move |month| (1..=31).map(move |day| Date::new(year, month, day)));
    days.filter(|date| date.is_in_calendar())
}

/// Births on 29 February with the days around the 55th to the 60th birthday, as far
/// as the calendar goes; the years 2100 and 2200 have no such day.
#[test]
fn sixtieth_birthdays_of_leap_days() {
    for year in (1904..=2144).step_by(4) {
        let birth = Date::new(year, 2, 29);
        if !birth.is_in_calendar() {
            continue;
        }
        for later in 55..=60 {
            for (month, day) in
                [(1, 29), (1, 31), (2, 1), (2, 27), (2, 28), (2, 29), (3, 1), (3, 2), (3, 31)]
            {
                let mut case = plain_case(&[3, 1]);
                case.birth = birth;
                case.commencement = Date::new(year + later, month, day);
                for pension in &mut case.pensions {
                    pension.start = Date::new(year + 20, 1, 1);
                    pension.end = Date::new(year + 50, 1, 1);
                }
                assert_quote(&case.line());
            }
        }
    }
}

/// Dates next to the ends of the calendar, and whether they are in it.
const CALENDAR_ENDS: [(u16, u8, u8, bool); 34] = [
    (0, 1, 1, false),
    (1899, 12, 31, false),
    (1900, 1, 1, true),
    (1900, 2, 28, true),
    (1900, 2, 29, false),
    (1904, 2, 29, true),
    (2000, 2, 29, true),
    (2000, 2, 30, false),
    (2023, 2, 28, true),
    (2023, 2, 29, false),
    (2024, 2, 29, true),
    (2024, 2, 30, false),
    (2096, 2, 29, true),
    (2100, 2, 28, true),
    (2100, 2, 29, false),
    (2104, 2, 29, true),
    (2010, 4, 30, true),
    (2010, 4, 31, false),
    (2010, 6, 31, false),
    (2010, 9, 31, false),
    (2010, 11, 30, true),
    (2010, 11, 31, false),
    (2010, 1, 31, true),
    (2010, 1, 32, false),
    (2010, 12, 31, true),
    (2010, 12, 32, false),
    (2010, 7, 255, false),
    (2010, 7, 0, false),
    (2010, 0, 7, false),
    (2010, 13, 7, false),
    (2010, 255, 7, false),
    (2199, 12, 31, true),
    (2200, 1, 1, false),
    (65535, 1, 1, false),
];

#[test]
fn calendar_ends_in_every_date() {
    for (year, month, day, in_calendar) in CALENDAR_ENDS {
        for (case, place) in at_every_place(1) {
            for field in 0..4 {
                let mut case = case.clone();
                case.set_date(place, field, Date::new(year, month, day));
                let quote = assert_quote(&case.line());
                assert_eq!(quote.refusal == 3, !in_calendar, "{case:?}");
            }
        }
    }
}

/// Cases in which every date is the last day of its month, many of them on 29
/// February.
#[test]
fn month_ends_in_every_date() {
    let mut random = Generator::for_test("month_ends_in_every_date");
    for _ in 0..200_000 {
        assert_refusal(&month_end_case(&mut random), 0);
    }
}

#[test]
fn dates_in_and_out_of_order() {
    let (birth, next) = (Date::new(1970, 6, 15), Date::new(1970, 6, 16));
    let (last, beyond) = (Date::new(2027, 6, 15), Date::new(2027, 6, 16));
    let before = Date::new(2027, 6, 14);
    let orders = [
        (birth, last, 4),
        (next, last, 0),
        (next, next, 0),
        (next, birth, 4),
        (last, last, 0),
        (before, last, 0),
        (last, before, 4),
        (next, beyond, 4),
        (beyond, beyond, 4),
        (Date::new(2000, 5, 31), Date::new(2000, 6, 1), 0),
        (Date::new(2000, 6, 1), Date::new(2000, 5, 31), 4),
        (Date::new(1999, 12, 31), Date::new(2000, 1, 1), 0),
        (Date::new(2000, 1, 1), Date::new(1999, 12, 31), 4),
    ];
    for (start, end, refusal) in orders {
        for (mut case, place) in at_every_place(1) {
            case.pensions[place].start = start;
            case.pensions[place].end = end;
            assert_refusal(&case, refusal);
        }
    }
}

/// Kind, factor 1, age in months, refusal.
const AGES: [(u8, u16, u32, u32); 35] = [
    (1, 2500, 0, 5),
    (1, 2500, 215, 5),
    (1, 2500, 216, 0),
    (1, 2500, 217, 0),
    (1, 2500, 1198, 0),
    (1, 2500, 1199, 0),
    (1, 2500, 1200, 5),
    (1, 0, 635, 9),
    (1, 0, 636, 0),
    (1, 0, 875, 0),
    (1, 0, 876, 9),
    (1, 0, 215, 5),
    (1, 0, 1200, 5),
    (2, 2500, 215, 5),
    (2, 2500, 216, 0),
    (2, 2500, 658, 0),
    (2, 2500, 659, 0),
    (2, 2500, 660, 8),
    (2, 2500, 661, 8),
    (2, 2500, 1200, 5),
    (2, 0, 635, 9),
    (2, 0, 636, 0),
    (2, 0, 659, 0),
    (2, 0, 660, 8),
    (2, 0, 876, 8),
    (3, 0, 215, 5),
    (3, 0, 658, 8),
    (3, 0, 659, 8),
    (3, 0, 660, 0),
    (3, 0, 661, 0),
    (3, 0, 719, 0),
    (3, 0, 720, 0),
    (3, 0, 721, 0),
    (3, 0, 1199, 0),
    (3, 0, 1200, 5),
];

#[test]
fn ages_at_the_ends_of_their_ranges() {
    for (kind, f1, age, refusal) in AGES {
        for (mut case, place) in at_every_place(kind) {
            case.pensions[place].f1 = f1;
            for pension in &mut case.pensions {
                pension.start = Date::new(1970, 6, 16);
                pension.end = Date::new(1970, 6, 17);
            }
            assert_age(case, age, refusal);
        }
    }
}

/// Asserts a refusal on every day of an age after service has ended.
fn assert_age(mut case: CaseFields, age: u32, refusal: u32) {
    let mut days = dates_after(case.birth, age);
    days.retain(|&day| day >= case.pensions[0].end);
    for day in days {
        case.commencement = day;
        assert_refusal(&case, refusal);
    }
}

#[test]
fn service_at_the_ends_of_the_cap() {
    let starts = [Date::new(1988, 1, 31), Date::new(1988, 2, 29), Date::new(1989, 12, 1)];
    for kind in [1, 2] {
        for (case, place) in at_every_place(kind) {
            for start in starts {
                assert_services(case.clone(), place, start);
            }
        }
    }
}

/// Compares service of lengths next to the two-and-a-quarter cap's.
fn assert_services(mut case: CaseFields, place: usize, start: Date) {
    for months in [0, 1, 298, 299, 300, 301, 358, 359, 360, 361] {
        for end in ends(dates_after(start, months)) {
            for lift in [0, 1] {
                let pension = &mut case.pensions[place];
                (pension.start, pension.end, pension.lift) = (start, end, lift);
                assert_refusal(&case, 0);
            }
        }
    }
}
