//! The count of months at the ends of months: the reference's against a walk
//! through the calendar, and whole case lines, engine against reference and both
//! against what the walk gives for ages, service and early payment.

mod common;

use std::collections::{BTreeMap, HashMap};

use cases::fields::{
    at_every_place, case_between, plain_case, plain_pension, CaseFields, PensionFields,
};
use cases::generator::Generator;
use cases::month_ends::near_month_end_case;
use common::compare::{assert_quote, assert_refusal};
use common::day_count::{CompleteMonths, Walk};
use engine::Quote;
use reference::calendar::Date;
use reference::factors;
use reference::money::YearlyPence;

/// The last day on which a case can commence.
const LAST_COMMENCEMENT: Date = Date::new(2199, 12, 31);

#[test]
fn the_days_of_the_walk() {
    let walk = Walk::new();
    for (year, days) in [(1900, 365), (2000, 366), (2100, 365), (2200, 365), (2204, 366)] {
        let of_year = walk.years(year..=year);
        assert_eq!(of_year.len(), days, "{year}");
        let ends = [Date::new(year, 1, 1), Date::new(year, 12, 31)];
        assert_eq!([of_year[0], of_year[days - 1]], ends);
    }
    assert_eq!(walk.years(1900..=2205).len(), 305 * 365 + 74 + 1);
}

#[test]
fn the_walk_from_a_31st() {
    let months = Walk::new().months_from(Date::new(2023, 1, 31), 14);
    let complete: Vec<Date> = (1..=14).map(|count| months.day_of(count)).collect();
    let lengths = (2..).zip([28, 31, 30, 31, 30, 31, 31, 30, 31, 30, 31]);
    let of_2023 = lengths.map(|(month, day)| Date::new(2023, month, day));
    let of_2024 = [(1, 31), (2, 29), (3, 31)].map(|(month, day)| Date::new(2024, month, day));
    assert!(complete.into_iter().eq(of_2023.chain(of_2024)));
    assert_eq!(months.on(Date::new(2023, 2, 27)), 0);
    assert_eq!(months.on(Date::new(2023, 2, 28)), 1);
    assert_eq!(months.on(Date::new(2023, 3, 30)), 1);
    assert_eq!(months.on(Date::new(2024, 2, 28)), 12);
}

/// Years round a leap year, round centuries that are none and one that is, and
/// beyond the calendar, where 60th birthdays are.
#[test]
fn every_pair_of_days() {
    let walk = Walk::new();
    for years in [1900..=1901, 1999..=2001, 2023..=2025, 2099..=2101, 2199..=2201, 2203..=2204] {
        let days = walk.years(years);
        for (place, &earlier) in days.iter().enumerate() {
            let months = walk.months_from(earlier, 12 * 3);
            for &later in &days[place..] {
                let counted = earlier.months_until(later);
                assert_eq!(counted, months.on(later) as i32, "{earlier:?} to {later:?}");
            }
        }
    }
}

/// Together, the age and the months to the 60th birthday are 60 years, or a month
/// less: Table A has an entry for each that is asked for.
#[test]
fn age_and_early_payment_together() {
    let walk = Walk::new();
    for year in [1968, 1969, 1970, 1971, 2040, 2139] {
        for &birth in walk.years(year..=year) {
            let birthday = birth.birthday(60);
            for &day in walk.years(year + 55..=year + 60) {
                let age = birth.months_until(day);
                if (660..=719).contains(&age) {
                    let together = age + day.months_until(birthday);
                    assert!((719..=720).contains(&together), "{birth:?}, {day:?}");
                }
            }
        }
    }
}

/// Kind and factor 1 of a pension of 1,000,000 a year.
type Terms = (u8, u16);

/// Every kind, with a stated factor 1 and one to look up where there is one.
const TERMS: [Terms; 5] = [(1, 2500), (1, 0), (2, 2628), (2, 0), (3, 0)];

/// A case of one pension, with service from the day after birth to commencement.
fn case_of((kind, f1): Terms, birth: Date, commencement: Date) -> CaseFields {
    let mut case = case_between(birth, commencement);
    let pension = &mut case.pensions[0];
    let (start, end) = (pension.start, pension.end);
    *pension = PensionFields { start, end, f1, ..plain_pension(kind) };
    case
}

/// Somebody's birth, and the days on which months of age are complete.
struct Member {
    birth: Date,
    months: CompleteMonths,
}

impl Member {
    /// One who is walked with to the age of 100.
    fn born_on(birth: Date, walk: &Walk) -> Self {
        Member { birth, months: walk.months_from(birth, 1200) }
    }

    fn age_on(&self, day: Date) -> usize {
        self.months.on(day)
    }

    fn sixtieth_birthday(&self) -> Date {
        self.months.day_of(720)
    }
}

/// The quotes to expect, by the months of the walk.
struct Expectation<'a> {
    walk: &'a Walk,
    /// Quotes of a kind, factor 1 and pension that no month has a part in.
    quotes: HashMap<(u8, u16, u64), Quote>,
}

impl<'a> Expectation<'a> {
    fn by(walk: &'a Walk) -> Self {
        Expectation { walk, quotes: HashMap::new() }
    }

    /// Asserts the quote of a [`case_of`] a member and gives it.
    fn assert_case(&mut self, terms: Terms, member: &Member, commencement: Date) -> Quote {
        let case = case_of(terms, member.birth, commencement);
        let quote = assert_quote(&case.line());
        assert_eq!(quote, self.expected(terms, member, commencement), "{case:?}");
        quote
    }

    fn expected(&mut self, terms: Terms, member: &Member, commencement: Date) -> Quote {
        let (kind, f1) = terms;
        let age = member.age_on(commencement);
        let refusal = refusal_by_rule(terms, age);
        if refusal != 0 {
            return Quote { refusal, ..Quote::default() };
        }
        match kind {
            3 if age < 720 => {
                let months = self.walk.months_from(commencement, 61).on(member.sixtieth_birthday());
                self.reduced(months)
            }
            1 | 2 if f1 == 0 => self.row(kind, age),
            _ => self.without_months(kind, f1, 1_000_000),
        }
    }

    /// The quote with Table 1's row of an age.
    fn row(&mut self, kind: u8, age: usize) -> Quote {
        let f1 = factors::table_1(age as i32).expect("a row of Table 1");
        self.without_months(kind, f1, 1_000_000)
    }

    /// The quote of a 2015 pension that is paid so many months early.
    fn reduced(&mut self, months: usize) -> Quote {
        let pension = factors::early_payment(YearlyPence(1_000_000), months);
        self.without_months(3, 0, pension.0)
    }

    /// The quote of a pension with a stated factor, or of a 2015 pension that is
    /// kept whole, after 30 years of service.
    fn without_months(&mut self, kind: u8, f1: u16, yearly: u64) -> Quote {
        *self.quotes.entry((kind, f1, yearly)).or_insert_with(|| {
            let mut case = plain_case(&[kind]);
            if kind == 3 {
                case.birth = Date::new(1960, 6, 15);
            }
            (case.pensions[0].f1, case.pensions[0].yearly) = (f1, yearly as u32);
            assert_quote(&case.line())
        })
    }
}

/// The refusal of a case of one pension by an age in months, 0 for none.
fn refusal_by_rule((kind, f1): Terms, age: usize) -> u32 {
    match kind {
        _ if !(216..=1199).contains(&age) => 5,
        2 if age >= 660 => 8,
        3 if age < 660 => 8,
        1 | 2 if f1 == 0 && !(636..=875).contains(&age) => 9,
        _ => 0,
    }
}

/// Every row of Table 1, and every month of early payment, has its own quote.
#[test]
fn quotes_show_ages_and_periods() {
    let walk = Walk::new();
    let mut expectation = Expectation::by(&walk);
    for kind in [1, 2] {
        let rows: Vec<u64> = (636..=875).map(|age| expectation.row(kind, age).total).collect();
        assert!(rows.is_sorted_by(|younger, older| younger > older));
    }
    let reduced: Vec<u64> = (0..=60).map(|months| expectation.reduced(months).total).collect();
    assert!(reduced.is_sorted_by(|fewer, more| fewer > more));
    assert!(expectation.without_months(3, 0, 1_000_000).total > reduced[0]);
}

/// Births and commencements on every day of a common year and a leap year, and of a
/// leap year and a common one, with a factor to look up.
#[test]
fn every_day_of_birth_and_of_commencement() {
    let walk = Walk::new();
    let mut expectation = Expectation::by(&walk);
    for (birth, commencement) in [(1971, 2028), (1972, 2027), (2040, 2100)] {
        for &birth in walk.years(birth..=birth) {
            let member = Member::born_on(birth, &walk);
            for &day in walk.years(commencement..=commencement) {
                let quote = expectation.assert_case((1, 0), &member, day);
                assert_eq!(quote.refusal, 0);
            }
        }
    }
}

/// The days from the 29th on of some years.
fn days_from_29th(walk: &Walk, years: &[u16]) -> Vec<Date> {
    let days = years.iter().flat_map(|&year| walk.years(year..=year));
    days.copied().filter(|date| date.day >= 29).collect()
}

/// Ages in months from which a rule holds or no longer holds.
const AGES: [usize; 6] = [216, 636, 660, 720, 876, 1200];

/// Common and leap years of birth, those whose 60th or 100th birthdays are in 2100
/// among them.
const BIRTH_YEARS: [u16; 8] = [1903, 1904, 1970, 1972, 2000, 2039, 2040, 2096];

/// Births on the 29th, 30th and 31st, with commencements from more than a month
/// before such an age to more than a month behind it.
#[test]
fn births_at_month_ends_round_every_age() {
    let walk = Walk::new();
    let mut expectation = Expectation::by(&walk);
    let mut quoted = BTreeMap::new();
    for birth in days_from_29th(&walk, &BIRTH_YEARS) {
        let member = Member::born_on(birth, &walk);
        for &day in AGES.iter().flat_map(|&age| walk.around(member.months.day_of(age), 33)) {
            for terms in TERMS {
                let quote = expectation.assert_case(terms, &member, day);
                *quoted.entry(quote.refusal).or_insert(0) += 1;
            }
        }
    }
    assert!(quoted.keys().eq(&[0, 5, 8, 9]));
    assert!(quoted.values().all(|&cases| cases > 10_000), "{quoted:?}");
}

/// Service from the 29th, 30th and 31st on, with ends from more than a month before
/// 300 and 360 months to more than a month behind. A lump sum of 2,250,000 shows
/// the two-and-a-quarter cap.
#[test]
fn service_from_month_ends() {
    let walk = Walk::new();
    for start in days_from_29th(&walk, &[1987, 1988, 1991, 2070, 2072]) {
        let months = walk.months_from(start, 360);
        for &end in [300, 360].iter().flat_map(|&length| walk.around(months.day_of(length), 33)) {
            let is_capped = (300..=359).contains(&months.on(end));
            for (terms, lift) in [((1, 2500), 0), ((2, 2628), 0), ((1, 2500), 1), ((2, 2628), 1)] {
                let birth = Date::new(start.year - 18, 6, 15);
                let mut case = case_of(terms, birth, end);
                (case.pensions[0].start, case.pensions[0].lift) = (start, lift);
                let quote = assert_quote(&case.line());
                assert_eq!(quote.refusal, 0, "{case:?}");
                assert_eq!(quote.total == 2_250_000, is_capped && lift == 0, "{case:?}");
            }
        }
    }
}

/// 2015 pensions of births on the last days of months and on the first, at the
/// ends of every month of early payment as far as the calendar goes. The years of
/// the 60th birthdays are common and leap years, 2100, and 2199 to 2204.
#[test]
fn early_payment_at_month_ends() {
    let walk = Walk::new();
    let mut expectation = Expectation::by(&walk);
    let years = [1968..=1971, 2040..=2040, 2139..=2144];
    let births = years.into_iter().flat_map(|years| walk.years(years));
    for &birth in births.filter(|birth| birth.day >= 28 || birth.day == 1) {
        let member = Member::born_on(birth, &walk);
        let commencements =
            walk.years(birth.year + 54..=LAST_COMMENCEMENT.year.min(birth.year + 60));
        for &day in commencements.iter().filter(|day| day.day >= 28 || day.day == 1) {
            if (659..=721).contains(&member.age_on(day)) {
                expectation.assert_case((3, 0), &member, day);
            }
        }
    }
}

/// The request's own dates as an age: somebody born on 31 January 1970 is 53 years
/// and 1 month old on 28 February 2023, with 25.36 for 25.40 on the day before.
#[test]
fn the_example_of_the_request() {
    let walk = Walk::new();
    let mut expectation = Expectation::by(&walk);
    let born_on_31st = Member::born_on(Date::new(1970, 1, 31), &walk);
    for (day, f1) in [
        (Date::new(2023, 2, 27), 2540),
        (Date::new(2023, 2, 28), 2536),
        (Date::new(2023, 3, 1), 2536),
        (Date::new(2023, 3, 30), 2536),
        (Date::new(2023, 3, 31), 2532),
    ] {
        let quote = expectation.assert_case((1, 0), &born_on_31st, day);
        assert_eq!(quote, expectation.without_months(1, f1, 1_000_000), "{day:?}");
    }
}

/// Asserts that a 2015 pension of 1,000,000 a year becomes each of some pensions if
/// it commences on the day beside it.
fn assert_pensions_2015(birth: Date, pensions: &[(Date, u64)]) {
    let walk = Walk::new();
    let mut expectation = Expectation::by(&walk);
    let member = Member::born_on(birth, &walk);
    for &(commencement, pension) in pensions {
        let quote = expectation.assert_case((3, 0), &member, commencement);
        let expected = expectation.without_months(3, 0, pension);
        assert_eq!(quote, expected, "{birth:?} to {commencement:?}");
    }
}

/// The year 2100 has no 29 February: on its 28th the pension is whole, and every
/// period ends with the month.
#[test]
fn a_sixtieth_birthday_on_29_february_2100() {
    let pensions = [
        (Date::new(2095, 2, 28), 775_000),
        (Date::new(2095, 3, 1), 778_000),
        (Date::new(2095, 3, 30), 778_000),
        (Date::new(2095, 3, 31), 778_000),
        (Date::new(2095, 4, 1), 781_000),
        (Date::new(2099, 12, 28), 989_000),
        (Date::new(2099, 12, 31), 989_000),
        (Date::new(2100, 1, 1), 994_000),
        (Date::new(2100, 1, 28), 994_000),
        (Date::new(2100, 1, 29), 994_000),
        (Date::new(2100, 1, 30), 994_000),
        (Date::new(2100, 1, 31), 994_000),
        (Date::new(2100, 2, 1), 998_000),
        (Date::new(2100, 2, 27), 998_000),
        (Date::new(2100, 2, 28), 1_000_000),
        (Date::new(2100, 3, 1), 1_000_000),
    ];
    assert_pensions_2015(Date::new(2040, 2, 29), &pensions);
}

/// The birthdays are 28 and 29 February 2200, a common year, and lie beyond the
/// calendar.
#[test]
fn sixtieth_birthdays_in_2200() {
    for birth in [Date::new(2140, 2, 28), Date::new(2140, 2, 29)] {
        let pensions = [
            (Date::new(2195, 2, 28), 775_000),
            (Date::new(2195, 3, 31), 778_000),
            (Date::new(2199, 11, 30), 985_000),
            (Date::new(2199, 12, 1), 989_000),
            (Date::new(2199, 12, 28), 989_000),
            (Date::new(2199, 12, 29), 989_000),
            (Date::new(2199, 12, 30), 989_000),
            (Date::new(2199, 12, 31), 989_000),
        ];
        assert_pensions_2015(birth, &pensions);
    }
}

/// 2204 is a leap year, so that 28 February is not the last day of its month.
#[test]
fn sixtieth_birthdays_in_2204() {
    let last = LAST_COMMENCEMENT;
    let on_28_february = [
        (Date::new(2199, 2, 28), 775_000),
        (Date::new(2199, 3, 28), 778_000),
        (Date::new(2199, 3, 29), 781_000),
        (Date::new(2199, 3, 31), 781_000),
        (last, 811_000),
    ];
    assert_pensions_2015(Date::new(2144, 2, 28), &on_28_february);
    let on_29_february = [
        (Date::new(2199, 2, 28), 775_000),
        (Date::new(2199, 3, 29), 778_000),
        (Date::new(2199, 3, 31), 778_000),
        (last, 807_000),
    ];
    assert_pensions_2015(Date::new(2144, 2, 29), &on_29_february);
    let on_30_november = [(Date::new(2199, 11, 30), 775_000), (last, 778_000)];
    assert_pensions_2015(Date::new(2144, 11, 30), &on_30_november);
    let on_30_december = [(Date::new(2199, 12, 30), 775_000), (last, 778_000)];
    assert_pensions_2015(Date::new(2144, 12, 30), &on_30_december);
    assert_pensions_2015(Date::new(2144, 12, 31), &[(last, 775_000)]);
}

/// A period that ends with a birthday on the last day of a month can be longer by a
/// month, and the pension less, though no age changes.
#[test]
fn periods_to_a_birthday_on_a_last_day() {
    let to_30_june = [
        (Date::new(2030, 5, 30), 994_000),
        (Date::new(2030, 5, 31), 994_000),
        (Date::new(2030, 6, 1), 998_000),
        (Date::new(2030, 6, 29), 998_000),
        (Date::new(2030, 6, 30), 1_000_000),
    ];
    assert_pensions_2015(Date::new(1970, 6, 30), &to_30_june);
    let to_29_june = [
        (Date::new(2030, 5, 29), 994_000),
        (Date::new(2030, 5, 30), 998_000),
        (Date::new(2030, 5, 31), 998_000),
    ];
    assert_pensions_2015(Date::new(1970, 6, 29), &to_29_june);
    // On both 28 and 29 February 2024 it is 5 years to 28 February 2029.
    let to_28_february = [
        (Date::new(2024, 2, 28), 775_000),
        (Date::new(2024, 2, 29), 775_000),
        (Date::new(2024, 3, 1), 778_000),
    ];
    assert_pensions_2015(Date::new(1969, 2, 28), &to_28_february);
}

/// The birth of those whose refusals change: each age at which a rule changes is a
/// count of whole years, so that its last month ends early in February alone.
const LEAP_DAY: Date = Date::new(2000, 2, 29);

/// 18, 53, 55, 73 and 100 years after 29 February 2000: last days of a common
/// year's February, one day of the month short of the 29th.
const AT_18: Date = Date::new(2018, 2, 28);
const AT_53: Date = Date::new(2053, 2, 28);
const AT_55: Date = Date::new(2055, 2, 28);
const AT_73: Date = Date::new(2073, 2, 28);
const AT_100: Date = Date::new(2100, 2, 28);

/// Asserts the refusals of somebody born on 29 February 2000 on the day before a
/// commencement, to which document 01 by itself counts as many months, and on that
/// commencement, with the pension at every place of 1 to 4.
fn assert_change((kind, f1): Terms, commencement: Date, before: u32, on: u32) {
    assert!(commencement.day < LEAP_DAY.day);
    let day_before = Date { day: commencement.day - 1, ..commencement };
    for (mut case, place) in at_every_place(kind) {
        case.birth = LEAP_DAY;
        case.pensions[place].f1 = f1;
        for pension in &mut case.pensions {
            (pension.start, pension.end) = (Date::new(2000, 3, 1), Date::new(2000, 3, 1));
        }
        for (day, refusal) in [(day_before, before), (commencement, on)] {
            case.commencement = day;
            assert_refusal(&case, refusal);
        }
    }
}

#[test]
fn refusal_5_goes_on_the_last_day_before_18() {
    assert_change((1, 2500), AT_18, 5, 0);
    assert_change((2, 2628), AT_18, 5, 0);
    // Those that stood behind it.
    assert_change((3, 0), AT_18, 5, 8);
    assert_change((1, 0), AT_18, 5, 9);
    assert_change((2, 0), AT_18, 5, 9);
}

#[test]
fn refusal_5_comes_on_the_last_day_before_100() {
    assert_change((1, 2500), AT_100, 0, 5);
    assert_change((3, 0), AT_100, 0, 5);
    // Before others.
    assert_change((2, 2628), AT_100, 8, 5);
    assert_change((2, 0), AT_100, 8, 5);
    assert_change((1, 0), AT_100, 9, 5);
}

#[test]
fn refusal_8_goes_for_a_2015_pension() {
    assert_change((3, 0), AT_55, 8, 0);
}

#[test]
fn refusal_8_comes_for_a_pension_after_a_break() {
    assert_change((2, 2628), AT_55, 0, 8);
    assert_change((2, 0), AT_55, 0, 8);
}

#[test]
fn refusal_9_goes_on_the_last_day_before_53() {
    assert_change((1, 0), AT_53, 9, 0);
    assert_change((2, 0), AT_53, 9, 0);
}

#[test]
fn refusal_9_comes_on_the_last_day_before_73() {
    assert_change((1, 0), AT_73, 0, 9);
    assert_change((2, 0), AT_73, 8, 8);
}

/// With a stated factor no age of Table 1 matters, and no other kind is refused at
/// 55.
#[test]
fn refusals_that_neither_go_nor_come() {
    assert_change((1, 2500), AT_53, 0, 0);
    assert_change((1, 2500), AT_55, 0, 0);
    assert_change((1, 0), AT_55, 0, 0);
    assert_change((1, 2500), AT_73, 0, 0);
    assert_change((3, 0), AT_73, 0, 0);
    // 28 February 2060 is not the last day of its month.
    assert_change((3, 0), Date::new(2060, 2, 28), 0, 0);
}

/// A refusal that has gone leaves 10 to be given.
#[test]
fn refusal_10_behind_the_ones_that_go() {
    for (terms, commencement, refusal) in
        [((1, 2500), AT_18, 5), ((3, 0), AT_55, 8), ((1, 0), AT_53, 9), ((2, 0), AT_53, 9)]
    {
        let day_before = Date { day: 27, ..commencement };
        for (day, refusal) in [(day_before, refusal), (commencement, 10)] {
            let mut case = case_of(terms, LEAP_DAY, day);
            case.pensions[0].yearly = 0;
            assert_refusal(&case, refusal);
        }
    }
}

/// In a leap year 28 February is a day as any: the 100th birthday of somebody born
/// on 29 February 1904 is that of 2004.
#[test]
fn no_month_ends_early_in_a_leap_year() {
    let birth = Date::new(1904, 2, 29);
    for (commencement, refusal) in
        [(Date::new(2004, 2, 27), 0), (Date::new(2004, 2, 28), 0), (Date::new(2004, 2, 29), 5)]
    {
        assert_refusal(&case_of((1, 2500), birth, commencement), refusal);
    }
}

/// Dates keep their order by days, and 29 February 2100, though it counts as a 60th
/// birthday, is no date of a line.
#[test]
fn order_and_calendar_stay() {
    let mut case = plain_case(&[1]);
    case.pensions[0].start = Date::new(2018, 3, 1);
    case.pensions[0].end = Date::new(2018, 2, 28);
    assert_refusal(&case, 4);
    let mut case = case_of((3, 0), Date::new(2040, 2, 29), Date::new(2100, 2, 28));
    assert_refusal(&case, 0);
    case.commencement.day = 29;
    assert_refusal(&case, 3);
}

/// Good cases whose dates are all from the 27th on.
#[test]
fn cases_near_month_ends() {
    let mut random = Generator::for_test("cases_near_month_ends");
    for _ in 0..200_000 {
        assert_refusal(&near_month_end_case(&mut random), 0);
    }
}
