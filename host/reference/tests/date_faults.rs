//! The fault of a date: every day of 1899 to 2200, numbers around every bound, and
//! case lines with such dates. Engine against reference, and both against a
//! calendar that is counted in days and what the request says in words.

mod common;

use std::collections::HashSet;
use std::ops::RangeInclusive;

use cases::fields::{at_every_place, plain_case, CaseFields};
use cases::generator::Generator;
use cases::random::any_case;
use common::compare::{assert_date_fault, assert_file, assert_quote};
use common::day_count::{date_of, Numbers};
use reference::calendar::Date;

/// The days from 1 January 1899 to 31 December 2200, counted from 1 March of the
/// year 0.
const COUNTED_DAYS: RangeInclusive<u32> = 693_536..=803_838;

/// The days that there are from 1899 to 2200.
struct Days(HashSet<Numbers>);

impl Days {
    fn counted() -> Self {
        Days(COUNTED_DAYS.map(date_of).collect())
    }

    /// The fault as the request has it in words: its four tests, in its order.
    fn fault_by_rule(&self, year: u32, month: u32, day: u32) -> u32 {
        let kept = [
            matches!(day, 1..=31),
            matches!(month, 1..=12),
            matches!(year, 1900..=2199),
            self.0.contains(&(year, month, day)),
        ];
        (1..).zip(kept).find(|(_, is_kept)| !is_kept).map_or(0, |(number, _)| number)
    }

    /// Asserts the rule of any numbers and gives the fault.
    fn assert_rule(&self, year: u32, month: u32, day: u32) -> u32 {
        let fault = assert_date_fault(year, month, day);
        let expected = self.fault_by_rule(year, month, day);
        assert_eq!(fault, expected, "year {year}, month {month}, day {day}");
        fault
    }
}

/// Asserts the fault of a date, 0 for none.
fn assert_fault((year, month, day): Numbers, fault: u32) {
    let told = assert_date_fault(year, month, day);
    assert_eq!(told, fault, "year {year}, month {month}, day {day}");
}

/// The counted calendar by itself: days whose count is known, and behind each
/// day the next of its month or, from the 28th on, the first of the next month.
#[test]
fn the_calendar_counted_in_days() {
    let known = [
        (693_535, (1898, 12, 31)),
        (693_536, (1899, 1, 1)),
        (693_901, (1900, 1, 1)),
        (693_959, (1900, 2, 28)),
        (693_960, (1900, 3, 1)),
        (719_468, (1970, 1, 1)),
        (730_484, (2000, 2, 29)),
        (730_485, (2000, 3, 1)),
        (767_008, (2100, 2, 28)),
        (767_009, (2100, 3, 1)),
        (803_838, (2200, 12, 31)),
        (803_839, (2201, 1, 1)),
    ];
    for (count, date) in known {
        assert_eq!(date_of(count), date, "day {count}");
    }
    let days: Vec<Numbers> = COUNTED_DAYS.map(date_of).collect();
    for pair in days.windows(2) {
        let ((year, month, day), after) = (pair[0], pair[1]);
        let first_of_next = if month < 12 { (year, month + 1, 1) } else { (year + 1, 1, 1) };
        assert!(after == (year, month, day + 1) || day >= 28 && after == first_of_next, "{pair:?}");
    }
}

/// A day has no fault, but for those of 1899 and 2200, which have a wrong year.
#[test]
fn every_day_of_1899_to_2200() {
    let mut passed = 0;
    for date in COUNTED_DAYS.map(date_of) {
        let is_outside = matches!(date.0, 1899 | 2200);
        assert_fault(date, if is_outside { 3 } else { 0 });
        passed += usize::from(!is_outside);
    }
    // 75 of the 300 years are divisible by 4; 1900 and 2100 of these are no leap years.
    assert_eq!(passed, 300 * 365 + 73);
}

/// Days and months from 0 to beyond the greatest, in every year. How many have
/// each fault follows from how many numbers are tried; 7 days of a year's twelve
/// times 31 are past the end of their month, and 6 of a leap year's.
#[test]
fn every_number_near_a_day_of_1899_to_2200() {
    let days = Days::counted();
    let mut faults = [0; 5];
    for year in 1899..=2200 {
        for month in 0..=13 {
            for day in 0..=33 {
                faults[days.assert_rule(year, month, day) as usize] += 1;
            }
        }
    }
    let (wrong_days, wrong_months) = (302 * 14 * 3, 302 * 2 * 31);
    assert_eq!(faults, [109_573, wrong_days, wrong_months, 2 * 12 * 31, 300 * 7 - 73]);
}

/// Numbers at and next to every bound of a day, a month and a year, larger ones
/// that are good or at a bound in 8, 12 or 16 bits, and those where signed numbers
/// turn.
const BOUNDS: [u32; 68] = [
    0, 1, 2, 3, 4, 9, 11, 12, 13, 14, 27, 28, 29, 30, 31, 32, 33, 99, 100, 127, 128, 254, //
    0xFF, 0x100, 0x101, 0x102, 0x10C, 0x10D, 0x11D, 0x11F, 0x120, //
    1582, 1752, 1898, 1899, 1900, 1901, 1904, 1996, 2000, 2023, 2024, 2047, 2048, 2099, //
    2100, 2101, 2198, 2199, 2200, 2201, 2400, //
    0x17D0, 0x7FFF, 0x8000, 0xFFFF, 0x1_0000, 0x1_0001, 0x1_000C, 0x1_001F, 0x1_07D0, //
    0x100_0000, 0x100_0001, 0x7FFFFFFF, 0x80000000, 0x800007D0, 0xFFFFFFFE, 0xFFFFFFFF,
];

#[test]
fn numbers_around_every_bound() {
    let days = Days::counted();
    for year in BOUNDS {
        for month in BOUNDS {
            for day in BOUNDS {
                days.assert_rule(year, month, day);
            }
        }
    }
}

/// Each number from 0 to beyond 16 bits, beside numbers that are good.
#[test]
fn every_number_of_16_bits() {
    for number in 0..=70_000 {
        assert_fault((2024, 1, number), if matches!(number, 1..=31) { 0 } else { 1 });
        assert_fault((2024, number, 28), if matches!(number, 1..=12) { 0 } else { 2 });
        assert_fault((number, 1, 31), if matches!(number, 1900..=2199) { 0 } else { 3 });
    }
}

/// Dates without a fault.
const GOOD: [Numbers; 6] =
    [(1900, 1, 1), (1900, 2, 28), (2000, 2, 29), (2023, 4, 30), (2024, 12, 31), (2199, 12, 31)];

/// Larger numbers that are the same in so many bits, in 8 if that is more, or in
/// 16, with anything above them.
fn same_in_fewer_bits(number: u32, bits: u32) -> impl Iterator<Item = u32> {
    [bits, bits.max(8), 16].into_iter().flat_map(move |kept| {
        let above = (1..=u32::from(u16::MAX)).chain([u32::MAX]);
        above.map(move |higher| number | higher << kept)
    })
}

/// Day 257 is no 1st, and so with every number that has more bits than good days
/// (5), months (4) or years (12) have.
#[test]
fn no_number_is_cut_to_fewer_bits() {
    for (year, month, day) in GOOD {
        assert_fault((year, month, day), 0);
        for wide_day in same_in_fewer_bits(day, 5) {
            assert_fault((year, month, wide_day), 1);
        }
        for wide_month in same_in_fewer_bits(month, 4) {
            assert_fault((year, wide_month, day), 2);
        }
        for wide_year in same_in_fewer_bits(year, 12) {
            assert_fault((wide_year, month, day), 3);
        }
    }
}

/// Dates and the fault that is told, those of the brackets being there as well.
const FIRST_FAULTS: [(Numbers, u32); 31] = [
    ((2024, 1, 31), 0),
    ((2024, 1, 0), 1),
    ((2024, 1, 32), 1),
    ((2024, 1, 257), 1),
    ((2024, 0, 1), 2),
    ((2024, 13, 31), 2),
    ((2024, 257, 31), 2),
    ((0, 1, 1), 3),
    ((1899, 12, 31), 3),
    ((2200, 1, 1), 3),
    ((65_536 + 2000, 1, 1), 3),
    // Past the month's end.
    ((2024, 4, 31), 4),
    ((2024, 2, 30), 4),
    ((2023, 2, 29), 4),
    ((1900, 2, 29), 4),
    ((2100, 2, 29), 4),
    // The day (and the month).
    ((2024, 0, 0), 1),
    ((2024, 13, 32), 1),
    // The day (and the year).
    ((1899, 1, 0), 1),
    ((2200, 2, 32), 1),
    // The month (and the year).
    ((1899, 0, 1), 2),
    ((2200, 13, 31), 2),
    ((u32::MAX, u32::MAX, 31), 2),
    // The year (and past the month's end, whether or not it is a leap year).
    ((1899, 2, 29), 3),
    ((1896, 2, 30), 3),
    ((2200, 2, 29), 3),
    ((2204, 4, 31), 3),
    ((0, 2, 30), 3),
    // All three.
    ((0, 0, 0), 1),
    ((2200, 13, 32), 1),
    ((u32::MAX, u32::MAX, u32::MAX), 1),
];

#[test]
fn the_first_of_several_faults() {
    for (date, fault) in FIRST_FAULTS {
        assert_fault(date, fault);
    }
}

/// Wrong days, months and years.
const WRONG_DAYS: [u32; 5] = [0, 32, 256 + 31, 1 << 31, u32::MAX];
const WRONG_MONTHS: [u32; 5] = [0, 13, 256 + 12, 1 << 31, u32::MAX];
const WRONG_YEARS: [u32; 6] = [0, 1899, 2200, (1 << 16) + 2000, 1 << 31, u32::MAX];

#[test]
fn every_set_of_wrong_numbers() {
    for good in GOOD {
        for wrong_year in WRONG_YEARS {
            for wrong_month in WRONG_MONTHS {
                for wrong_day in WRONG_DAYS {
                    assert_sets(good, (wrong_year, wrong_month, wrong_day));
                }
            }
        }
    }
}

/// Asserts the fault of a good date with each set of its numbers changed for
/// wrong ones.
fn assert_sets(good: Numbers, wrong: Numbers) {
    assert_fault((good.0, good.1, wrong.2), 1);
    assert_fault((good.0, wrong.1, wrong.2), 1);
    assert_fault((wrong.0, good.1, wrong.2), 1);
    assert_fault((wrong.0, wrong.1, wrong.2), 1);
    assert_fault((good.0, wrong.1, good.2), 2);
    assert_fault((wrong.0, wrong.1, good.2), 2);
    assert_fault((wrong.0, good.1, good.2), 3);
}

/// Numbers of any size, few of which are good.
#[test]
fn random_numbers() {
    let days = Days::counted();
    let mut random = Generator::for_test("random_numbers");
    for _ in 0..1_000_000 {
        let [year, month, day] = [(); 3].map(|()| random.next() as u32 >> random.below(32));
        days.assert_rule(year, month, day);
    }
}

/// A number, mostly of a range that holds the good ones, else one that is the
/// same in fewer bits, or any.
fn mostly_within(random: &mut Generator, range: RangeInclusive<u32>) -> u32 {
    let near = random.within(range);
    let any = random.next() as u32;
    random.pick(&[near, near, near, near, near, near | any << 8, near | any << 16, any])
}

/// Dates with every fault and with none.
#[test]
fn random_dates() {
    let days = Days::counted();
    let mut random = Generator::for_test("random_dates");
    let mut faults = [0; 5];
    for _ in 0..1_000_000 {
        let year = mostly_within(&mut random, 1880..=2220);
        let month = mostly_within(&mut random, 0..=13);
        let day = mostly_within(&mut random, 0..=33);
        faults[days.assert_rule(year, month, day) as usize] += 1;
    }
    assert!(faults.iter().all(|&dates| dates > 1_000), "{faults:?}");
}

/// Asserts that a case line is refused with 3 exactly where a date of it has a
/// fault, whichever it is. Nothing else may be wrong that has a lower refusal.
fn assert_line(case: &CaseFields) {
    let has_fault =
        |date: Date| assert_date_fault(date.year.into(), date.month.into(), date.day.into()) != 0;
    let is_faulty = case.dates().any(has_fault);
    let quote = assert_quote(&case.line());
    assert_eq!(quote.refusal == 3, is_faulty, "{case:?}");
}

/// Asserts the same of a date in each of the four dates of a case.
fn assert_in_every_field(case: &CaseFields, place: usize, date: Date) {
    for field in 0..4 {
        let mut case = case.clone();
        case.set_date(place, field, date);
        assert_line(&case);
    }
}

#[test]
fn lines_with_every_number_near_a_day() {
    let case = plain_case(&[1]);
    for year in 1899..=2200 {
        for month in 0..=13 {
            for day in 0..=33 {
                assert_in_every_field(&case, 0, Date::new(year, month, day));
            }
        }
    }
}

/// All years, months and days that the bytes of a line can state, beside good
/// numbers.
#[test]
fn lines_with_every_number_of_their_bytes() {
    let case = plain_case(&[1]);
    for year in 0..=u16::MAX {
        assert_in_every_field(&case, 0, Date::new(year, 2, 28));
    }
    for byte in 0..=u8::MAX {
        assert_in_every_field(&case, 0, Date::new(2024, byte, 29));
        assert_in_every_field(&case, 0, Date::new(2024, 1, byte));
        assert_in_every_field(&case, 0, Date::new(2200, byte, byte));
    }
}

/// The dates of [`FIRST_FAULTS`] that fit a line, at every place of 1 to 4
/// pensions: the refusal is 3 and no fault's number.
#[test]
fn lines_with_every_fault_at_every_place() {
    let mut tried = [0; 5];
    for ((year, month, day), fault) in FIRST_FAULTS {
        let (Ok(year), Ok(month), Ok(day)) = (year.try_into(), month.try_into(), day.try_into())
        else {
            continue;
        };
        tried[fault as usize] += 1;
        for (case, place) in at_every_place(1) {
            assert_in_every_field(&case, place, Date::new(year, month, day));
        }
    }
    assert!(tried.iter().all(|&dates| dates > 0), "{tried:?}");
}

/// Cases of any kinds in which none, one or several dates are changed, so that
/// dates with different faults stand in one line.
#[test]
fn lines_with_several_faults() {
    let mut random = Generator::for_test("lines_with_several_faults");
    for _ in 0..100_000 {
        let mut case = any_case(&mut random);
        for _ in 0..random.below(4) {
            let (place, field) = (random.below(case.pensions.len()), random.below(4));
            let year = random.within(1890..=2210) as u16;
            let (month, day) = (random.within(0..=14) as u8, random.within(0..=33) as u8);
            case.set_date(place, field, Date::new(year, month, day));
        }
        assert_line(&case);
    }
}

/// A line is not filed, whichever fault a date of it has.
#[test]
fn filings_with_every_fault() {
    let register = [b'-'; 250];
    for date in [
        Date::new(2024, 6, 0),
        Date::new(2024, 13, 15),
        Date::new(2200, 6, 15),
        Date::new(2024, 6, 31),
    ] {
        for field in 0..4 {
            let mut case = plain_case(&[1]);
            case.set_date(0, field, date);
            let (filed, after) = assert_file(&register, 0, 1, &case.line());
            assert_eq!((filed.refusal, filed.used), (3, 0), "{case:?}");
            assert_eq!(after, register, "{case:?}");
        }
    }
}
