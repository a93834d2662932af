//! The lump sum allowance: its first day, used amounts, and the order in which
//! it is spent. Engine against reference, and both against what the request
//! says in words.

mod common;

use std::cmp::Reverse;
use std::iter;

use cases::allowances::{allowance_case, any_allowance_case, without_allowance, DAYS, USED};
use cases::fields::{day_after, plain_case, plain_pension, CaseFields, PensionFields};
use cases::generator::Generator;
use cases::random::{good_case_on, kind_lists};
use common::compare::assert_quote;
use engine::Quote;
use reference::acceptance::accept;
use reference::calendar::Date;
use reference::money::LumpPence;
use reference::split::{self, Case};

/// £268,275 in pence.
const WHOLE: u64 = 26_827_500;

const FIRST_DAY: Date = Date::new(2024, 4, 6);
const DAY_BEFORE: Date = Date::new(2024, 4, 5);

/// A 1987 pension of 10,000,000 at factor 25 and with 30 years of service, whose
/// lump sum is 200,000,000 / 3.8 where no allowance holds.
fn large_case(commencement: Date, used: Option<u32>) -> CaseFields {
    let mut case = plain_case(&[1]);
    case.pensions[0].yearly = 10_000_000;
    case.commencement = commencement;
    case.used_allowance = used;
    case
}

/// The lump sum of a [`large_case`] before the allowance.
const LARGE: u64 = 52_631_578;

/// What is left of the allowance for a case that has one.
fn left(used: Option<u32>) -> u64 {
    WHOLE.saturating_sub(u64::from(used.unwrap_or(0)))
}

/// Whether a day is 6 April 2024 or later.
fn has_allowance(day: Date) -> bool {
    (day.year, day.month, day.day) >= (2024, 4, 6)
}

/// Asserts the total of a large case.
fn assert_large(day: Date, used: Option<u32>) {
    let quote = assert_quote(&large_case(day, used).line());
    let total = if has_allowance(day) { left(used) } else { LARGE };
    assert_eq!((quote.refusal, quote.total), (0, total), "{day:?}, used {used:?}");
    assert_eq!(quote.lump, [total, 0, 0, 0]);
    assert_eq!(quote.remaining, [10_000_000 - total / 25, 0, 0, 0]);
}

#[test]
fn days_and_used_amounts_at_their_ends() {
    for day in DAYS {
        for used in USED {
            assert_large(day, used);
        }
    }
}

#[test]
fn every_day_of_three_years() {
    let mut day = Date::new(2023, 1, 1);
    while day < Date::new(2026, 1, 1) {
        for used in [None, Some(10_000_000), Some(u32::MAX)] {
            assert_large(day, used);
        }
        day = day_after(day);
    }
}

/// Years far from the first day, on days of the year before and after it.
#[test]
fn every_year_of_the_calendar() {
    for year in 1920..=2199 {
        for (month, day) in [(1, 1), (4, 5), (4, 6), (12, 31)] {
            let mut case = large_case(Date::new(year, month, day), Some(20_000_000));
            case.birth.year = year - 20;
            case.pensions[0].start = Date::new(year - 19, 1, 1);
            case.pensions[0].end = Date::new(year - 18, 1, 1);
            let total = if has_allowance(case.commencement) { 6_827_500 } else { LARGE };
            assert_eq!(assert_quote(&case.line()).total, total, "{:?}", case.commencement);
        }
    }
}

/// Used amounts on both sides of the least that makes a difference: what the
/// whole allowance has beyond the total.
#[test]
fn used_amounts_next_to_those_that_matter() {
    for yearly in [1, 2, 1_000, 2_000_000, 5_000_000, 5_097_225] {
        let mut case = large_case(DAY_BEFORE, None);
        case.pensions[0].yearly = yearly;
        let total = assert_quote(&case.line()).total;
        case.commencement = FIRST_DAY;
        let spare = WHOLE - total;
        for used in spare.saturating_sub(2)..=spare + 2 {
            case.used_allowance = Some(used as u32);
            let expected = total.min(WHOLE - used);
            assert_eq!(assert_quote(&case.line()).total, expected, "{yearly} a year, used {used}");
        }
    }
}

/// The least and the greatest pensions that the whole allowance, and a few pence
/// of it, cut or leave as they are.
#[test]
fn totals_next_to_what_is_left() {
    // The lump sum is 20 / 3.8 times the pension: 26,827,500 for 5,097,225.
    for (yearly, total) in
        [(5_097_224, 26_827_494), (5_097_225, WHOLE), (5_097_226, WHOLE), (50_000_000, WHOLE)]
    {
        let mut case = large_case(FIRST_DAY, None);
        case.pensions[0].yearly = yearly;
        assert_eq!(assert_quote(&case.line()).total, total, "{yearly} a year");
    }
    for rest in 0..=30 {
        let mut case = large_case(FIRST_DAY, Some((WHOLE - rest) as u32));
        for yearly in 1..=6 {
            case.pensions[0].yearly = yearly;
            let total = rest.min(u64::from(yearly) * 200 / 38);
            assert_eq!(assert_quote(&case.line()).total, total, "{yearly} a year, {rest} left");
        }
    }
}

/// With nothing left, or less, the case is good and every pension stays whole.
#[test]
fn nothing_left_is_no_refusal() {
    for kinds in kind_lists() {
        let mut case = plain_case(&kinds);
        case.commencement = if kinds.contains(&2) { FIRST_DAY } else { Date::new(2027, 6, 15) };
        for used in [26_827_500, 26_827_501, 0x7FFF_FFFF, 0x8000_0000, u32::MAX - 1, u32::MAX] {
            case.used_allowance = Some(used);
            let quote = assert_quote(&case.line());
            let accepted = accept(&case.line()).expect("a good case");
            let mut whole = Quote { member: case.member, ..Quote::default() };
            for (remaining, pension) in whole.remaining.iter_mut().zip(accepted.pensions()) {
                *remaining = pension.yearly.0;
            }
            assert_eq!(quote, whole);
        }
    }
}

/// The lump sums of kind 2 spend the allowance to the penny, whatever their
/// second instalments come to.
#[test]
fn second_instalments_do_not_count() {
    let mut case = plain_case(&[2, 2]);
    case.commencement = FIRST_DAY;
    case.pensions.iter_mut().for_each(|pension| pension.yearly = 4_000_000);
    case.pensions[0].increase = 10_000;
    for used in [None, Some(0), Some(1), Some(7_000_000), Some(26_827_499)] {
        case.used_allowance = used;
        let quote = assert_quote(&case.line());
        assert_eq!(quote.total, left(used));
        assert_eq!(quote.lump.iter().sum::<u64>(), quote.total);
        assert_eq!(quote.second[0], quote.lump[0], "an increase of 100%");
        assert_eq!(quote.second[1], quote.lump[1] / 10);
    }
}

/// The lump sums that are left of others when only some pence may be granted,
/// pension after pension in an order.
fn cut(lumps: [u64; 4], order: &[usize], mut rest: u64) -> [u64; 4] {
    let mut granted = [0; 4];
    for &place in order {
        granted[place] = lumps[place].min(rest);
        rest -= granted[place];
    }
    granted
}

/// The places of pensions, the greatest factor first, equal ones in line order.
fn by_factor(factors: &[u16]) -> Vec<usize> {
    let mut order: Vec<usize> = (0..factors.len()).collect();
    order.sort_by_key(|&place| (Reverse(factors[place]), place));
    order
}

/// Every list of 1 to 4 of some factors, with and without ties.
fn factor_lists() -> Vec<Vec<u16>> {
    let mut all: Vec<Vec<u16>> = Vec::new();
    let mut lists = vec![vec![]];
    for _ in 0..4 {
        lists = lists
            .iter()
            .flat_map(|list: &Vec<u16>| {
                [1200, 1600, 2000, 2500].map(|factor| [&list[..], &[factor]].concat())
            })
            .collect();
        all.extend(lists.iter().cloned());
    }
    all
}

/// A pension with an effective factor: of kind 1, of kind 2 with the terms that
/// make the same of it, or, for 12, of kind 3.
fn pension_with_factor(factor: u16, other_kind: bool, young: bool) -> PensionFields {
    let kind = match (other_kind, young) {
        (true, true) => 2,
        (true, false) if factor == 1200 => 3,
        _ => 1,
    };
    let mut pension = plain_pension(kind);
    if kind != 3 {
        pension.f1 = factor;
    }
    if kind == 2 {
        (pension.f2, pension.f3) = (factor, 1000);
    }
    pension
}

/// The allowance ends before, at and behind each pension in the order of prices,
/// also where the prices of kinds are equal.
#[test]
fn cut_at_every_pension_in_the_order_of_prices() {
    for factors in factor_lists() {
        for (birth_year, young) in [(1960, false), (1971, true)] {
            let mut case = plain_case(&vec![1; factors.len()]);
            case.birth = Date::new(birth_year, 1, 20);
            case.commencement = DAY_BEFORE;
            for (place, pension) in case.pensions.iter_mut().enumerate() {
                *pension = pension_with_factor(factors[place], place % 2 == 1, young);
            }
            assert_cuts(&case, &by_factor(&factors));
        }
    }
}

/// Asserts the lump sums of a case that commences on the day before the first,
/// on the first day and with every sum of its first pensions left, a penny less
/// and a penny more.
fn assert_cuts(case: &CaseFields, order: &[usize]) {
    let before = assert_quote(&case.line());
    assert_eq!(before.refusal, 0);
    assert!(before.total < WHOLE);
    let mut on_first_day = case.clone();
    on_first_day.commencement = FIRST_DAY;
    let mut sum = 0;
    for place in iter::once(None).chain(order.iter().map(Some)) {
        sum += place.map_or(0, |&place| before.lump[place]);
        for rest in sum.saturating_sub(1)..=sum + 1 {
            on_first_day.used_allowance = Some((WHOLE - rest) as u32);
            let quote = assert_quote(&on_first_day.line());
            assert_eq!(quote.lump, cut(before.lump, order, rest), "{rest} left: {case:?}");
            assert_eq!(quote.total, rest.min(before.total));
        }
    }
}

/// Two pensions whose prices are equal only after rounding are cut in line
/// order, whichever is first.
#[test]
fn cut_at_prices_that_are_equal_after_rounding() {
    let terms = [(998, 399), (1003, 401)];
    for swapped in [false, true] {
        let mut case = plain_case(&[2, 2]);
        case.commencement = DAY_BEFORE;
        for (place, pension) in case.pensions.iter_mut().enumerate() {
            (pension.f1, pension.increase) = (2500, 1);
            (pension.f2, pension.f3) = terms[usize::from((place == 1) != swapped)];
        }
        assert_cuts(&case, &[0, 1]);
    }
}

/// The pensions of a case, lowest price first, equal prices in line order.
fn by_price(case: &Case) -> Vec<usize> {
    let mut order: Vec<usize> = (0..case.pensions().len()).collect();
    order.sort_by_key(|&place| (case.pensions()[place].price, place));
    order
}

/// The total is the lower of what is left and the total without an allowance,
/// and the lump sums are those without one, cut in the order of prices.
#[test]
fn lumps_are_those_without_the_allowance_cut_at_one_pension() {
    let mut random =
        Generator::for_test("lumps_are_those_without_the_allowance_cut_at_one_pension");
    let mut cut_at = [0; 4];
    for _ in 0..200_000 {
        let fields = any_allowance_case(&mut random);
        let line = fields.line();
        let quote = assert_quote(&line);
        let case = accept(&line).expect("a good case");
        let unlimited = split::grant(&without_allowance(&case)).map(|LumpPence(pence)| pence);
        let total: u64 = unlimited.iter().sum();
        let rest =
            if has_allowance(fields.commencement) { left(fields.used_allowance) } else { u64::MAX };
        let order = by_price(&case);
        assert_eq!(quote.total, total.min(rest), "{}", line.escape_ascii());
        assert_eq!(quote.lump, cut(unlimited, &order, rest), "{}", line.escape_ascii());
        let first_cut = order.iter().position(|&place| quote.lump[place] < unlimited[place]);
        if let Some(place) = first_cut {
            cut_at[place] += 1;
        }
    }
    assert!(cut_at.iter().all(|&cases| cases > 500), "{cut_at:?}");
}

/// The same law of the engine's quotes alone: those of the day before and of the
/// first day, for births on days that make both the same age.
#[test]
fn the_first_day_against_the_day_before() {
    let mut random = Generator::for_test("the_first_day_against_the_day_before");
    let mut cut_cases = 0;
    for kinds in kind_lists() {
        for _ in 0..500 {
            let amounts = allowance_case(&mut random, &kinds);
            let mut case = good_case_on(&mut random, &kinds, DAY_BEFORE);
            if case.birth.day == 5 || case.birth.day == 6 {
                continue;
            }
            for (pension, other) in case.pensions.iter_mut().zip(amounts.pensions) {
                pension.yearly = other.yearly;
            }
            let used = amounts.used_allowance;
            case.used_allowance = used;
            let before = assert_quote(&case.line());
            case.commencement = FIRST_DAY;
            let quote = assert_quote(&case.line());
            assert_eq!((before.refusal, quote.refusal), (0, 0));
            assert_eq!(quote.total, before.total.min(left(used)));
            let order = by_price(&accept(&case.line()).expect("a good case"));
            assert_eq!(quote.lump, cut(before.lump, &order, left(used)));
            cut_cases += usize::from(quote.total < before.total);
        }
    }
    assert!(cut_cases > 3_000, "{cut_cases}");
}
