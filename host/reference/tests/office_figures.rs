//! The figures from the pension office, and those of the source documents. The
//! reference gives them on its own; the engine must give the same.

mod common;

use cases::fields::{plain_case, CaseFields};
use common::compare::assert_quote;
use reference::calendar::Date;
use reference::money::{LumpPence, YearlyPence};
use reference::Refusal;

/// The lump sums, remaining pensions and second instalments of a good case.
fn figures(case: &CaseFields) -> [[u64; 4]; 3] {
    let line = case.line();
    let quote = reference::quote(&line).expect("a good case");
    let lumps = quote.lump.map(|LumpPence(pence)| pence);
    assert_eq!(quote.total.0, lumps.iter().sum::<u64>());
    assert_quote(&line);
    [
        lumps,
        quote.remaining.map(|YearlyPence(pence)| pence),
        quote.second.map(|LumpPence(pence)| pence),
    ]
}

/// The figures of a case with one pension.
fn figures_of_one(case: &CaseFields) -> [u64; 3] {
    figures(case).map(|[first, rest @ ..]| {
        assert_eq!(rest, [0; 3]);
        first
    })
}

fn refusal(line: &[u8]) -> Option<Refusal> {
    assert_quote(line);
    reference::quote(line).err()
}

/// A case with one pension and 30 years of service.
fn one_pension(kind: u8, yearly: u32, [f1, f2, f3, increase]: [u16; 4]) -> CaseFields {
    let mut case = plain_case(&[kind]);
    let pension = &mut case.pensions[0];
    pension.yearly = yearly;
    (pension.f1, pension.f2, pension.f3, pension.increase) = (f1, f2, f3, increase);
    case
}

/// Ends the only pension's service after a count of months.
fn with_service(mut case: CaseFields, months: u16) -> CaseFields {
    let pension = &mut case.pensions[0];
    pension.start = Date::new(1988, 1, 10);
    pension.end = Date::new(1988 + months / 12, (months % 12) as u8 + 1, 10);
    case
}

#[test]
fn straight_from_service() {
    let case = one_pension(1, 3_000_000, [2590, 0, 0, 0]);
    assert_eq!(figures_of_one(&case), [15_905_834, 2_385_876, 0]);
}

#[test]
fn after_a_break() {
    let case = one_pension(2, 3_200_000, [2628, 2280, 872, 1000]);
    assert_eq!(figures_of_one(&case), [17_015_192, 2_552_279, 1_701_519]);
    let accepted = reference::acceptance::accept(&case.line()).expect("a good case");
    assert_eq!(accepted.pensions()[0].cap, LumpPence(21_015_452));
}

#[test]
fn two_and_a_quarter_cap() {
    let case = one_pension(1, 3_000_000, [2540, 0, 0, 0]);
    let capped = with_service(case.clone(), 300);
    assert_eq!(figures_of_one(&capped), [6_750_000, 2_734_252, 0]);
    for months in [299, 360] {
        let free = with_service(case.clone(), months);
        assert_eq!(figures_of_one(&free)[0], 15_841_995, "{months} months");
    }
    let mut lifted = capped;
    lifted.pensions[0].lift = 1;
    assert_eq!(figures_of_one(&lifted)[0], 15_841_995);
}

/// The case of two pensions, the 2015 pension first or last.
fn two_pensions(order: [u8; 2]) -> CaseFields {
    let mut case = plain_case(&order);
    case.commencement = Date::new(2025, 6, 15);
    for pension in &mut case.pensions {
        pension.yearly = if pension.kind == 3 { 900_000 } else { 2_000_000 };
    }
    case
}

#[test]
fn two_pensions_in_either_order() {
    let [lumps, remaining, second] = figures(&two_pensions([1, 3]));
    assert_eq!(lumps, [12_500_000, 1_382_142, 0, 0]);
    assert_eq!(remaining, [1_500_000, 582_322, 0, 0]);
    assert_eq!(second, [0; 4]);
    let [lumps, remaining, _] = figures(&two_pensions([3, 1]));
    assert_eq!(lumps, [1_382_142, 12_500_000, 0, 0]);
    assert_eq!(remaining, [582_322, 1_500_000, 0, 0]);
}

/// The old sheets filled the pensions in line order.
#[test]
fn filling_in_line_order_would_total_less() {
    let case = reference::acceptance::accept(&two_pensions([3, 1]).line()).expect("a good case");
    let mut limit = case.priced_limit();
    let mut total = 0;
    for pension in case.pensions() {
        let lump = pension.cap.0.min(limit / pension.price);
        limit -= lump * pension.price;
        total += lump;
    }
    assert_eq!(total, 13_720_131);
}

#[test]
fn a_penny_a_year() {
    let case = one_pension(1, 1, [2500, 0, 0, 0]);
    assert_eq!(figures_of_one(&case), [5, 1, 0]);
}

/// Document 003's Example 1: both pensions reduced at 55, none left out.
#[test]
fn early_payment_example() {
    let mut case = plain_case(&[3, 3]);
    case.birth = Date::new(1970, 11, 1);
    case.commencement = Date::new(2025, 11, 1);
    case.pensions[0].yearly = 900_000;
    case.pensions[1].yearly = 25_000;
    let accepted = reference::acceptance::accept(&case.line()).expect("a good case");
    let yearly = accepted.pensions().iter().map(|pension| pension.yearly.0);
    assert!(yearly.eq([697_500, 19_375]));
    assert_quote(&case.line());
}

/// Document 000's Examples 2 and 3: the tax-free maxima, cut to the pound.
#[test]
fn tax_free_maxima_of_the_older_guidance() {
    let case = one_pension(1, 3_000_000, [2150, 0, 0, 0]);
    assert_eq!(figures_of_one(&case)[0] / 100, 152_662);
    let case = one_pension(2, 3_200_000, [2173, 1832, 833, 500]);
    assert_eq!(figures_of_one(&case)[0] / 100, 163_267);
}

/// Document 001's Examples 2 and 3 likewise.
#[test]
fn tax_free_maxima_of_the_guidance_in_force() {
    let case = one_pension(1, 3_000_000, [2590, 0, 0, 0]);
    assert_eq!(figures_of_one(&case)[0] / 100, 159_058);
    let case = one_pension(2, 3_200_000, [2628, 2280, 872, 1000]);
    assert_eq!(figures_of_one(&case)[0] / 100, 170_151);
}

/// Both examples say that they are "also within the overall limit of £268,275":
/// on their own dates no allowance holds, and on its first day it leaves them as
/// they are, unless more than the rest of it was used.
#[test]
fn examples_within_the_overall_limit() {
    let mut second = one_pension(1, 3_000_000, [2590, 0, 0, 0]);
    second.birth = Date::new(1971, 12, 15);
    let mut third = one_pension(2, 3_200_000, [2628, 2280, 872, 1000]);
    third.birth = Date::new(1972, 6, 30);
    let examples =
        [(second, Date::new(2023, 12, 15), 159_058), (third, Date::new(2023, 10, 15), 170_151)];
    for (mut case, own_day, pounds) in examples {
        case.commencement = own_day;
        let own_figures = figures_of_one(&case);
        assert_eq!(own_figures[0] / 100, pounds);
        case.commencement = Date::new(2024, 4, 6);
        assert_eq!(figures_of_one(&case), own_figures);
        let unused = 26_827_500 - own_figures[0] as u32;
        case.used_allowance = Some(unused);
        assert_eq!(figures_of_one(&case), own_figures);
        case.used_allowance = Some(unused + 1);
        assert_eq!(figures_of_one(&case)[0], own_figures[0] - 1);
    }
}

/// A 1987 pension of £100,000 at factor 25 has a lump sum of 200,000,000 / 3.8
/// pence, and from 6 April 2024 what is left of £268,275.
#[test]
fn the_lump_sum_allowance() {
    let mut case = one_pension(1, 10_000_000, [2500, 0, 0, 0]);
    case.commencement = Date::new(2024, 4, 5);
    assert_eq!(figures_of_one(&case), [52_631_578, 7_894_737, 0]);
    case.used_allowance = Some(u32::MAX);
    assert_eq!(figures_of_one(&case), [52_631_578, 7_894_737, 0]);

    case.commencement = Date::new(2024, 4, 6);
    let figures = [
        (None, [26_827_500, 8_926_900, 0]),
        (Some(0), [26_827_500, 8_926_900, 0]),
        (Some(10_000_000), [16_827_500, 9_326_900, 0]),
        (Some(26_827_499), [1, 10_000_000, 0]),
        (Some(26_827_500), [0, 10_000_000, 0]),
        (Some(26_827_501), [0, 10_000_000, 0]),
        (Some(u32::MAX), [0, 10_000_000, 0]),
    ];
    for (used, expected) in figures {
        case.used_allowance = used;
        assert_eq!(figures_of_one(&case), expected, "used {used:?}");
    }
}

/// Kind 1 with kind 3, as in the figures of the two pensions: the lower price
/// spends what is left first, wherever it stands.
#[test]
fn two_pensions_under_the_allowance() {
    // 14,000,000 left is more than both have; 13,000,000 leave 500,000 for the
    // 2015 pension, which gives up 41,666; 12,000,000 leave it nothing.
    let figures = [
        (12_827_500, [12_500_000, 1_382_142], [1_500_000, 582_322]),
        (13_827_500, [12_500_000, 500_000], [1_500_000, 655_834]),
        (14_827_500, [12_000_000, 0], [1_520_000, 697_500]),
    ];
    for (used, lumps, remaining) in figures {
        for order in [[1, 3], [3, 1]] {
            let mut case = two_pensions(order);
            case.used_allowance = Some(used);
            let [granted, left, _] = figures_in_order(&case, order == [3, 1]);
            assert_eq!(granted, lumps, "used {used}");
            assert_eq!(left, remaining, "used {used}");
        }
    }
}

/// The figures of a case with two pensions, the first two places swapped or not.
fn figures_in_order(case: &CaseFields, swapped: bool) -> [[u64; 2]; 3] {
    figures(case).map(|[first, second, rest @ ..]| {
        assert_eq!(rest, [0; 2]);
        if swapped {
            [second, first]
        } else {
            [first, second]
        }
    })
}

/// Kind 2 of document 001 with £100,000 left: the second instalment is 10% of
/// the lump sum that is granted and comes on top of the allowance.
#[test]
fn after_a_break_under_the_allowance() {
    let mut case = one_pension(2, 3_200_000, [2628, 2280, 872, 1000]);
    case.used_allowance = Some(16_827_500);
    // 10,000,000 × 10,872,000 / (10 × (26,280,000 + 2,280,000)) is 380,672.2.
    assert_eq!(figures_of_one(&case), [10_000_000, 2_819_328, 1_000_000]);
}

#[test]
fn refusals_of_the_pension_office() {
    assert_eq!(refusal(b""), Some(Refusal::Length));
    assert_eq!(refusal(b"00"), Some(Refusal::Length));

    let mut case = plain_case(&[1]);
    case.birth = Date::new(1900, 2, 29);
    assert_eq!(refusal(&case.line()), Some(Refusal::Date));

    let mut case = plain_case(&[1]);
    case.pensions[0].f1 = 0;
    case.commencement = Date::new(2023, 5, 15);
    assert_eq!(refusal(&case.line()), Some(Refusal::AgeOutsideTable));

    let mut case = plain_case(&[1, 1]);
    case.pensions[0].yearly = 30_000_000;
    case.pensions[1].yearly = 20_000_000;
    assert_eq!(refusal(&case.line()), None);
    case.pensions[1].yearly = 20_000_001;
    assert_eq!(refusal(&case.line()), Some(Refusal::StatedPension));
}
