//! Quotes at the ends of every list and amount, and the order of refusals,
//! engine against reference.

mod common;

use cases::allowances::USED;
use cases::fields::{
    at_every_place, break_rule, breakable_case, plain_case, plain_pension, CaseFields,
};
use cases::generator::Generator;
use common::compare::{assert_quote, assert_refusal};
use reference::split::Pension;

/// Values next to the ends of a list of 500 to 4,000, and whether they are in.
const HUNDREDTHS: [(u16, bool); 10] = [
    (1, false),
    (499, false),
    (500, true),
    (501, true),
    (2500, true),
    (3999, true),
    (4000, true),
    (4001, false),
    (32_768, false),
    (65_535, false),
];

/// Changes one field of a pension at every place and asserts refusal 7 for the
/// values that are not in its list.
fn assert_list<T: Copy>(kind: u8, values: &[(T, bool)], set: impl Fn(&mut CaseFields, usize, T)) {
    for (case, place) in at_every_place(kind) {
        for &(value, listed) in values {
            let mut case = case.clone();
            set(&mut case, place, value);
            assert_refusal(&case, if listed { 0 } else { 7 });
        }
    }
}

#[test]
fn factors_at_the_ends_of_their_lists() {
    for kind in [1, 2] {
        assert_list(kind, &HUNDREDTHS, |case, place, f1| case.pensions[place].f1 = f1);
        assert_list(kind, &[(0, true)], |case, place, f1| case.pensions[place].f1 = f1);
    }
    assert_list(2, &HUNDREDTHS, |case, place, f2| case.pensions[place].f2 = f2);
    assert_list(2, &[(0, false)], |case, place, f2| case.pensions[place].f2 = f2);

    let timing = [
        (0, false),
        (1, true),
        (2, true),
        (999, true),
        (1000, true),
        (1001, false),
        (65_535, false),
    ];
    assert_list(2, &timing, |case, place, f3| case.pensions[place].f3 = f3);

    let increases = [
        (0, false),
        (1, true),
        (2, true),
        (9999, true),
        (10_000, true),
        (10_001, false),
        (65_535, false),
    ];
    assert_list(2, &increases, |case, place, increase| case.pensions[place].increase = increase);
}

#[test]
fn fields_that_must_be_zero() {
    let zero_only = [(0, true), (1, false), (500, false), (2500, false), (65_535, false)];
    for kind in [1, 3] {
        assert_list(kind, &zero_only, |case, place, f2| case.pensions[place].f2 = f2);
        assert_list(kind, &zero_only, |case, place, f3| case.pensions[place].f3 = f3);
        assert_list(kind, &zero_only, |case, place, increase| {
            case.pensions[place].increase = increase
        });
    }
    assert_list(3, &zero_only, |case, place, f1| case.pensions[place].f1 = f1);
}

#[test]
fn lift_flags() {
    for kind in [1, 2, 3] {
        let flags = [(0, true), (1, kind != 3), (2, false), (128, false), (255, false)];
        assert_list(kind, &flags, |case, place, lift| case.pensions[place].lift = lift);
    }
}

#[test]
fn kinds() {
    for (mut case, place) in at_every_place(1) {
        for kind in 0..=255 {
            case.pensions[place] = plain_pension(kind);
            let refusal = match kind {
                1 | 3 => 0,
                2 => 8,
                _ => 6,
            };
            assert_refusal(&case, refusal);
        }
    }
}

#[test]
fn counts_and_lengths() {
    for count in 0..=6 {
        let mut case = plain_case(&vec![1; count]);
        for used in [None, Some(0), Some(u32::MAX)] {
            case.used_allowance = used;
            for stated in 0..=255 {
                case.count = stated;
                let agrees = usize::from(stated) == count && (1..=4).contains(&count);
                assert_refusal(&case, if agrees { 0 } else { 2 });
            }
        }
    }
}

#[test]
fn stated_amounts() {
    for (case, place) in at_every_place(1) {
        let others = 7 * (case.pensions.len() - 1) as u32;
        let amounts = [
            (0, 10),
            (1, 0),
            (2, 0),
            (49_999_999 - others, 0),
            (50_000_000 - others, 0),
            (50_000_001 - others, 10),
            (u32::MAX - others, 10),
            (u32::MAX, 10),
        ];
        for (amount, refusal) in amounts {
            let mut case = case.clone();
            case.pensions.iter_mut().for_each(|pension| pension.yearly = 7);
            case.pensions[place].yearly = amount;
            assert_refusal(&case, refusal);
        }
    }
}

/// Amounts whose sum in 32 bits would be small again.
#[test]
fn stated_amounts_that_would_wrap() {
    for count in 2..=4 {
        let mut case = plain_case(&vec![1; count]);
        case.pensions.iter_mut().for_each(|pension| pension.yearly = 0x8000_0000);
        assert_refusal(&case, 10);
        case.pensions[0].yearly = u32::MAX;
        case.pensions[1].yearly = 5;
        assert_refusal(&case, 10);
    }
}

/// A 2015 pension of a penny or two is reduced to nothing; the case is good.
#[test]
fn pensions_reduced_to_nothing() {
    for yearly in 1..=4 {
        for (mut case, place) in at_every_place(3) {
            case.pensions[place].yearly = yearly;
            assert_refusal(&case, 0);
            case.pensions.iter_mut().for_each(|pension| pension.yearly = 1);
            case.pensions[place].yearly = yearly;
            assert_refusal(&case, 0);
        }
        let mut case = plain_case(&[3]);
        case.pensions[0].yearly = yearly;
        assert_refusal(&case, 0);
    }
}

/// Two kind 2 pensions whose effective factors differ, but too little for the
/// price in whole billionths: line order decides, whichever is first.
#[test]
fn prices_that_are_equal_after_rounding() {
    let terms = [(998, 399), (1003, 401)];
    for order in [[0, 1], [1, 0]] {
        let mut case = plain_case(&[2, 2]);
        for (pension, place) in case.pensions.iter_mut().zip(order) {
            (pension.f1, pension.increase) = (2500, 1);
            (pension.f2, pension.f3) = terms[place];
        }
        let accepted = reference::acceptance::accept(&case.line()).expect("a good case");
        let [first, second] = accepted.pensions() else { panic!("two pensions") };
        assert_eq!(first.price, second.price);
        let exact = |pension: &Pension| (pension.factor.top, pension.factor.bottom);
        assert_ne!(exact(first).0 * exact(second).1, exact(second).0 * exact(first).1);
        let quote = assert_quote(&case.line());
        assert_eq!(quote.lump[0], first.cap.0);
        assert!(quote.lump[1] < second.cap.0);
    }
}

#[test]
fn each_refusal_alone() {
    for refusal in 1..=10 {
        for count in 1..=4 {
            for place in 0..count {
                let mut case = breakable_case(count);
                assert_refusal(&case, 0);
                break_rule(&mut case, refusal, place);
                assert_refusal(&case, refusal);
            }
        }
    }
}

/// Pairs of refusals that one pension cannot have both of: an unknown kind has
/// no lists (7), no ages (8) and no factor to look up (9). Two pensions of a
/// case can have each of the 45 pairs.
const NEVER_IN_ONE_PENSION: [(u32, u32); 3] = [(6, 7), (6, 8), (6, 9)];

#[test]
fn every_pair_of_refusals() {
    for lower in 1..=10 {
        for higher in lower + 1..=10 {
            (1..=4).for_each(|count| assert_pair(lower, higher, count));
        }
    }
}

/// Breaks the rules of two refusals at every two places, or the same place.
fn assert_pair(lower: u32, higher: u32, count: usize) {
    let never_in_one = NEVER_IN_ONE_PENSION.contains(&(lower, higher));
    let places = (0..count).flat_map(|one| (0..count).map(move |other| (one, other)));
    for (one, other) in places.filter(|(one, other)| one != other || !never_in_one) {
        let mut case = breakable_case(count);
        break_rule(&mut case, lower, one);
        break_rule(&mut case, higher, other);
        assert_refusal(&case, lower);
    }
}

#[test]
fn any_number_of_refusals() {
    let mut random = Generator::for_test("any_number_of_refusals");
    for _ in 0..200_000 {
        let count = 1 + random.below(4);
        let mut case = breakable_case(count);
        case.used_allowance = random.pick(&USED);
        for refusal in 1..=10 {
            if random.once_in(4) {
                break_rule(&mut case, refusal, random.below(count));
            }
        }
        assert_quote(&case.line());
    }
}
