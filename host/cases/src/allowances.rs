//! Random good cases at the lump sum allowance: next to its first day, with
//! amounts that reach it, and with used amounts next to those that matter.

use reference::acceptance;
use reference::allowance::WHOLE;
use reference::calendar::Date;
use reference::split::{self, Case};

use crate::fields::CaseFields;
use crate::generator::Generator;
use crate::random::{any_kinds, good_case, good_case_on};

/// The first day that has an allowance, the days next to it, and days of which
/// the year, the month or the day of the month alone would tell otherwise.
pub const DAYS: [Date; 18] = [
    Date::new(2024, 4, 5),
    Date::new(2024, 4, 6),
    Date::new(2024, 4, 7),
    Date::new(2023, 4, 5),
    Date::new(2023, 4, 6),
    Date::new(2023, 5, 31),
    Date::new(2023, 12, 31),
    Date::new(2024, 1, 6),
    Date::new(2024, 2, 29),
    Date::new(2024, 3, 7),
    Date::new(2024, 3, 31),
    Date::new(2024, 4, 1),
    Date::new(2024, 4, 30),
    Date::new(2024, 5, 1),
    Date::new(2024, 12, 5),
    Date::new(2025, 1, 1),
    Date::new(2025, 3, 31),
    Date::new(2025, 4, 5),
];

/// Used amounts at the ends: none stated, none used, all but a penny, all, a
/// penny too much, and the most that a line can state.
pub const USED: [Option<u32>; 7] =
    [None, Some(0), Some(1), Some(26_827_499), Some(26_827_500), Some(26_827_501), Some(u32::MAX)];

/// A good case of random kinds at the allowance.
pub fn any_allowance_case(random: &mut Generator) -> CaseFields {
    let kinds = any_kinds(random);
    allowance_case(random, &kinds)
}

/// A good case of the given kinds at the allowance: mostly next to its first
/// day, mostly with large pensions, and mostly with a used amount stated.
pub fn allowance_case(random: &mut Generator, kinds: &[u8]) -> CaseFields {
    let mut case = if random.once_in(4) {
        good_case(random, kinds)
    } else {
        let day = random.pick(&DAYS);
        good_case_on(random, kinds, day)
    };
    if !random.once_in(3) {
        state_large_amounts(random, &mut case);
    }
    case.used_allowance = used_near(random, &case);
    case
}

/// The line of a good case that states a used amount and is cut by the
/// allowance.
pub fn cut_line(random: &mut Generator) -> Vec<u8> {
    loop {
        let case = any_allowance_case(random);
        let line = case.line();
        if case.used_allowance.is_some() && is_cut(&line) {
            return line;
        }
    }
}

/// Whether the allowance makes the lump sums of a line less than they would be
/// without it.
fn is_cut(line: &[u8]) -> bool {
    acceptance::accept(line)
        .is_ok_and(|case| split::grant(&case) != split::grant(&without_allowance(&case)))
}

/// The same case with no allowance to keep.
pub fn without_allowance(case: &Case) -> Case {
    let mut unlimited = *case;
    unlimited.allowance = None;
    unlimited
}

/// Totals of the lump sums that a case has without an allowance, pension after
/// pension in the order of prices, 0 first.
fn totals_without_allowance(case: &Case) -> Vec<u64> {
    let lumps = split::grant(&without_allowance(case));
    let mut order: Vec<usize> = (0..case.pensions().len()).collect();
    order.sort_by_key(|&place| (case.pensions()[place].price, place));
    let mut totals = vec![0];
    for place in order {
        totals.push(totals[totals.len() - 1] + lumps[place].0);
    }
    totals
}

/// A used amount for a good case: one that leaves about the total of its first
/// pensions, one at the ends, or any.
fn used_near(random: &mut Generator, case: &CaseFields) -> Option<u32> {
    let accepted = acceptance::accept(&case.line()).expect("a good case");
    let totals = totals_without_allowance(&accepted);
    let left = random.pick(&totals).saturating_sub(1) + u64::from(random.within(0..=2));
    let near = WHOLE.0.checked_sub(left).map(|used| used as u32);
    let below_whole = random.within(0..=WHOLE.0 as u32);
    let any = random.next() as u32;
    let at_an_end = random.pick(&USED);
    random.pick(&[near, near, near, Some(below_whole), Some(below_whole), Some(any), at_an_end])
}

/// States amounts that reach the allowance with most factors.
fn state_large_amounts(random: &mut Generator, case: &mut CaseFields) {
    let most = 50_000_000 / case.pensions.len() as u32;
    for pension in &mut case.pensions {
        pension.yearly = random.within(1_000_000..=most);
    }
}
