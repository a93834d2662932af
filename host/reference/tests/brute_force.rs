//! For tiny pensions every split within the caps and the allowance is tried, and
//! the engine's grant is held against all of them.

mod common;

use cases::allowances::allowance_case;
use cases::fields::CaseFields;
use cases::generator::Generator;
use cases::random::{good_case, good_case_on, kind_lists};
use common::compare::assert_quote;
use reference::calendar::Date;
use reference::limit::ExactLimit;
use reference::money::LumpPence;
use reference::split::{Case, Pension};

/// Splits tried for one case.
const MOST_SPLITS: u64 = 60_000;

type Lumps = [LumpPence; 4];

/// The best totals of all splits within the caps and the allowance.
struct Best {
    under_priced_limit: u64,
    under_exact_limit: u64,
}

fn total(lumps: &Lumps) -> u64 {
    lumps.iter().map(|lump| lump.0).sum()
}

fn keeps_priced_limit(case: &Case, lumps: &Lumps) -> bool {
    let cost =
        |(pension, lump): (&Pension, &LumpPence)| u128::from(lump.0) * u128::from(pension.price);
    case.pensions().iter().zip(lumps).map(cost).sum::<u128>() <= u128::from(case.priced_limit())
}

/// The most that the lump sums of a case may total by the allowance, as the
/// request has it in words.
fn most_by_allowance(fields: &CaseFields) -> u64 {
    let day = (fields.commencement.year, fields.commencement.month, fields.commencement.day);
    match fields.used_allowance {
        _ if day < (2024, 4, 6) => u64::MAX,
        None => 26_827_500,
        Some(used) if used > 26_827_500 => 0,
        Some(used) => 26_827_500 - u64::from(used),
    }
}

/// The next split within the caps, the first pension's lump changing fastest.
fn next_split(case: &Case, lumps: &mut Lumps) -> bool {
    for (pension, lump) in case.pensions().iter().zip(lumps) {
        if *lump < pension.cap {
            lump.0 += 1;
            return true;
        }
        lump.0 = 0;
    }
    false
}

/// Tries every split within the caps; those that total more than `most` are no
/// rivals.
fn best_of_all_splits(case: &Case, exact: &ExactLimit, most: u64) -> Best {
    let mut best = Best { under_priced_limit: 0, under_exact_limit: 0 };
    let mut lumps = Lumps::default();
    loop {
        let is_rival = total(&lumps) <= most;
        if keeps_priced_limit(case, &lumps) {
            assert!(exact.is_kept_by(&lumps), "the priced limit is the tighter one");
            if is_rival {
                best.under_priced_limit = best.under_priced_limit.max(total(&lumps));
            }
        }
        if is_rival && exact.is_kept_by(&lumps) {
            best.under_exact_limit = best.under_exact_limit.max(total(&lumps));
        }
        if !next_split(case, &mut lumps) {
            return best;
        }
    }
}

/// Holds the engine's grant against every split. Gives false if there are too
/// many to try.
fn assert_grant_is_best(fields: &CaseFields) -> bool {
    let line = fields.line();
    let case = reference::acceptance::accept(&line).expect("a good case");
    let splits: u64 = case.pensions().iter().map(|pension| pension.cap.0 + 1).product();
    if splits > MOST_SPLITS {
        return false;
    }
    let granted = assert_quote(&line).lump.map(LumpPence);
    let exact = ExactLimit::of(&case);
    let most = most_by_allowance(fields);
    let context = line.escape_ascii();
    let capped = case.pensions().iter().zip(granted).all(|(pension, lump)| lump <= pension.cap);
    assert!(capped, "a cap is broken: {context}");
    assert!(keeps_priced_limit(&case, &granted), "the priced limit is broken: {context}");
    assert!(exact.is_kept_by(&granted), "the 25% limit is broken: {context}");
    assert!(total(&granted) <= most, "the allowance is broken: {context}");
    let best = best_of_all_splits(&case, &exact, most);
    assert_eq!(total(&granted), best.under_priced_limit, "not the best total: {context}");
    assert!(best.under_exact_limit <= total(&granted) + 1, "a rival totals more: {context}");
    true
}

/// Gives every pension of a case so few pence that all splits can be tried.
fn state_tiny_amounts(random: &mut Generator, case: &mut CaseFields) {
    let most = [0, 40, 12, 5, 3][case.pensions.len()];
    case.pensions.iter_mut().for_each(|pension| pension.yearly = random.within(1..=most));
}

#[test]
fn no_split_of_tiny_pensions_totals_more() {
    let mut random = Generator::for_test("no_split_of_tiny_pensions_totals_more");
    let mut tried = [0; 5];
    for kinds in kind_lists() {
        for _ in 0..100 {
            let mut case = good_case(&mut random, &kinds);
            state_tiny_amounts(&mut random, &mut case);
            tried[kinds.len()] += usize::from(assert_grant_is_best(&case));
        }
    }
    assert!(tried[1..].iter().all(|&cases| cases >= 150), "{tried:?}");
}

/// The same with only a few pence of the allowance left, or none, on its first
/// days, and on the day before with as much used.
#[test]
fn no_split_of_tiny_pensions_totals_more_with_pence_of_allowance_left() {
    let mut random =
        Generator::for_test("no_split_of_tiny_pensions_totals_more_with_pence_of_allowance_left");
    let days = [Date::new(2024, 4, 5), Date::new(2024, 4, 6), Date::new(2024, 4, 7)];
    let mut tried = [0; 5];
    let mut cut = [0; 5];
    for kinds in kind_lists() {
        for _ in 0..100 {
            let day = random.pick(&days);
            let mut case = good_case_on(&mut random, &kinds, day);
            state_tiny_amounts(&mut random, &mut case);
            let uncut = assert_quote(&case.line()).total;
            // From a penny too much used to a penny more left than can be spent.
            let left = random.within(0..=uncut as u32 + 2);
            case.used_allowance = Some(26_827_501 - left);
            tried[kinds.len()] += usize::from(assert_grant_is_best(&case));
            cut[kinds.len()] += usize::from(assert_quote(&case.line()).total < uncut);
        }
    }
    assert!(tried[1..].iter().all(|&cases| cases >= 150), "{tried:?}");
    assert!(cut[1..].iter().all(|&cases| cases >= 100), "{cut:?}");
}

/// A good case of the given kinds, at the allowance or anywhere.
fn any_good_case(random: &mut Generator, kinds: &[u8]) -> CaseFields {
    if random.once_in(2) {
        good_case(random, kinds)
    } else {
        allowance_case(random, kinds)
    }
}

/// For pensions of any size the grant keeps every limit, and one more penny
/// for a pension below its cap breaks the priced limit or the allowance.
#[test]
fn no_penny_more_for_any_pension() {
    let mut random = Generator::for_test("no_penny_more_for_any_pension");
    for kinds in kind_lists() {
        for _ in 0..1_000 {
            let fields = any_good_case(&mut random, &kinds);
            let line = fields.line();
            let most = most_by_allowance(&fields);
            let case = reference::acceptance::accept(&line).expect("a good case");
            let granted = assert_quote(&line).lump.map(LumpPence);
            assert!(keeps_priced_limit(&case, &granted), "{}", line.escape_ascii());
            assert!(ExactLimit::of(&case).is_kept_by(&granted), "{}", line.escape_ascii());
            assert!(total(&granted) <= most, "{}", line.escape_ascii());
            for (place, pension) in case.pensions().iter().enumerate() {
                let mut more = granted;
                more[place].0 += 1;
                let allowed = more[place] <= pension.cap
                    && keeps_priced_limit(&case, &more)
                    && total(&more) <= most;
                assert!(!allowed, "a penny more for pension {place}: {}", line.escape_ascii());
            }
        }
    }
}
