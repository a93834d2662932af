//! The rules that a case line must keep.

use std::ops::RangeInclusive;

use crate::allowance;
use crate::calendar::Date;
use crate::case_line::{self, StatedCase, StatedPension, MOST_PENSIONS};
use crate::factors::{self, Factor, NORMAL_PENSION_AGE, NORMAL_PENSION_YEARS};
use crate::money::{LumpPence, YearlyPence};
use crate::refusals::Refusal;
use crate::split::{Case, Pension};

/// Ages in months that a case may have.
const AGES: RangeInclusive<i32> = 216..=1199;
/// Age in months below which a pension after a break is paid in instalments,
/// and from which a 2015 pension can be paid.
const MINIMUM_PENSION_AGE: i32 = 660;
/// A stated factor of Table 1 or 2, in hundredths.
const STATED_FACTORS: RangeInclusive<u16> = 500..=4000;
/// A stated factor of Table 3, in thousandths.
const TIMING_FACTORS: RangeInclusive<u16> = 1..=1000;
/// A pension increase, in hundredths of a percent.
const INCREASES: RangeInclusive<u16> = 1..=10_000;
/// Months of service under the two-and-a-quarter cap.
const CAPPED_SERVICE: RangeInclusive<i32> = 300..=359;
/// The most that the stated pensions of a case may total.
const MOST_STATED: u64 = 50_000_000;

/// Tests a case line by refusals 1 to 10, in their order, and gives the case
/// that the split is worked out for.
pub fn accept(line: &[u8]) -> Result<Case, Refusal> {
    let stated = case_line::read(line)?;
    if !dates_are_in_calendar(&stated) {
        return Err(Refusal::Date);
    }
    if !dates_are_in_order(&stated) {
        return Err(Refusal::DateOrder);
    }
    if !AGES.contains(&stated.age()) {
        return Err(Refusal::Age);
    }
    let pensions = accept_pensions(&stated)?;
    if !amounts_are_in_range(&stated) {
        return Err(Refusal::StatedPension);
    }
    let used = LumpPence(u64::from(stated.used_allowance));
    let left = allowance::left(stated.commencement, used);
    let count = stated.pensions().len();
    Ok(Case::new(stated.member, stated.commencement, count, pensions, left))
}

fn dates_are_in_calendar(case: &StatedCase) -> bool {
    case.birth.is_in_calendar()
        && case.commencement.is_in_calendar()
        && case
            .pensions()
            .iter()
            .all(|pension| pension.start.is_in_calendar() && pension.end.is_in_calendar())
}

fn dates_are_in_order(case: &StatedCase) -> bool {
    case.pensions().iter().all(|pension| {
        case.birth < pension.start
            && pension.start <= pension.end
            && pension.end <= case.commencement
    })
}

fn amounts_are_in_range(case: &StatedCase) -> bool {
    let amounts = || case.pensions().iter().map(|pension| u64::from(pension.yearly));
    amounts().all(|amount| amount != 0) && amounts().sum::<u64>() <= MOST_STATED
}

/// Tests every pension by refusals 6 to 9 and gives the lowest refusal of all.
fn accept_pensions(case: &StatedCase) -> Result<[Pension; MOST_PENSIONS], Refusal> {
    let mut pensions = [Pension::NONE; MOST_PENSIONS];
    let mut lowest: Option<Refusal> = None;
    for (pension, stated) in pensions.iter_mut().zip(case.pensions()) {
        match accept_pension(stated, case) {
            Ok(accepted) => *pension = accepted,
            Err(refusal) => lowest = Some(lowest.map_or(refusal, |before| before.min(refusal))),
        }
    }
    lowest.map_or(Ok(pensions), Err)
}

fn accept_pension(stated: &StatedPension, case: &StatedCase) -> Result<Pension, Refusal> {
    match stated.kind {
        1 => straight_from_service(stated, case.age()),
        2 => after_break(stated, case.age()),
        3 => pension_2015(stated, case.birth, case.commencement),
        _ => Err(Refusal::Kind),
    }
}

/// Kind 1: a 1987 pension paid straight from service, or treated so.
fn straight_from_service(stated: &StatedPension, age: i32) -> Result<Pension, Refusal> {
    if !flag_and_f1_are_listed(stated) || (stated.f2, stated.f3, stated.increase) != (0, 0, 0) {
        return Err(Refusal::Terms);
    }
    let factor = Factor::straight_from_service(factor_1(stated, age)?);
    Ok(Pension::new(stated_amount(stated), factor, 0).capped_if(is_capped(stated)))
}

/// Kind 2: a 1987 pension after a break and before age 55.
fn after_break(stated: &StatedPension, age: i32) -> Result<Pension, Refusal> {
    let listed = flag_and_f1_are_listed(stated)
        && STATED_FACTORS.contains(&stated.f2)
        && TIMING_FACTORS.contains(&stated.f3)
        && INCREASES.contains(&stated.increase);
    if !listed {
        return Err(Refusal::Terms);
    }
    if age >= MINIMUM_PENSION_AGE {
        return Err(Refusal::KindAtAge);
    }
    let f1 = factor_1(stated, age)?;
    let factor = Factor::after_break(f1, stated.f2, stated.f3, stated.increase);
    Ok(Pension::new(stated_amount(stated), factor, stated.increase).capped_if(is_capped(stated)))
}

/// Kind 3: a 2015 pension from active service, reduced below age 60.
fn pension_2015(
    stated: &StatedPension,
    birth: Date,
    commencement: Date,
) -> Result<Pension, Refusal> {
    let terms = [stated.f1, stated.f2, stated.f3, stated.increase];
    if stated.lift != 0 || terms != [0; 4] {
        return Err(Refusal::Terms);
    }
    let age = birth.months_until(commencement);
    if age < MINIMUM_PENSION_AGE {
        return Err(Refusal::KindAtAge);
    }
    let mut yearly = stated_amount(stated);
    if age < NORMAL_PENSION_AGE {
        // At least 0 and at most 60, since the age is 660 to 719 months.
        let months = commencement.months_until(birth.birthday(NORMAL_PENSION_YEARS));
        yearly = factors::early_payment(yearly, months as usize);
    }
    Ok(Pension::new(yearly, Factor::PENSION_2015, 0))
}

/// The lists that kinds 1 and 2 share; factor 1 of 0 is looked up.
fn flag_and_f1_are_listed(stated: &StatedPension) -> bool {
    stated.lift <= 1 && (stated.f1 == 0 || STATED_FACTORS.contains(&stated.f1))
}

/// Factor 1 as stated, or from Table 1.
fn factor_1(stated: &StatedPension, age: i32) -> Result<u16, Refusal> {
    if stated.f1 != 0 {
        return Ok(stated.f1);
    }
    factors::table_1(age).ok_or(Refusal::AgeOutsideTable)
}

/// Whether the two-and-a-quarter cap holds for a 1987 pension.
fn is_capped(stated: &StatedPension) -> bool {
    let service = stated.start.months_until(stated.end);
    stated.lift == 0 && CAPPED_SERVICE.contains(&service)
}

fn stated_amount(stated: &StatedPension) -> YearlyPence {
    YearlyPence(u64::from(stated.yearly))
}
