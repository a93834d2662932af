//! Trivial commutation: one lump sum for the whole of a small pension in payment
//! to a former officer, which stands for the survivor's pension as well.

use std::ops::RangeInclusive;

use crate::money::{LumpPence, YearlyPence};
use crate::refusals::Refusal;

/// What the member may be paid a year.
const MEMBER_PENSIONS: RangeInclusive<YearlyPence> = YearlyPence(1)..=YearlyPence(50_000_000);
/// What the survivor may be paid a year, if anything.
const SURVIVOR_PENSIONS: RangeInclusive<YearlyPence> = YearlyPence(0)..=YearlyPence(50_000_000);

/// A row of a table: the age in completed years, the factor for the member's
/// pension and the factor for the survivor's, both in tenths.
type Row = (u32, u64, u64);

/// Table 1 of document 004: former officers of the 1987 scheme.
const TABLE_1: [Row; 40] = [
    (60, 192, 28),
    (61, 187, 28),
    (62, 182, 29),
    (63, 176, 29),
    (64, 171, 28),
    (65, 165, 28),
    (66, 160, 28),
    (67, 154, 28),
    (68, 149, 28),
    (69, 143, 28),
    (70, 137, 27),
    (71, 131, 27),
    (72, 126, 27),
    (73, 120, 27),
    (74, 114, 25),
    (75, 108, 24),
    (76, 103, 24),
    (77, 97, 23),
    (78, 92, 23),
    (79, 86, 21),
    (80, 81, 19),
    (81, 76, 18),
    (82, 70, 18),
    (83, 65, 17),
    (84, 61, 15),
    (85, 56, 13),
    (86, 52, 12),
    (87, 48, 12),
    (88, 44, 11),
    (89, 40, 9),
    (90, 37, 7),
    (91, 34, 6),
    (92, 31, 6),
    (93, 28, 5),
    (94, 26, 5),
    (95, 24, 5),
    (96, 22, 4),
    (97, 21, 4),
    (98, 19, 4),
    (99, 18, 3),
];

/// Table 2 of document 004: former officers of the 2006 and 2015 schemes.
const TABLE_2: [Row; 40] = [
    (60, 192, 30),
    (61, 187, 30),
    (62, 182, 30),
    (63, 176, 31),
    (64, 171, 30),
    (65, 165, 29),
    (66, 160, 29),
    (67, 154, 29),
    (68, 149, 29),
    (69, 143, 28),
    (70, 137, 28),
    (71, 131, 28),
    (72, 126, 28),
    (73, 120, 28),
    (74, 114, 26),
    (75, 108, 25),
    (76, 103, 24),
    (77, 97, 24),
    (78, 92, 23),
    (79, 86, 21),
    (80, 81, 19),
    (81, 76, 19),
    (82, 70, 18),
    (83, 65, 18),
    (84, 61, 15),
    (85, 56, 13),
    (86, 52, 12),
    (87, 48, 12),
    (88, 44, 11),
    (89, 40, 9),
    (90, 37, 7),
    (91, 34, 6),
    (92, 31, 6),
    (93, 28, 6),
    (94, 26, 5),
    (95, 24, 5),
    (96, 22, 4),
    (97, 21, 4),
    (98, 19, 4),
    (99, 18, 3),
];

/// The table of a scheme, which is given by its year.
fn table(scheme: u32) -> Option<&'static [Row]> {
    match scheme {
        1987 => Some(&TABLE_1),
        2006 | 2015 => Some(&TABLE_2),
        _ => None,
    }
}

/// The row of a scheme at an age, found by the age that is printed in it.
fn row(scheme: u32, age: u32) -> Option<&'static Row> {
    table(scheme)?.iter().find(|(printed_age, ..)| *printed_age == age)
}

/// The lump sum for a member of a scheme, given by its year, at an age in
/// completed years. Both products are summed in tenths of a penny, and only the
/// sum is taken down to the penny.
pub fn lump_sum(
    scheme: u32,
    age: u32,
    member: YearlyPence,
    survivor: YearlyPence,
) -> Result<LumpPence, Refusal> {
    let &(_, member_factor, survivor_factor) = row(scheme, age).ok_or(Refusal::NotCommutable)?;
    if !MEMBER_PENSIONS.contains(&member) || !SURVIVOR_PENSIONS.contains(&survivor) {
        return Err(Refusal::NotCommutable);
    }
    let tenths = member.0 * member_factor + survivor.0 * survivor_factor;
    Ok(LumpPence(tenths / 10))
}

#[cfg(test)]
mod tests {
    use super::*;

    /// The lump sum, amounts in pence.
    fn pence(scheme: u32, age: u32, member: u64, survivor: u64) -> Option<u64> {
        lump_sum(scheme, age, YearlyPence(member), YearlyPence(survivor)).ok().map(|lump| lump.0)
    }

    #[test]
    fn examples_of_document_004() {
        assert_eq!(pence(1987, 68, 65_000, 32_500), Some(1_059_500));
        assert_eq!(pence(2006, 65, 100_000, 50_000), Some(1_795_000));
        assert_eq!(pence(2015, 65, 100_000, 50_000), Some(1_795_000));
    }

    #[test]
    fn each_age_has_one_row() {
        for table in [TABLE_1, TABLE_2] {
            assert!(table.map(|(age, ..)| age).into_iter().eq(60..=99));
        }
    }

    #[test]
    fn schemes_and_ages() {
        let held = (0..3_000).filter(|&scheme| pence(scheme, 60, 1, 0).is_some());
        assert!(held.eq([1987, 2006, 2015]));
        for scheme in [1987, 2006, 2015] {
            let held = (0..3_000).filter(|&age| pence(scheme, age, 1, 0).is_some());
            assert!(held.eq(60..=99));
        }
    }

    /// At 68 the tenths of a penny are 149 and 28 for a penny of each pension: 9
    /// and 8 of them are lost alone, and 7 together.
    #[test]
    fn only_the_sum_is_taken_down() {
        assert_eq!(pence(1987, 68, 1, 0), Some(14));
        assert_eq!(pence(1987, 68, 1, 1), Some(17));
        assert_eq!(pence(1987, 68, 10, 10), Some(177));
    }

    #[test]
    fn pensions_at_their_ends() {
        let most = 50_000_000;
        assert_eq!(pence(2006, 60, 0, 0), None);
        assert_eq!(pence(2006, 60, 0, most), None);
        assert_eq!(pence(2006, 60, 1, 0), Some(19));
        assert_eq!(pence(2006, 60, 1, most), Some(150_000_019));
        assert_eq!(pence(2006, 60, most, 0), Some(960_000_000));
        assert_eq!(pence(2006, 60, most, most), Some(1_110_000_000));
        assert_eq!(pence(2006, 60, most + 1, 0), None);
        assert_eq!(pence(2006, 60, 1, most + 1), None);
        assert_eq!(pence(2006, 60, u64::MAX, u64::MAX), None);
    }

    #[test]
    fn every_fault_has_the_same_refusal() {
        let good = (1987, 60, 1, 0);
        let faults = [(1988, 60, 1, 0), (1987, 59, 1, 0), (1987, 60, 0, 0), (0, 0, 0, u64::MAX)];
        let answer = |(scheme, age, member, survivor)| {
            lump_sum(scheme, age, YearlyPence(member), YearlyPence(survivor))
        };
        assert_eq!(answer(good), Ok(LumpPence(19)));
        for fault in faults {
            assert_eq!(answer(fault), Err(Refusal::NotCommutable), "{fault:?}");
        }
    }
}
