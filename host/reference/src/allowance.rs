//! The lump sum allowance: what tax-free lump sums may come to in all, those
//! taken before included.

use crate::calendar::Date;
use crate::money::LumpPence;

/// The allowance that nothing has been used of.
pub const WHOLE: LumpPence = LumpPence(26_827_500);

/// The first commencement that has an allowance.
pub const FIRST_DAY: Date = Date::new(2024, 4, 6);

/// What is left of the allowance for a commencement on a date, or nothing at
/// all if there is no such limit on that day. More may have been used than
/// there was.
pub fn left(commencement: Date, used: LumpPence) -> Option<LumpPence> {
    let is_limited = commencement >= FIRST_DAY;
    is_limited.then(|| LumpPence(WHOLE.0.saturating_sub(used.0)))
}

#[cfg(test)]
mod tests {
    use super::*;

    const NOTHING: LumpPence = LumpPence(0);

    #[test]
    fn the_first_day() {
        let limited = [
            (Date::new(2023, 4, 6), false),
            (Date::new(2023, 12, 31), false),
            (Date::new(2024, 3, 31), false),
            (Date::new(2024, 4, 5), false),
            (Date::new(2024, 4, 6), true),
            (Date::new(2024, 4, 7), true),
            (Date::new(2024, 5, 1), true),
            (Date::new(2025, 1, 1), true),
        ];
        for (day, is_limited) in limited {
            assert_eq!(left(day, NOTHING), is_limited.then_some(WHOLE), "{day:?}");
        }
    }

    #[test]
    fn what_is_left_is_never_below_zero() {
        let most = u64::from(u32::MAX);
        for (used, rest) in [
            (0, 26_827_500),
            (1, 26_827_499),
            (26_827_499, 1),
            (26_827_500, 0),
            (26_827_501, 0),
            (most, 0),
        ] {
            assert_eq!(left(FIRST_DAY, LumpPence(used)), Some(LumpPence(rest)), "{used} used");
        }
    }

    #[test]
    fn no_limit_before_whatever_was_used() {
        for used in [0, 26_827_500, u64::from(u32::MAX)] {
            assert_eq!(left(Date::new(2024, 4, 5), LumpPence(used)), None);
        }
    }
}
