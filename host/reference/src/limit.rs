//! The exact 25% limit, over whole numbers of any size that can occur.
//!
//! The grant does not need it: prices are rounded so that the priced limit is
//! the tighter one. It is here to hold grants against.

use std::array;

use crate::case_line::MOST_PENSIONS;
use crate::money::LumpPence;
use crate::split::Case;

const LIMBS: usize = 4;

/// A whole number of 256 bits, lowest limb first. Four factors and an amount
/// need no more than 160.
#[derive(Clone, Copy, Debug, PartialEq, Eq)]
struct Wide([u64; LIMBS]);

impl Wide {
    fn times(self, factor: u64) -> Wide {
        let mut carry = 0;
        let product = self.0.map(|limb| {
            let sum = u128::from(limb) * u128::from(factor) + carry;
            carry = sum >> 64;
            sum as u64
        });
        debug_assert_eq!(carry, 0);
        Wide(product)
    }

    fn plus(self, other: Wide) -> Wide {
        let mut carry = 0;
        let sum = array::from_fn(|place| {
            let sum = u128::from(self.0[place]) + u128::from(other.0[place]) + carry;
            carry = sum >> 64;
            sum as u64
        });
        debug_assert_eq!(carry, 0);
        Wide(sum)
    }

    fn at_most(self, other: Wide) -> bool {
        self.0.iter().rev().le(other.0.iter().rev())
    }
}

impl From<u64> for Wide {
    fn from(number: u64) -> Wide {
        let mut limbs = [0; LIMBS];
        limbs[0] = number;
        Wide(limbs)
    }
}

/// The limit of one case: the sum of lump × (3 + 20/E) is at most 20 times the
/// pensions, both sides multiplied by the top of every E.
#[derive(Clone, Debug)]
pub struct ExactLimit {
    costs: [Wide; MOST_PENSIONS],
    limit: Wide,
}

impl ExactLimit {
    pub fn of(case: &Case) -> Self {
        let pensions = case.pensions();
        let mut costs = [Wide::from(0); MOST_PENSIONS];
        for (place, pension) in pensions.iter().enumerate() {
            let own = 3 * pension.factor.top + 20 * pension.factor.bottom;
            let others = pensions.iter().enumerate().filter(|&(other, _)| other != place);
            costs[place] =
                others.fold(Wide::from(own), |cost, (_, other)| cost.times(other.factor.top));
        }
        let yearly: u64 = pensions.iter().map(|pension| pension.yearly.0).sum();
        let limit = pensions
            .iter()
            .fold(Wide::from(20 * yearly), |limit, pension| limit.times(pension.factor.top));
        ExactLimit { costs, limit }
    }

    /// Whether the lump sums keep the limit. Those of pensions not there do
    /// not count.
    pub fn is_kept_by(&self, lumps: &[LumpPence; MOST_PENSIONS]) -> bool {
        let value = self
            .costs
            .iter()
            .zip(lumps)
            .fold(Wide::from(0), |value, (cost, lump)| value.plus(cost.times(lump.0)));
        value.at_most(self.limit)
    }
}

#[cfg(test)]
mod tests {
    use super::*;
    use crate::calendar::Date;
    use crate::factors::Factor;
    use crate::money::YearlyPence;
    use crate::split::Pension;

    #[test]
    fn wide_numbers_carry() {
        let number = Wide::from(u64::MAX).times(u64::MAX).times(3).plus(Wide::from(5));
        let low = u128::from(u64::MAX) * u128::from(u64::MAX);
        let (doubled, over) = low.overflowing_mul(2);
        let (tripled, over_again) = doubled.overflowing_add(low);
        let (sum, over_last) = tripled.overflowing_add(5);
        let high = u64::from(over) + u64::from(over_again) + u64::from(over_last);
        assert_eq!(number, Wide([sum as u64, (sum >> 64) as u64, high, 0]));
        assert!(Wide([u64::MAX, 0, 1, 0]).at_most(Wide([0, 1, 1, 0])));
        assert!(!Wide([0, 1, 1, 0]).at_most(Wide([u64::MAX, 0, 1, 0])));
        assert!(number.at_most(number));
    }

    /// One kind 2 pension of document 001: the lump sum granted keeps the
    /// limit, and a penny more breaks it.
    #[test]
    fn limit_of_one_pension() {
        let factor = Factor::after_break(2628, 2280, 872, 1000);
        let pension = Pension::new(YearlyPence(3_200_000), factor, 1000);
        let mut pensions = [Pension::NONE; MOST_PENSIONS];
        pensions[0] = pension;
        let limit = ExactLimit::of(&Case::new(1, Date::new(2023, 4, 3), 1, pensions, None));
        let lumps = |lump| [LumpPence(lump), LumpPence(0), LumpPence(0), LumpPence(0)];
        assert!(limit.is_kept_by(&lumps(17_015_192)));
        assert!(!limit.is_kept_by(&lumps(17_015_193)));
    }
}
