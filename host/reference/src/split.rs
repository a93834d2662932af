//! The split of the tax-free limit over the pensions of a case, and the quote.

use std::array;

use crate::calendar::Date;
use crate::case_line::MOST_PENSIONS;
use crate::factors::{self, Factor};
use crate::money::{LumpPence, YearlyPence};

/// Billionths of the limit for each penny of yearly pension.
const LIMIT_PER_PENNY: u64 = 20_000_000_000;

/// A pension of an accepted case, after any early payment reduction.
#[derive(Clone, Copy, Debug)]
pub struct Pension {
    pub yearly: YearlyPence,
    pub factor: Factor,
    /// The most that may be commuted.
    pub cap: LumpPence,
    /// What a penny of lump sum takes of the limit, in billionths.
    pub price: u64,
    /// The pension increase paid on the lump sum as a second instalment, in
    /// hundredths of a percent; 0 if there is none.
    pub increase: u16,
}

impl Pension {
    /// Stands in the places of a case that has fewer pensions.
    pub const NONE: Pension = Pension {
        yearly: YearlyPence(0),
        factor: Factor::PENSION_2015,
        cap: LumpPence(0),
        price: 0,
        increase: 0,
    };

    pub fn new(yearly: YearlyPence, factor: Factor, increase: u16) -> Self {
        let cap = factor.lump_for_quarter(yearly);
        Pension { yearly, factor, cap, price: factor.price(), increase }
    }

    /// Holds the lump sum to two and a quarter times the pension as well.
    pub fn capped_if(mut self, capped: bool) -> Self {
        if capped {
            self.cap = self.cap.min(factors::two_and_a_quarter(self.yearly));
        }
        self
    }

    fn remaining(&self, lump: LumpPence) -> YearlyPence {
        YearlyPence(self.yearly.0 - self.factor.pension_given_up(lump).0)
    }

    fn second_instalment(&self, lump: LumpPence) -> LumpPence {
        LumpPence(lump.0 * u64::from(self.increase) / 10_000)
    }
}

/// A case that no refusal applies to.
#[derive(Clone, Copy, Debug)]
pub struct Case {
    pub member: u32,
    /// The split does not look at it: what is left of the allowance on that day
    /// is stated apart.
    pub commencement: Date,
    count: usize,
    pensions: [Pension; MOST_PENSIONS],
    /// The most that the lump sums may total: what is left of the lump sum
    /// allowance. None if there is no such limit.
    pub allowance: Option<LumpPence>,
}

impl Case {
    /// The first `count` of `pensions` are the case's own.
    pub fn new(
        member: u32,
        commencement: Date,
        count: usize,
        pensions: [Pension; MOST_PENSIONS],
        allowance: Option<LumpPence>,
    ) -> Self {
        Case { member, commencement, count, pensions, allowance }
    }

    pub fn pensions(&self) -> &[Pension] {
        &self.pensions[..self.count]
    }

    /// The priced limit, in billionths.
    pub fn priced_limit(&self) -> u64 {
        let yearly: u64 = self.pensions().iter().map(|pension| pension.yearly.0).sum();
        LIMIT_PER_PENNY * yearly
    }
}

/// The figures of a quote; those of pensions not there are 0.
#[derive(Clone, Copy, Debug, Default, PartialEq, Eq)]
pub struct Quote {
    pub member: u32,
    pub total: LumpPence,
    pub lump: [LumpPence; MOST_PENSIONS],
    pub remaining: [YearlyPence; MOST_PENSIONS],
    pub second: [LumpPence; MOST_PENSIONS],
}

/// The lump sums of a case: the pension with the lowest price first, equal
/// prices in line order, each the most that its cap, the rest of the limit and
/// the rest of the allowance allow.
pub fn grant(case: &Case) -> [LumpPence; MOST_PENSIONS] {
    let pensions = case.pensions();
    let mut order: [usize; MOST_PENSIONS] = array::from_fn(|place| place);
    let order = &mut order[..pensions.len()];
    // A stable sort, so that equal prices stay in line order.
    order.sort_by_key(|&place| pensions[place].price);

    let mut lumps = [LumpPence(0); MOST_PENSIONS];
    let mut limit = case.priced_limit();
    let mut allowance = case.allowance;
    for &place in order.iter() {
        let pension = &pensions[place];
        let within_limit = pension.cap.min(LumpPence(limit / pension.price));
        let lump = allowance.map_or(within_limit, |rest| within_limit.min(rest));
        limit -= lump.0 * pension.price;
        allowance = allowance.map(|rest| LumpPence(rest.0 - lump.0));
        lumps[place] = lump;
    }
    lumps
}

/// Quotes an accepted case.
pub fn quote(case: &Case) -> Quote {
    let lump = grant(case);
    let mut quote = Quote { member: case.member, lump, ..Quote::default() };
    for (place, pension) in case.pensions().iter().enumerate() {
        quote.total.0 += lump[place].0;
        quote.remaining[place] = pension.remaining(lump[place]);
        quote.second[place] = pension.second_instalment(lump[place]);
    }
    quote
}

#[cfg(test)]
mod tests {
    use super::*;

    /// A case of kind 1 pensions of 2,000,000 with these factors.
    fn case(factors: &[u16], allowance: Option<u64>) -> Case {
        let mut pensions = [Pension::NONE; MOST_PENSIONS];
        for (pension, &f1) in pensions.iter_mut().zip(factors) {
            let factor = Factor::straight_from_service(f1);
            *pension = Pension::new(YearlyPence(2_000_000), factor, 0);
        }
        let commencement = Date::new(2024, 4, 6);
        Case::new(1, commencement, factors.len(), pensions, allowance.map(LumpPence))
    }

    fn granted(factors: &[u16], allowance: Option<u64>) -> [u64; MOST_PENSIONS] {
        grant(&case(factors, allowance)).map(|LumpPence(pence)| pence)
    }

    /// The cap of factor 16 is 8,000,000 and that of factor 20 is 10,000,000;
    /// the priced limit has room for all.
    #[test]
    fn the_allowance_is_spent_in_the_order_of_prices() {
        let factors = [1600, 2000, 1600];
        let expected = [
            (None, [8_000_000, 10_000_000, 8_000_000]),
            (Some(26_000_001), [8_000_000, 10_000_000, 8_000_000]),
            (Some(26_000_000), [8_000_000, 10_000_000, 8_000_000]),
            (Some(25_999_999), [8_000_000, 10_000_000, 7_999_999]),
            (Some(18_000_001), [8_000_000, 10_000_000, 1]),
            (Some(18_000_000), [8_000_000, 10_000_000, 0]),
            (Some(10_000_001), [1, 10_000_000, 0]),
            (Some(10_000_000), [0, 10_000_000, 0]),
            (Some(1), [0, 1, 0]),
            (Some(0), [0, 0, 0]),
        ];
        for (allowance, [first, second, third]) in expected {
            assert_eq!(granted(&factors, allowance), [first, second, third, 0], "{allowance:?}");
        }
    }

    /// A case whose priced limit is used up before the allowance is.
    #[test]
    fn the_lower_of_limit_and_allowance_holds() {
        let factors = [4000, 4000];
        let [first, second, ..] = granted(&factors, None);
        let total = first + second;
        assert!(second < first, "the priced limit is spent");
        assert_eq!(granted(&factors, Some(total)), [first, second, 0, 0]);
        assert_eq!(granted(&factors, Some(total + 1)), [first, second, 0, 0]);
        assert_eq!(granted(&factors, Some(total - 1)), [first, second - 1, 0, 0]);
    }
}
