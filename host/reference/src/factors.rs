//! Commutation factors, their tables, and the early payment reduction.

use std::ops::RangeInclusive;

use crate::money::{LumpPence, YearlyPence};

/// Ages in months that Table 1 is held for.
pub const TABLE_1_AGES: RangeInclusive<i32> = 636..=875;

/// Age in years from which a 2015 pension is not reduced.
pub const NORMAL_PENSION_YEARS: u16 = 60;
/// The same in months.
pub const NORMAL_PENSION_AGE: i32 = 12 * NORMAL_PENSION_YEARS as i32;

const FIRST_AGE: i32 = *TABLE_1_AGES.start();
const TABLE_1_ENTRIES: usize = (*TABLE_1_AGES.end() - FIRST_AGE + 1) as usize;

/// Table 1 at whole years of age, 53 to 73, in hundredths.
const TABLE_1_YEARS: [u16; 21] = [
    2540, 2490, 2430, 2370, 2310, 2250, 2190, 2140, 2070, 2010, 1950, 1880, 1820, 1760, 1690, 1630,
    1560, 1500, 1430, 1370, 1300,
];

/// Table 1 month by month: the straight line between two whole years, to the
/// nearest hundredth, halves up.
const TABLE_1: [u16; TABLE_1_ENTRIES] = {
    let mut table = [0; TABLE_1_ENTRIES];
    let mut entry = 0;
    while entry < TABLE_1_ENTRIES {
        let (year, month) = (entry / 12, entry % 12);
        let before = TABLE_1_YEARS[year] as usize;
        let after = TABLE_1_YEARS[year + 1] as usize;
        let twelfths = before * (12 - month) + after * month;
        table[entry] = ((2 * twelfths + 12) / 24) as u16;
        entry += 1;
    }
    table
};

/// Table A of early payment factors, in thousandths, by complete months to the
/// 60th birthday: a row for each year, the last month being 5 years 0 months.
const TABLE_A: [u16; 61] = [
    998, 994, 989, 985, 981, 977, 972, 968, 964, 959, 955, 951, //
    947, 943, 939, 935, 931, 927, 923, 919, 915, 911, 907, 903, //
    899, 896, 892, 888, 885, 881, 877, 873, 870, 866, 862, 859, //
    855, 852, 848, 845, 841, 838, 834, 831, 827, 824, 821, 817, //
    814, 811, 807, 804, 801, 798, 794, 791, 788, 785, 781, 778, //
    775,
];

/// Factor 1 of Table 1 at an age in months, in hundredths.
pub fn table_1(age: i32) -> Option<u16> {
    let entry = usize::try_from(age.checked_sub(FIRST_AGE)?).ok()?;
    TABLE_1.get(entry).copied()
}

/// A 2015 pension paid `months` before the 60th birthday: reduced by Table A,
/// down to the whole penny.
///
/// # Panics
///
/// If the pension starts more than 60 months before the birthday.
pub fn early_payment(pension: YearlyPence, months: usize) -> YearlyPence {
    YearlyPence(pension.0 * u64::from(TABLE_A[months]) / 1000)
}

/// The pence of lump sum for one penny of yearly pension, as the fraction
/// `top / bottom`. This is the effective factor E of a pension.
#[derive(Clone, Copy, Debug, PartialEq, Eq)]
pub struct Factor {
    pub top: u64,
    pub bottom: u64,
}

impl Factor {
    /// A 2015 pension: £12 for £1 a year.
    pub const PENSION_2015: Factor = Factor { top: 12, bottom: 1 };

    /// A 1987 pension straight from service: the Table 1 factor, in hundredths.
    pub fn straight_from_service(f1: u16) -> Factor {
        Factor { top: u64::from(f1), bottom: 100 }
    }

    /// A 1987 pension after a break: the factors of Tables 1 to 3, in
    /// hundredths, hundredths and thousandths, weighed by the pension increase
    /// in hundredths of a percent.
    pub fn after_break(f1: u16, f2: u16, f3: u16, increase: u16) -> Factor {
        let increase = u64::from(increase);
        Factor {
            top: 10 * (10_000 * u64::from(f1) + increase * u64::from(f2)),
            bottom: 10_000_000 + increase * u64::from(f3),
        }
    }

    /// The lump sum for a quarter of a pension, down.
    pub fn lump_for_quarter(self, pension: YearlyPence) -> LumpPence {
        LumpPence(pension.0 * self.top / (4 * self.bottom))
    }

    /// The yearly pension given up for a lump sum, down.
    pub fn pension_given_up(self, lump: LumpPence) -> YearlyPence {
        YearlyPence(lump.0 * self.bottom / self.top)
    }

    /// What one penny of lump sum takes of the tax limit, in billionths: 3 and
    /// the 20 for each penny of pension given up, the latter rounded up.
    pub fn price(self) -> u64 {
        3_000_000_000 + (20_000_000_000 * self.bottom).div_ceil(self.top)
    }
}

/// Two and a quarter times a pension, down.
pub fn two_and_a_quarter(pension: YearlyPence) -> LumpPence {
    LumpPence(9 * pension.0 / 4)
}

#[cfg(test)]
mod tests {
    use super::*;

    #[test]
    fn table_1_of_the_pension_office() {
        assert_eq!(table_1(63 * 12 + 4), Some(1927));
        assert_eq!(table_1(72 * 12 + 11), Some(1306));
    }

    #[test]
    fn table_1_ends() {
        assert_eq!(table_1(635), None);
        assert_eq!(table_1(636), Some(2540));
        assert_eq!(table_1(875), Some(1306));
        assert_eq!(table_1(876), None);
        assert_eq!(table_1(-1), None);
        let held = (0..2000).filter(|&age| table_1(age).is_some());
        assert!(held.eq(TABLE_1_AGES));
    }

    /// Some years of Table 1 as document 001 prints them, month by month.
    #[rustfmt::skip]
    const PRINTED: [(i32, [u16; 12]); 6] = [
        (53, [2540, 2536, 2532, 2528, 2523, 2519, 2515, 2511, 2507, 2503, 2498, 2494]),
        (54, [2490, 2485, 2480, 2475, 2470, 2465, 2460, 2455, 2450, 2445, 2440, 2435]),
        (59, [2190, 2186, 2182, 2178, 2173, 2169, 2165, 2161, 2157, 2153, 2148, 2144]),
        (60, [2140, 2134, 2128, 2123, 2117, 2111, 2105, 2099, 2093, 2088, 2082, 2076]),
        (66, [1760, 1754, 1748, 1743, 1737, 1731, 1725, 1719, 1713, 1708, 1702, 1696]),
        (72, [1370, 1364, 1358, 1353, 1347, 1341, 1335, 1329, 1323, 1318, 1312, 1306]),
    ];

    #[test]
    fn table_1_as_printed() {
        for (years, row) in PRINTED {
            for (month, factor) in (0..).zip(row) {
                assert_eq!(table_1(12 * years + month), Some(factor), "{years} years {month}");
            }
        }
    }

    #[test]
    fn early_payment_of_document_003() {
        assert_eq!(early_payment(YearlyPence(900_000), 60), YearlyPence(697_500));
        assert_eq!(early_payment(YearlyPence(25_000), 60), YearlyPence(19_375));
        assert_eq!(early_payment(YearlyPence(1), 0), YearlyPence(0));
        assert_eq!(early_payment(YearlyPence(1_000), 12), YearlyPence(947));
        assert_eq!(early_payment(YearlyPence(1_000), 35), YearlyPence(859));
        assert_eq!(early_payment(YearlyPence(1_000), 48), YearlyPence(814));
    }

    #[test]
    fn prices_are_rounded_up() {
        assert_eq!(Factor::PENSION_2015.price(), 4_666_666_667);
        assert_eq!(Factor::straight_from_service(2500).price(), 3_800_000_000);
        assert_eq!(Factor::straight_from_service(2590).price(), 3_772_200_773);
    }
}
