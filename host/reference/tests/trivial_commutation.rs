//! The trivial commutation of small pensions: the factors of both tables, the
//! rounding, and the ends of every bound. Engine against reference, and both
//! against document 004 and what the request says in words.

mod common;

use std::ops::RangeInclusive;

use cases::generator::Generator;
use common::compare::assert_trivial_commutation;
use engine::Commuted;

const SCHEMES: [u32; 3] = [1987, 2006, 2015];
const AGES: RangeInclusive<u32> = 60..=99;

/// The most that either pension may be.
const MOST: u64 = 50_000_000;

const REFUSED: Commuted = Commuted { refusal: 15, lump: 0 };

/// A column of a table, from age 60 to 99, in tenths; a line for ten ages.
type Column = [u64; 40];

const MEMBER_1: Column = [
    192, 187, 182, 176, 171, 165, 160, 154, 149, 143, //
    137, 131, 126, 120, 114, 108, 103, 97, 92, 86, //
    81, 76, 70, 65, 61, 56, 52, 48, 44, 40, //
    37, 34, 31, 28, 26, 24, 22, 21, 19, 18,
];
const SURVIVOR_1: Column = [
    28, 28, 29, 29, 28, 28, 28, 28, 28, 28, //
    27, 27, 27, 27, 25, 24, 24, 23, 23, 21, //
    19, 18, 18, 17, 15, 13, 12, 12, 11, 9, //
    7, 6, 6, 5, 5, 5, 4, 4, 4, 3,
];
const MEMBER_2: Column = [
    192, 187, 182, 176, 171, 165, 160, 154, 149, 143, //
    137, 131, 126, 120, 114, 108, 103, 97, 92, 86, //
    81, 76, 70, 65, 61, 56, 52, 48, 44, 40, //
    37, 34, 31, 28, 26, 24, 22, 21, 19, 18,
];
const SURVIVOR_2: Column = [
    30, 30, 30, 31, 30, 29, 29, 29, 29, 28, //
    28, 28, 28, 28, 26, 25, 24, 24, 23, 21, //
    19, 19, 18, 18, 15, 13, 12, 12, 11, 9, //
    7, 6, 6, 6, 5, 5, 4, 4, 4, 3,
];

/// A scheme and an age with the two factors that the document has for them.
#[derive(Clone, Copy, Debug)]
struct Row {
    scheme: u32,
    age: u32,
    member_factor: u64,
    survivor_factor: u64,
}

/// A row for every scheme and age.
fn rows() -> impl Iterator<Item = Row> {
    let tables =
        [(1987, MEMBER_1, SURVIVOR_1), (2006, MEMBER_2, SURVIVOR_2), (2015, MEMBER_2, SURVIVOR_2)];
    tables.into_iter().flat_map(|(scheme, member, survivor)| {
        let factors = member.into_iter().zip(survivor);
        AGES.zip(factors).map(move |(age, (member_factor, survivor_factor))| Row {
            scheme,
            age,
            member_factor,
            survivor_factor,
        })
    })
}

impl Row {
    /// The lump sum in tenths of a penny.
    fn tenths(&self, member: u64, survivor: u64) -> u64 {
        member * self.member_factor + survivor * self.survivor_factor
    }

    /// Asserts what the request has in words, whether the pensions are good or bad.
    fn assert_rule(&self, member: u64, survivor: u64) {
        let is_good = member > 0 && member <= MOST && survivor <= MOST;
        let expected = if is_good {
            Commuted { refusal: 0, lump: self.tenths(member, survivor) / 10 }
        } else {
            REFUSED
        };
        let commuted = assert_trivial_commutation(self.scheme, self.age, member, survivor);
        assert_eq!(commuted, expected, "{self:?}, pensions {member} and {survivor}");
    }
}

/// The lump sum of good arguments.
fn granted(scheme: u32, age: u32, member: u64, survivor: u64) -> u64 {
    let commuted = assert_trivial_commutation(scheme, age, member, survivor);
    assert_eq!(commuted.refusal, 0, "scheme {scheme}, age {age}, {member} and {survivor}");
    commuted.lump
}

/// Asserts the refusal, or that there is none, of a scheme and an age, for more
/// pensions than one.
fn assert_scheme_and_age(scheme: u32, age: u32, is_good: bool) {
    for (member, survivor) in [(1, 0), (65_000, 32_500), (MOST, MOST)] {
        let commuted = assert_trivial_commutation(scheme, age, member, survivor);
        if is_good {
            assert_eq!(commuted.refusal, 0, "scheme {scheme}, age {age}");
        } else {
            assert_eq!(commuted, REFUSED, "scheme {scheme}, age {age}");
        }
    }
}

/// Examples 1 and 2. The second is one of the 2006 scheme, or, by section 2.5,
/// of the 2015 scheme.
#[test]
fn examples_of_document_004() {
    assert_eq!(granted(1987, 68, 65_000, 32_500), 1_059_500);
    assert_eq!(granted(2006, 65, 100_000, 50_000), 1_795_000);
    assert_eq!(granted(2015, 65, 100_000, 50_000), 1_795_000);
}

/// Each factor by itself: 10 pence a year give as many pence as it has tenths.
#[test]
fn every_factor_as_printed() {
    for Row { scheme, age, member_factor, survivor_factor } in rows() {
        let member_alone = granted(scheme, age, 10, 0);
        assert_eq!(member_alone, member_factor, "scheme {scheme}, age {age}");
        let both = granted(scheme, age, 10, 10);
        assert_eq!(both - member_alone, survivor_factor, "scheme {scheme}, age {age}");
    }
}

/// Pence of which the tenths add up in every way, so that other roundings show.
#[test]
fn only_the_sum_is_taken_down() {
    let (mut each_down, mut nearest, mut up) = (0, 0, 0);
    for row in rows() {
        for member in 1..=30 {
            for survivor in 0..=30 {
                row.assert_rule(member, survivor);
                let tenths = row.tenths(member, survivor);
                let separately = row.tenths(member, 0) / 10 + row.tenths(0, survivor) / 10;
                each_down += usize::from(separately < tenths / 10);
                nearest += usize::from((tenths + 5) / 10 > tenths / 10);
                up += usize::from(tenths.div_ceil(10) > tenths / 10);
            }
        }
    }
    assert!(
        [each_down, nearest, up].iter().all(|&cases| cases > 20_000),
        "{each_down} {nearest} {up}"
    );
}

/// Amounts of every size. From 22,369,622 on the greatest factor makes more tenths
/// of a penny than 32 bits hold.
const AMOUNTS: [u64; 19] = [
    0, 1, 2, 3, 7, 9, 10, 11, 99, 101, 1_000, 12_345, 65_000, 999_999, 22_369_621, 22_369_622,
    33_333_333, 49_999_999, 50_000_000,
];

/// Every scheme and age with amounts of every size, the member's alone, next to
/// nothing of the member's, and any two.
#[test]
fn every_scheme_and_age() {
    for row in rows() {
        for member in AMOUNTS {
            for survivor in AMOUNTS {
                row.assert_rule(member, survivor);
            }
        }
    }
}

/// The bound is on each pension and not on both together, and no lump sum
/// allowance cuts the sum.
#[test]
fn the_greatest_lump_sums() {
    assert_eq!(granted(1987, 60, MOST, MOST), 1_100_000_000);
    assert_eq!(granted(2006, 60, MOST, MOST), 1_110_000_000);
    assert_eq!(granted(2015, 60, MOST, MOST), 1_110_000_000);
    let greatest = rows().map(|Row { scheme, age, .. }| granted(scheme, age, MOST, MOST)).max();
    assert_eq!(greatest, Some(1_110_000_000));
}

#[test]
fn ages_near_and_far() {
    for scheme in SCHEMES {
        for age in (0..=3_000).chain(u32::MAX - 300..=u32::MAX) {
            assert_scheme_and_age(scheme, age, AGES.contains(&age));
        }
    }
}

/// Ages that would be good if a higher bit, or all of them, were cut off.
#[test]
fn ages_with_a_further_bit() {
    for scheme in SCHEMES {
        for age in AGES {
            for bit in 7..u32::BITS {
                assert_scheme_and_age(scheme, age | 1 << bit, false);
            }
            for cut in [8, 16, 24] {
                assert_scheme_and_age(scheme, age | u32::MAX << cut, false);
            }
        }
    }
}

/// Schemes of any year, of two digits, and of other numbers.
#[test]
fn schemes_near_and_far() {
    for scheme in (0..=10_000).chain(u32::MAX - 10_000..=u32::MAX) {
        for age in [60, 75, 99] {
            assert_scheme_and_age(scheme, age, SCHEMES.contains(&scheme));
        }
    }
}

/// Schemes that would be good if they were cut to 16 bits, or if a higher bit
/// were cut off.
#[test]
fn schemes_with_further_bits() {
    for scheme in SCHEMES {
        for high in 1..=u32::from(u16::MAX) {
            assert_scheme_and_age(scheme | high << 16, 60, false);
        }
        for bit in 11..u32::BITS {
            assert_scheme_and_age(scheme | 1 << bit, 60, false);
        }
    }
}

/// Pensions at their ends, and too large ones: next to the ends, and such as are
/// good amounts or small ones in fewer bits, or once they are added up.
const ENDS: [u64; 27] = [
    0,
    1,
    2,
    MOST - 1,
    MOST,
    MOST + 1,
    MOST + 2,
    2 * MOST - 1,
    2 * MOST,
    500_000_000,
    i32::MAX as u64,
    1 << 31,
    u32::MAX as u64,
    1 << 32,
    (1 << 32) + 1,
    (1 << 32) + 1_000,
    (1 << 32) + MOST,
    (1 << 33) + 1,
    (1 << 48) + 1_000,
    i64::MAX as u64,
    1 << 63,
    (1 << 63) + 1,
    (1 << 63) + MOST,
    u64::MAX - MOST,
    u64::MAX - 999,
    u64::MAX - 1,
    u64::MAX,
];

#[test]
fn pensions_at_their_ends() {
    for row in rows() {
        for member in ENDS {
            for survivor in ENDS {
                row.assert_rule(member, survivor);
            }
        }
    }
}

/// Pensions that would be good if a higher bit were cut off.
#[test]
fn pensions_with_a_further_bit() {
    for row in rows() {
        for good in [0, 1, 1_000, MOST] {
            for bit in 26..u64::BITS {
                let large = good | 1 << bit;
                row.assert_rule(large, 0);
                row.assert_rule(large, MOST);
                row.assert_rule(1, large);
                row.assert_rule(MOST, large);
            }
        }
    }
}

/// Pensions whose product with their factor is a small number again in 64 bits.
#[test]
fn pensions_whose_product_would_wrap() {
    for row in rows() {
        for further in 1..=10 {
            let member = u64::MAX / row.member_factor + further;
            assert!(member.wrapping_mul(row.member_factor) < MOST);
            row.assert_rule(member, 0);
            row.assert_rule(member, 1_000);
            let survivor = u64::MAX / row.survivor_factor + further;
            assert!(survivor.wrapping_mul(row.survivor_factor) < MOST);
            row.assert_rule(1_000, survivor);
            row.assert_rule(member, survivor);
        }
    }
}

/// Values of each argument and whether they are good.
const SOME_SCHEMES: [(u32, bool); 7] = [
    (1987, true),
    (2006, true),
    (2015, true),
    (0, false),
    (1986, false),
    (2007, false),
    (u32::MAX, false),
];
const SOME_AGES: [(u32, bool); 6] =
    [(60, true), (99, true), (0, false), (59, false), (100, false), (u32::MAX, false)];
const SOME_MEMBERS: [(u64, bool); 5] =
    [(1, true), (MOST, true), (0, false), (MOST + 1, false), (u64::MAX, false)];
const SOME_SURVIVORS: [(u64, bool); 4] =
    [(0, true), (MOST, true), (MOST + 1, false), (u64::MAX, false)];

/// One fault or several at once have the same refusal.
#[test]
fn every_set_of_faults() {
    for (scheme, good_scheme) in SOME_SCHEMES {
        for (age, good_age) in SOME_AGES {
            for (member, good_member) in SOME_MEMBERS {
                for (survivor, good_survivor) in SOME_SURVIVORS {
                    let commuted = assert_trivial_commutation(scheme, age, member, survivor);
                    let is_good = good_scheme && good_age && good_member && good_survivor;
                    assert_eq!(commuted.refusal == 0, is_good, "{scheme}, {age}");
                    assert!(is_good || commuted == REFUSED, "{scheme}, {age}");
                }
            }
        }
    }
}

/// A scheme, mostly a good one.
fn any_scheme(random: &mut Generator) -> u32 {
    let good = random.pick(&SCHEMES);
    let near = good - 1 + random.within(0..=2);
    let any = random.next() as u32;
    random.pick(&[good, good, good, good, good, near, good | any << 16, any])
}

/// An age, mostly a good one.
fn any_age(random: &mut Generator) -> u32 {
    let good = random.within(AGES);
    let near = random.within(57..=102);
    let any = random.next() as u32;
    random.pick(&[good, good, good, good, near, near, good | any << 8, any])
}

/// A pension of any size, mostly a good one.
fn any_pension(random: &mut Generator) -> u64 {
    let good = u64::from(random.within(0..=MOST as u32));
    let small = good % 1_000;
    let near = MOST - 3 + u64::from(random.within(0..=6));
    let any = random.next() >> random.below(64);
    random.pick(&[good, good, good, small, small, near, good | any << 32, any])
}

#[test]
fn random_small_pensions() {
    let mut random = Generator::for_test("random_small_pensions");
    let (mut good, mut refused) = (0, 0);
    for _ in 0..1_000_000 {
        let (scheme, age) = (any_scheme(&mut random), any_age(&mut random));
        let (member, survivor) = (any_pension(&mut random), any_pension(&mut random));
        let commuted = assert_trivial_commutation(scheme, age, member, survivor);
        if commuted.refusal == 0 {
            good += 1;
        } else {
            assert_eq!(commuted, REFUSED);
            refused += 1;
        }
    }
    assert!(good > 100_000 && refused > 100_000, "{good} good and {refused} refused");
}

/// Good arguments only, so that every row comes with pensions of any size.
#[test]
fn random_good_pensions() {
    let mut random = Generator::for_test("random_good_pensions");
    for row in rows() {
        for _ in 0..2_000 {
            let member = u64::from(random.within(1..=MOST as u32)) >> random.below(26);
            let survivor = u64::from(random.within(0..=MOST as u32)) >> random.below(27);
            row.assert_rule(member.max(1), survivor);
        }
    }
}
