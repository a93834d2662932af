//! The reference's joining of two registers by itself, against the rules said over
//! maps of numbers to lines: every two of many small registers.

mod common;

use std::collections::BTreeMap;

use cases::generator::Generator;
use cases::pairs::{any_pair, Lent};
use cases::registers::LINE;
use common::joins::{joined_by_reference, joined_by_rule};

/// Fillings of up to three lines, each with one of two.
const FILLINGS: [&str; 15] =
    ["", "0", "F", "00", "0F", "F0", "FF", "000", "00F", "0F0", "0FF", "F00", "F0F", "FF0", "FFF"];

/// A register of lines that have a number and are filled with a digit. A number
/// behind FFFFFFFF wraps, so that the register is bad.
fn register(first: u32, filling: &str) -> Lent {
    let line = |(place, digit): (u32, char)| {
        let number = first.wrapping_add(place);
        format!("{number:08X}{}\n", digit.to_string().repeat(LINE - 9)).into_bytes()
    };
    let lines: Vec<Vec<u8>> = (0..).zip(filling.chars()).map(line).collect();
    Lent::whole(&lines.concat())
}

/// Compares every two registers in third buffers with room for 0 to 7 lines, and a
/// byte less or more. Gives how often each refusal came.
fn compare_all(registers: &[Lent]) -> BTreeMap<u32, usize> {
    let target: Vec<u8> = (0..7 * LINE + 1).map(|place| place as u8).collect();
    let mut refusals = BTreeMap::new();
    for (first, second) in
        registers.iter().flat_map(|one| registers.iter().map(move |other| (one, other)))
    {
        for lines in 0..=7 {
            for length in [(lines * LINE).saturating_sub(1), lines * LINE, lines * LINE + 1] {
                let joined = joined_by_reference(first, second, &target[..length]);
                let expected = joined_by_rule(first, second, &target[..length]);
                assert!(joined == expected, "{first:?} and {second:?} into {length} bytes");
                *refusals.entry(joined.written.refusal).or_default() += 1;
            }
        }
    }
    refusals
}

/// The lowest numbers, with 0, which no line has.
#[test]
fn registers_of_the_lowest_numbers() {
    let registers: Vec<Lent> =
        (0..=5).flat_map(|first| FILLINGS.map(|filling| register(first, filling))).collect();
    let refusals = compare_all(&registers);
    assert!(refusals.keys().eq(&[0, 11, 16, 17]), "{refusals:?}");
}

/// The highest numbers with some of the lowest, and registers that would wrap.
#[test]
fn registers_of_the_highest_numbers() {
    let firsts = [1, u32::MAX - 4, u32::MAX - 3, u32::MAX - 2, u32::MAX - 1, u32::MAX];
    let registers: Vec<Lent> =
        firsts.iter().flat_map(|&first| FILLINGS.map(|filling| register(first, filling))).collect();
    let refusals = compare_all(&registers);
    assert!(refusals.keys().eq(&[0, 11, 16, 17]), "{refusals:?}");
}

/// Pairs of any kind, damaged ones too.
#[test]
fn pairs_of_any_kind_by_rule() {
    let mut random = Generator::for_test("pairs_of_any_kind_by_rule");
    for _ in 0..100_000 {
        let [first, second] = any_pair(&mut random).registers;
        let length = random.below(7 * LINE);
        let target = random.bytes(length);
        let joined = joined_by_reference(&first, &second, &target);
        assert!(joined == joined_by_rule(&first, &second, &target), "{first:?} and {second:?}");
    }
}
