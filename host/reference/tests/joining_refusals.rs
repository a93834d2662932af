//! Joining two registers that can't be joined: bad registers, unlike lines,
//! missing numbers and third buffers that are too short, one at a time and
//! together. Under every refusal the third buffer stays.

mod common;

use std::collections::{BTreeMap, BTreeSet};
use std::ops::Range;

use cases::generator::Generator;
use cases::pairs::{
    any_pair, bad_used_lengths, change_digit, common_places, damage, joined_places, make_unlike,
    Damage, Lent, Pair, Position, DAMAGES, POSITIONS,
};
use cases::registers::{set_number, sound_register, LINE};
use common::book::UNTOUCHED;
use common::joins::{assert_join, assert_joined, assert_not_joined};

/// Bytes that are no digit and no newline, and a newline among digits.
const BAD_CHARACTERS: &[u8] = b"a\0\n\rG/:@ \x80\xFF";

/// Two runs of a file of five lines, in every position in which both have lines.
const POSITIONS_WITH_LINES: [(Range<usize>, Range<usize>); 7] = [
    (1..3, 1..3),
    (0..5, 1..3),
    (0..3, 0..1),
    (0..3, 2..4),
    (0..2, 2..4),
    (2..4, 0..2),
    (0..1, 3..5),
];

/// A third buffer with room for the file of five lines and more.
const TARGET: [u8; 6 * LINE] = [UNTOUCHED; 6 * LINE];

/// Damages every character of either register, one at a time. The line it stands
/// in may be common, of this register alone, or far from the other.
#[test]
fn bad_characters_in_either() {
    let mut random = Generator::for_test("bad_characters_in_either");
    for (one, other) in POSITIONS_WITH_LINES {
        let file = sound_register(&mut random, 5, u32::MAX - 4);
        let (mut first, second) = (Lent::run(&file, &one), Lent::run(&file, &other));
        for offset in 0..first.used {
            let whole = first.bytes[offset];
            for &bad in BAD_CHARACTERS.iter().filter(|&&bad| bad != whole) {
                first.bytes[offset] = bad;
                assert_not_joined(&first, &second, &TARGET, 11);
            }
            first.bytes[offset] = whole;
        }
    }
}

/// The same damage in both registers, so that their lines are equal: a common
/// line is bad all the same.
#[test]
fn equal_damage_in_both() {
    let mut random = Generator::for_test("equal_damage_in_both");
    let file = sound_register(&mut random, 3, 1);
    for offset in 0..file.len() {
        let mut register = Lent::whole(&file);
        register.bytes[offset] = if register.bytes[offset] == b'\n' { b'0' } else { b'\n' };
        assert_not_joined(&register, &register, &TARGET, 11);
        assert_not_joined(&register, &Lent::whole(&file), &TARGET, 11);
        assert_not_joined(&register, &Lent { used: 0, ..register.clone() }, &TARGET, 11);
    }
}

/// Every line of either register with a number next to its own, far off, or 0.
/// With another number a line alone is a sound register, which may be joined.
#[test]
fn wrong_numbers_in_either() {
    let mut random = Generator::for_test("wrong_numbers_in_either");
    for (one, other) in POSITIONS_WITH_LINES {
        let file = sound_register(&mut random, 5, 0x0FFF_FFFD);
        for line in 0..one.len() {
            let right = 0x0FFF_FFFD + (one.start + line) as u32;
            let near = [right - 1, right + 1, right ^ 0x8000_0000, right ^ 0x10];
            for number in near.into_iter().chain([0, 1, u32::MAX]) {
                let mut first = Lent::run(&file, &one);
                set_number(&mut first.bytes, line, number);
                let joined = assert_join(&first, &Lent::run(&file, &other), &TARGET);
                if one.len() > 1 || number == 0 {
                    assert_eq!(joined.written.refusal, 11);
                }
            }
        }
    }
}

/// A register whose lines are not in the order of their numbers is bad, though
/// each of its numbers is there.
#[test]
fn lines_out_of_order() {
    let mut random = Generator::for_test("lines_out_of_order");
    let file = sound_register(&mut random, 4, 10);
    let line = |place: usize| &file[place * LINE..(place + 1) * LINE];
    for order in
        [[1, 0, 2, 3], [0, 2, 1, 3], [3, 2, 1, 0], [0, 1, 1, 2], [0, 1, 3, 3], [1, 2, 3, 0]]
    {
        let mixed = Lent::whole(&order.map(line).concat());
        for other in [0..0, 0..4, 1..2, 3..4] {
            assert_not_joined(&mixed, &Lent::run(&file, &other), &TARGET, 11);
        }
    }
}

/// Bad used lengths of either register, with buffers that end with the lines and
/// later, beside a register with lines, an empty one and a bad one.
#[test]
fn bad_used_lengths_of_either() {
    let mut random = Generator::for_test("bad_used_lengths_of_either");
    let file = sound_register(&mut random, 5, 1);
    for lines in 0..=3 {
        for free in [0, 1, LINE - 1, LINE, 150] {
            let good = Lent::run(&file, &(0..lines)).with_free(&random.bytes(free));
            let length = good.bytes.len();
            for used in bad_used_lengths(length, good.used) {
                let bad = Lent { used, ..good.clone() };
                for other in [Lent::run(&file, &(1..4)), Lent::whole(&[]), bad.clone()] {
                    assert_not_joined(&bad, &other, &TARGET, 11);
                    assert_not_joined(&bad, &other, &[], 11);
                }
            }
        }
    }
}

/// Every digit behind the number of every common line, changed in one register:
/// the lines are unlike, whatever else is common, and both registers are sound.
#[test]
fn unlike_at_every_character() {
    let mut random = Generator::for_test("unlike_at_every_character");
    let joinable = [(1..3, 1..3), (0..5, 1..4), (0..5, 0..1), (0..5, 4..5), (0..4, 1..5)];
    for (one, other) in joinable {
        let file = sound_register(&mut random, 5, 0x99);
        let second = Lent::run(&file, &other);
        for place in common_places(&one, &other) {
            for digit in 8..LINE - 1 {
                let mut first = Lent::run(&file, &one);
                let offset = (place - one.start) * LINE + digit;
                change_digit(&mut random, &mut first.bytes[offset]);
                assert_not_joined(&first, &second, &TARGET, 16);
                assert_not_joined(&first, &second, &[], 16);
            }
        }
    }
}

/// Every digit in the place of every other, so that no two are taken for equal.
#[test]
fn unlike_by_every_digit() {
    let mut random = Generator::for_test("unlike_by_every_digit");
    let file = sound_register(&mut random, 3, 0x99);
    for offset in [LINE + 8, LINE + 15, LINE + 60, 2 * LINE - 2] {
        for digit in *b"0123456789ABCDEF" {
            for other in *b"0123456789ABCDEF" {
                let mut first = Lent::whole(&file);
                first.bytes[offset] = digit;
                let mut second = Lent::run(&file, &(1..3));
                second.bytes[offset - LINE] = other;
                if digit == other {
                    assert_joined(&first, &second, &TARGET, &first.bytes);
                } else {
                    assert_not_joined(&first, &second, &TARGET, 16);
                }
            }
        }
    }
}

/// Lines with a number of one register alone may be anything: no line of the
/// other, of whichever place or member, is held against them.
#[test]
fn other_lines_may_differ() {
    let mut random = Generator::for_test("other_lines_may_differ");
    for (one, other) in [(0..5, 1..3), (0..3, 2..5), (0..2, 2..5)] {
        for _ in 0..50 {
            let mut file = sound_register(&mut random, 5, 0x99);
            let second = Lent::run(&file, &other);
            let common = common_places(&one, &other);
            for place in one.clone().filter(|place| !common.contains(place)) {
                make_unlike(&mut random, &mut file, place);
            }
            assert_joined(&Lent::run(&file, &one), &second, &TARGET, &file);
        }
    }
}

/// One number between is too many, and so are all that there can be. A gap takes
/// no time, however wide.
#[test]
fn numbers_between() {
    let mut random = Generator::for_test("numbers_between");
    for (lines, others) in [(1, 1), (3, 1), (1, 4), (3, 4)] {
        let low = Lent::whole(&sound_register(&mut random, lines, 1));
        let next = lines as u32 + 1;
        let latest = u32::MAX - (others as u32 - 1);
        for first in [next, next + 1, next + 2, next + 9, 0x8000_0000, latest - 1, latest] {
            let high = Lent::whole(&sound_register(&mut random, others, first));
            for length in [0, LINE, TARGET.len() - 1, 7 * LINE, 9 * LINE] {
                let refusal = if first > next {
                    16
                } else if length < low.used + high.used {
                    17
                } else {
                    0
                };
                let joined = assert_join(&low, &high, &vec![UNTOUCHED; length]);
                assert_eq!(joined.written.refusal, refusal);
            }
        }
    }
}

/// What can be wrong at once.
#[derive(Clone, Copy, Debug)]
struct Faults {
    first: Option<Damage>,
    second: Option<Damage>,
    unlike: bool,
    gap: bool,
    too_short: bool,
}

impl Faults {
    /// Every combination. A gap leaves no common number to be unlike.
    fn all() -> Vec<Faults> {
        let damages = [None, Some(DAMAGES[0]), Some(DAMAGES[1]), Some(DAMAGES[2])];
        let mut all = Vec::new();
        for (first, second) in damages.iter().flat_map(|&one| damages.map(|other| (one, other))) {
            for (unlike, gap) in [(false, false), (true, false), (false, true)] {
                for too_short in [false, true] {
                    all.push(Faults { first, second, unlike, gap, too_short });
                }
            }
        }
        all
    }

    /// The lowest refusal that applies.
    fn refusal(&self) -> u32 {
        if self.first.is_some() || self.second.is_some() {
            11
        } else if self.unlike || self.gap {
            16
        } else if self.too_short {
            17
        } else {
            0
        }
    }

    /// Two registers with these faults.
    fn registers(&self, random: &mut Generator) -> [Lent; 2] {
        let file = sound_register(random, 5, 0x99);
        let second = if self.gap { 4..5 } else { 1..5 };
        let mut registers = [Lent::run(&file, &(0..3)), Lent::run(&file, &second)];
        if self.unlike {
            let place = 1 + random.below(2);
            make_unlike(random, &mut registers[0].bytes, place);
        }
        for (register, kind) in registers.iter_mut().zip([self.first, self.second]) {
            if let Some(kind) = kind {
                damage(random, register, kind);
            }
        }
        registers
    }
}

/// Every combination of faults, at many places and in buffers that are too short
/// by any number of bytes: the lowest refusal is given.
#[test]
fn refusals_together() {
    let mut random = Generator::for_test("refusals_together");
    for faults in Faults::all() {
        for _ in 0..40 {
            let [first, second] = faults.registers(&mut random);
            let short = random.below(5 * LINE);
            let lengths = [0, 1, LINE, short, 5 * LINE - 1];
            let length = if faults.too_short { random.pick(&lengths) } else { 5 * LINE };
            let joined = assert_join(&first, &second, &random.bytes(length));
            assert_eq!(joined.written.refusal, faults.refusal(), "{faults:?}");
        }
    }
}

/// Unlike lines are found though the third buffer ends before them, and damage
/// though unlike lines or a gap come before it.
#[test]
fn later_faults_of_lower_refusals() {
    let mut random = Generator::for_test("later_faults_of_lower_refusals");
    let file = sound_register(&mut random, 5, 1);
    let mut unlike = Lent::run(&file, &(0..5));
    make_unlike(&mut random, &mut unlike.bytes, 4);
    for length in 0..=5 * LINE {
        assert_not_joined(&unlike, &Lent::whole(&file), &TARGET[..length], 16);
    }
    make_unlike(&mut random, &mut unlike.bytes, 0);
    let mut damaged = Lent::whole(&file);
    damaged.bytes[5 * LINE - 1] = b'0';
    for length in 0..=5 * LINE {
        assert_not_joined(&unlike, &damaged, &TARGET[..length], 11);
    }
    let far = Lent::whole(&sound_register(&mut random, 1, 9));
    assert_not_joined(&damaged, &far, &TARGET, 11);
}

/// Two long registers with one thing wrong at any place: a bad register, a common
/// line that is unlike, or a third buffer that is one byte too short.
#[test]
fn one_fault_in_long_registers() {
    const LINES: usize = 1_500;
    let mut random = Generator::for_test("one_fault_in_long_registers");
    let file = sound_register(&mut random, LINES, 0x0FFF_FF00);
    let target = vec![UNTOUCHED; LINES * LINE];
    for (one, other) in [(0..1_000, 500..LINES), (0..LINES, 400..401), (0..LINES, 0..LINES)] {
        let (first, second) = (Lent::run(&file, &one), Lent::run(&file, &other));
        assert_joined(&first, &second, &target, &file);
        assert_not_joined(&first, &second, &target[1..], 17);
        for round in 0..60 {
            let mut bad = first.clone();
            damage(&mut random, &mut bad, DAMAGES[round % DAMAGES.len()]);
            assert_not_joined(&bad, &second, &target, 11);
            let common = common_places(&one, &other);
            let place = common.start + random.below(common.len());
            let mut unlike = second.clone();
            make_unlike(&mut random, &mut unlike.bytes, place - other.start);
            assert_not_joined(&first, &unlike, &target, 16);
        }
    }
}

/// What a random pair came to: the position, the damages, and the refusal.
type Outcome = (Position, [bool; 2], u32);

/// A third buffer's length for a pair: just enough, one too few, too few, none,
/// or more than enough.
fn any_length(random: &mut Generator, pair: &Pair) -> usize {
    let [first, second] = &pair.places;
    let enough = joined_places(first, second).len() * LINE;
    let fewer = random.below(enough + 1);
    let more = enough + random.below(300);
    random.pick(&[enough, enough, enough.saturating_sub(1), fewer, 0, more, more])
}

/// The refusal that a pair must get, by what was done to it.
fn refusal_of(pair: &Pair, length: usize) -> u32 {
    let [first, second] = &pair.places;
    if pair.damages.iter().any(Option::is_some) {
        11
    } else if pair.is_unlike || pair.position() == Position::Apart {
        16
    } else if length < joined_places(first, second).len() * LINE {
        17
    } else {
        0
    }
}

/// Any pairs of runs, unlike, damaged, and with too little room now and then.
#[test]
fn pairs_of_any_kind() {
    let mut random = Generator::for_test("pairs_of_any_kind");
    let mut outcomes: BTreeMap<Outcome, usize> = BTreeMap::new();
    let mut damages: BTreeMap<[Option<Damage>; 2], usize> = BTreeMap::new();
    for _ in 0..200_000 {
        let pair = any_pair(&mut random);
        let length = any_length(&mut random, &pair);
        let [first, second] = &pair.registers;
        let joined = assert_join(first, second, &random.bytes(length));
        let refusal = joined.written.refusal;
        assert_eq!(refusal, refusal_of(&pair, length), "{pair:?}");
        let damaged = pair.damages.map(|damage| damage.is_some());
        *outcomes.entry((pair.position(), damaged, refusal)).or_default() += 1;
        *damages.entry(pair.damages).or_default() += 1;
    }
    assert_none_is_missing(&outcomes);
    let least = damages.values().min().expect("pairs");
    assert!(damages.len() == 16 && *least > 100, "{damages:?}");
}

/// Asserts that every outcome came up that a position can have: damage of either
/// register or both with 11, and without damage each refusal that can apply.
fn assert_none_is_missing(outcomes: &BTreeMap<Outcome, usize>) {
    let mut expected = BTreeSet::new();
    for position in POSITIONS {
        for damaged in [[true, false], [false, true], [true, true]] {
            expected.insert((position, damaged, 11));
        }
        let refusals: &[u32] = match position {
            Position::BothEmpty => &[0],
            Position::OneEmpty | Position::Touching => &[0, 17],
            Position::Apart => &[16],
            _ => &[0, 16, 17],
        };
        expected.extend(refusals.iter().map(|&refusal| (position, [false, false], refusal)));
    }
    assert!(outcomes.keys().eq(&expected), "{outcomes:?}");
    let least = outcomes.values().min().expect("pairs");
    assert!(*least > 50, "{outcomes:?}");
}
