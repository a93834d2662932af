//! Pairs of registers to join: runs of one file that two offices share, and what
//! can be wrong with them.

use std::iter;
use std::ops::Range;

use reference::hexadecimal::NUMBER_DIGITS;
use reference::register::LINE_DIGITS;

use crate::generator::Generator;
use crate::registers::{set_number, sound_register, LINE};

/// A register as it is lent: bytes, and how many of them are used.
#[derive(Clone, Debug, PartialEq, Eq)]
pub struct Lent {
    pub bytes: Vec<u8>,
    pub used: usize,
}

impl Lent {
    /// A register that is used to its last byte.
    pub fn whole(lines: &[u8]) -> Lent {
        Lent { bytes: lines.to_vec(), used: lines.len() }
    }

    /// The lines of a file at some places, counted from 0.
    pub fn run(file: &[u8], places: &Range<usize>) -> Lent {
        Lent::whole(&file[places.start * LINE..places.end * LINE])
    }

    /// The same register with free bytes behind its lines.
    pub fn with_free(mut self, free: &[u8]) -> Lent {
        self.bytes.extend_from_slice(free);
        self
    }
}

/// How the numbers of two registers stand to each other, in either order.
#[derive(Clone, Copy, Debug, PartialEq, Eq, PartialOrd, Ord)]
pub enum Position {
    BothEmpty,
    OneEmpty,
    Equal,
    /// One has all numbers of the other, and more.
    Containing,
    /// Some numbers are common, and each has others.
    Overlapping,
    /// No number is common, and none lies between.
    Touching,
    /// Numbers lie between.
    Apart,
}

/// Every position.
pub const POSITIONS: [Position; 7] = [
    Position::BothEmpty,
    Position::OneEmpty,
    Position::Equal,
    Position::Containing,
    Position::Overlapping,
    Position::Touching,
    Position::Apart,
];

impl Position {
    /// The position of two runs of a file, by their places in it.
    pub fn of(first: &Range<usize>, second: &Range<usize>) -> Position {
        let common = common_places(first, second).len();
        match (first.len().min(second.len()), first.len().max(second.len())) {
            (0, 0) => Position::BothEmpty,
            (0, _) => Position::OneEmpty,
            (_, longer) if common == longer => Position::Equal,
            (shorter, _) if common == shorter => Position::Containing,
            _ if common > 0 => Position::Overlapping,
            _ if first.end == second.start || second.end == first.start => Position::Touching,
            _ => Position::Apart,
        }
    }
}

/// The places that two runs of a file have in common.
pub fn common_places(first: &Range<usize>, second: &Range<usize>) -> Range<usize> {
    first.start.max(second.start)..first.end.min(second.end)
}

/// Every run of a file of some lines, with one empty run.
pub fn runs(lines: usize) -> Vec<Range<usize>> {
    let runs = (0..lines).flat_map(|start| (start + 1..=lines).map(move |end| start..end));
    runs.chain(iter::once(0..0)).collect()
}

/// The places from the lower first to the higher last of two runs of a file. An
/// empty run has neither.
pub fn joined_places(first: &Range<usize>, second: &Range<usize>) -> Range<usize> {
    match (first.is_empty(), second.is_empty()) {
        (true, _) => second.clone(),
        (_, true) => first.clone(),
        _ => first.start.min(second.start)..first.end.max(second.end),
    }
}

/// What can make a register bad.
#[derive(Clone, Copy, Debug, PartialEq, Eq, PartialOrd, Ord)]
pub enum Damage {
    Character,
    Number,
    UsedLength,
}

/// Every damage.
pub const DAMAGES: [Damage; 3] = [Damage::Character, Damage::Number, Damage::UsedLength];

/// Damages a sound register at any place. One without lines has but its used
/// length to damage, whatever was asked for.
pub fn damage(random: &mut Generator, register: &mut Lent, damage: Damage) {
    let Lent { bytes, used } = register;
    let lines = *used / LINE;
    match damage {
        Damage::Character if lines > 0 => {
            let place = random.below(*used);
            bytes[place] = random.pick(b"a\0\rG/:@ \x80\xFF");
        }
        // The number that no line has, or that of the line before.
        Damage::Number if lines > 0 => match random.below(lines) {
            0 => set_number(bytes, 0, 0),
            line => {
                let before = (line - 1) * LINE;
                bytes.copy_within(before..before + NUMBER_DIGITS, line * LINE);
            }
        },
        _ => *used = random.pick(&bad_used_lengths(bytes.len(), *used)),
    }
}

/// Used lengths that are bad for a buffer, in place of one that is good: no
/// multiples of a line's length, or above the buffer.
pub fn bad_used_lengths(length: usize, used: usize) -> [usize; 8] {
    let multiple_above = (length / LINE + 1) * LINE;
    let greatest_multiple = usize::MAX / LINE * LINE;
    [
        used + 1,
        used + LINE - 1,
        length + 1,
        multiple_above,
        multiple_above + LINE,
        greatest_multiple,
        usize::MAX / 2 + 1,
        usize::MAX,
    ]
}

/// Gives a line of a register another digit behind its number, so that it is
/// unlike what it was, and sound.
pub fn make_unlike(random: &mut Generator, register: &mut [u8], line: usize) {
    let place = NUMBER_DIGITS + random.below(LINE_DIGITS - NUMBER_DIGITS);
    change_digit(random, &mut register[line * LINE + place]);
}

/// Puts another digit in the place of one.
pub fn change_digit(random: &mut Generator, digit: &mut u8) {
    let before = *digit;
    while *digit == before {
        *digit = random.digits(1)[0];
    }
}

/// Two registers to join, and what they are.
#[derive(Clone, Debug)]
pub struct Pair {
    pub registers: [Lent; 2],
    /// Their places in the file that both are runs of.
    pub places: [Range<usize>; 2],
    /// Whether a common number has unlike lines.
    pub is_unlike: bool,
    pub damages: [Option<Damage>; 2],
}

/// Any two runs of a short file, unlike or damaged now and then.
pub fn any_pair(random: &mut Generator) -> Pair {
    let lines = 1 + random.below(6);
    let latest = u32::MAX - (lines as u32 - 1);
    let first = random.pick(&[1, 0x99, 0x0FFF_FFFE, 0x7FFF_FFFE, 202_300_001, latest]);
    let file = sound_register(random, lines, first);
    let places = [any_run(random, lines), any_run(random, lines)];
    let registers = [0, 1].map(|side| lent_with_any_free(random, &file, &places[side]));
    let mut pair = Pair { registers, places, is_unlike: false, damages: [None; 2] };
    if random.once_in(3) {
        pair.make_unlike(random);
    }
    for side in [0, 1] {
        if random.once_in(6) {
            pair.damage(random, side);
        }
    }
    pair
}

impl Pair {
    /// The position of the two to each other, before any damage.
    pub fn position(&self) -> Position {
        let [first, second] = &self.places;
        Position::of(first, second)
    }

    /// Makes the lines of a common number unlike, if there is one.
    fn make_unlike(&mut self, random: &mut Generator) {
        let common = common_places(&self.places[0], &self.places[1]);
        if common.is_empty() {
            return;
        }
        let place = common.start + random.below(common.len());
        let side = random.below(2);
        let line = place - self.places[side].start;
        make_unlike(random, &mut self.registers[side].bytes, line);
        self.is_unlike = true;
    }

    /// Damages one of the two.
    fn damage(&mut self, random: &mut Generator, side: usize) {
        let has_lines = !self.places[side].is_empty();
        let kind = if has_lines { random.pick(&DAMAGES) } else { Damage::UsedLength };
        damage(random, &mut self.registers[side], kind);
        self.damages[side] = Some(kind);
    }
}

fn any_run(random: &mut Generator, lines: usize) -> Range<usize> {
    let runs = runs(lines);
    runs[random.below(runs.len())].clone()
}

/// A run of a file with nothing behind it, bytes of any kind, or the lines that
/// come next in the file.
fn lent_with_any_free(random: &mut Generator, file: &[u8], places: &Range<usize>) -> Lent {
    let free = match random.below(3) {
        0 => Vec::new(),
        1 => {
            let length = random.below(LINE + 10);
            random.bytes(length)
        }
        _ => file[places.end * LINE..].to_vec(),
    };
    Lent::run(file, places).with_free(&free)
}
