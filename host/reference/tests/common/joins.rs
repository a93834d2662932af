//! Two registers joined by the engine, by the reference, and by a plain statement
//! of the rules over maps of numbers to lines, each held against the others.

use std::collections::BTreeMap;
use std::thread;

use cases::answers;
use cases::pairs::Lent;
use cases::registers::LINE;
use engine::Written;

use super::compare::{assert_check, beginning};
use super::guarded::{lend, lend_mut};

/// The lines of a sound register by their numbers. Numbers have room to go past
/// eight digits, so that none wraps.
type LinesByNumber = BTreeMap<u64, Vec<u8>>;

/// What joining comes to: the answer, and the third buffer afterwards.
#[derive(Clone, Debug, PartialEq, Eq)]
pub struct Joined {
    pub written: Written,
    pub target: Vec<u8>,
}

impl Joined {
    /// The result, up to its used length.
    pub fn result(&self) -> &[u8] {
        &self.target[..self.written.used]
    }
}

/// The input of a call. It prints itself if the test fails while it lives.
struct Input<'a> {
    registers: [&'a Lent; 2],
    target: &'a [u8],
}

impl Drop for Input<'_> {
    fn drop(&mut self) {
        if thread::panicking() {
            for Lent { bytes, used } in self.registers {
                eprintln!("used {used} of {} bytes: {}", bytes.len(), beginning(bytes));
            }
            eprintln!("into {} bytes: {}", self.target.len(), beginning(self.target));
        }
    }
}

/// Joins two registers in both orders, with the engine, with the reference and by
/// the rules, and gives what all agree on. Asserts that the sources stay, that no
/// byte past the result is written and none under a refusal, and that a result is
/// sound.
pub fn assert_join(first: &Lent, second: &Lent, target: &[u8]) -> Joined {
    let _input = Input { registers: [first, second], target };
    let expected = joined_by_rule(first, second, target);
    for (first, second) in [(first, second), (second, first)] {
        assert_same(&joined_by_reference(first, second, target), &expected, "reference");
        assert_same(&joined_by_engine(first, second, target), &expected, "engine");
    }
    let Joined { written: Written { refusal, used }, target: after } = &expected;
    assert!(*refusal == 0 || *used == 0);
    assert!(after[*used..] == target[*used..], "a byte past the result was written");
    assert_eq!(assert_check(after, *used).refusal, 0);
    expected
}

/// Joins two registers and asserts the refusal that the rules give.
pub fn assert_not_joined(first: &Lent, second: &Lent, target: &[u8], refusal: u32) {
    let joined = assert_join(first, second, target);
    assert_eq!(joined.written, Written { refusal, used: 0 });
    assert!(joined.target == target, "the third buffer was written");
}

/// Joins two registers and asserts the lines of the result.
pub fn assert_joined(first: &Lent, second: &Lent, target: &[u8], lines: &[u8]) {
    let joined = assert_join(first, second, target);
    assert_eq!(joined.written, Written { refusal: 0, used: lines.len() });
    assert!(joined.result() == lines, "other lines: {}", beginning(joined.result()));
}

fn assert_same(joined: &Joined, expected: &Joined, by: &str) {
    assert_eq!(joined.written, expected.written, "by the {by}");
    let after = beginning(&joined.target);
    assert!(joined.target == expected.target, "bytes differ by the {by}: {after}");
}

fn joined_by_engine(first: &Lent, second: &Lent, target: &[u8]) -> Joined {
    let (written, target) = lend_mut(target, |target| {
        lend(&first.bytes, |first_bytes| {
            lend(&second.bytes, |second_bytes| {
                engine::join(first_bytes, first.used, second_bytes, second.used, target)
            })
        })
    });
    Joined { written, target }
}

/// What the reference gives.
pub fn joined_by_reference(first: &Lent, second: &Lent, target: &[u8]) -> Joined {
    let mut target = target.to_vec();
    let written = answers::join(&first.bytes, first.used, &second.bytes, second.used, &mut target);
    Joined { written, target }
}

/// What the rules give, said of whole maps.
pub fn joined_by_rule(first: &Lent, second: &Lent, target: &[u8]) -> Joined {
    let refused =
        |refusal| Joined { written: Written { refusal, used: 0 }, target: target.to_vec() };
    let (Some(first), Some(second)) = (lines_by_number(first), lines_by_number(second)) else {
        return refused(11);
    };
    let is_unlike = |number, line| second.get(number).is_some_and(|other| other != line);
    let some_unlike = first.iter().any(|(number, line)| is_unlike(number, line));
    let mut all = first.clone();
    all.extend(second);
    let some_missing = some_missing(&all);
    let lines = all.into_values().collect::<Vec<_>>().concat();
    if some_unlike || some_missing {
        refused(16)
    } else if target.len() < lines.len() {
        refused(17)
    } else {
        let target = [&lines, &target[lines.len()..]].concat();
        Joined { written: Written { refusal: 0, used: lines.len() }, target }
    }
}

/// Whether a number between the first and the last has no line.
fn some_missing(lines: &LinesByNumber) -> bool {
    match (lines.first_key_value(), lines.last_key_value()) {
        (Some((first, _)), Some((last, _))) => lines.len() as u64 != last - first + 1,
        _ => false,
    }
}

/// The lines of a register by their numbers, or none if it is bad.
fn lines_by_number(register: &Lent) -> Option<LinesByNumber> {
    let Lent { bytes, used } = register;
    if *used > bytes.len() || used % LINE != 0 {
        return None;
    }
    let lines = bytes[..*used].chunks(LINE).map(|line| Some((number_of(line)?, line.to_vec())));
    let lines: Vec<(u64, Vec<u8>)> = lines.collect::<Option<_>>()?;
    let starts_well = lines.first().is_none_or(|(number, _)| *number >= 1);
    let rises_by_one = lines.windows(2).all(|pair| pair[1].0 == pair[0].0 + 1);
    (starts_well && rises_by_one).then(|| lines.into_iter().collect())
}

/// The number of a register line, or none if its layout is bad.
fn number_of(line: &[u8]) -> Option<u64> {
    let (newline, digits) = line.split_last()?;
    let are_digits = digits.iter().all(|digit| b"0123456789ABCDEF".contains(digit));
    if *newline != b'\n' || !are_digits {
        return None;
    }
    u64::from_str_radix(str::from_utf8(&digits[..8]).ok()?, 16).ok()
}
