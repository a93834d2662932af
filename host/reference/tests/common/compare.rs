//! Calls the engine with guarded buffers and asserts that it gives what the
//! reference gives.

use std::thread;

use cases::answers;
use cases::fields::CaseFields;
use cases::registers::LINE;
use engine::{Checked, Commuted, Filed, Found, FoundMember, Quote};

use super::guarded::{lend, lend_mut};

/// The input of a call. It prints itself if the test fails while it lives.
struct Input<'a> {
    register: &'a [u8],
    used: usize,
    /// Given to a filing only.
    first_number: Option<u32>,
    text: &'a [u8],
}

impl Drop for Input<'_> {
    fn drop(&mut self) {
        if thread::panicking() {
            let Input { register, used, first_number, text } = self;
            eprintln!("text: {}", beginning(text));
            if let Some(number) = first_number {
                eprintln!("first number {number} ({number:08X})");
            }
            eprintln!("used {used} of {} bytes: {}", register.len(), beginning(register));
        }
    }
}

/// The beginning of an input that may be megabytes long.
pub fn beginning(bytes: &[u8]) -> String {
    bytes[..bytes.len().min(20_000)].escape_ascii().to_string()
}

/// Quotes a line with both and gives the quote they agree on.
pub fn assert_quote(line: &[u8]) -> Quote {
    let _input = Input { register: &[], used: 0, first_number: None, text: line };
    let quoted = lend(line, engine::quote);
    assert_eq!(quoted, answers::quote(line));
    quoted
}

/// Quotes a case with both and asserts the refusal that the rules give, 0 for
/// none.
pub fn assert_refusal(case: &CaseFields, refusal: u32) {
    let quote = assert_quote(&case.line());
    assert_eq!(quote.refusal, refusal, "{case:?}");
}

/// Checks a register with both and gives what they agree on.
pub fn assert_check(register: &[u8], used: usize) -> Checked {
    let _input = Input { register, used, first_number: None, text: &[] };
    let checked = lend(register, |register| engine::check(register, used));
    assert_eq!(checked, answers::check(register, used));
    checked
}

/// Finds a number with both and gives what they agree on.
pub fn assert_find_number(register: &[u8], used: usize, number: u32) -> Found {
    let _input = Input { register, used, first_number: None, text: &[] };
    let found = lend(register, |register| engine::find_number(register, used, number));
    assert_eq!(found, answers::find_number(register, used, number), "number {number:08X}");
    found
}

/// Finds a member's newest line with both and gives what they agree on. Asserts
/// too that length and count are what the rules give for such a refusal and
/// offset.
pub fn assert_find_member(register: &[u8], used: usize, member: u32) -> FoundMember {
    let _input = Input { register, used, first_number: None, text: &[] };
    let found = lend(register, |register| engine::find_member(register, used, member));
    assert_eq!(found, answers::find_member(register, used, member), "member {member:08X}");
    assert_eq!(found, figures_by_rule(&found, used / LINE), "member {member:08X}");
    found
}

/// What finding a member in a register of some lines gives, by where its newest
/// line is or why there is none.
fn figures_by_rule(found: &FoundMember, lines: usize) -> FoundMember {
    let &FoundMember { refusal, offset, .. } = found;
    let none = FoundMember { refusal, offset: 0, length: 0, compared: 0 };
    match refusal {
        0 => {
            let newer = lines - 1 - offset / LINE;
            FoundMember { refusal, offset, length: LINE, compared: newer + 1 }
        }
        14 => FoundMember { compared: lines, ..none },
        _ => none,
    }
}

/// Commutes a small pension with both and gives what they agree on.
pub fn assert_trivial_commutation(scheme: u32, age: u32, member: u64, survivor: u64) -> Commuted {
    let commuted = engine::trivial_commutation(scheme, age, member, survivor);
    let expected = answers::trivial_commutation(scheme, age, member, survivor);
    assert_eq!(commuted, expected, "scheme {scheme}, age {age}, pensions {member} and {survivor}");
    commuted
}

/// Tests a date with both and gives the fault they agree on, 0 for none.
pub fn assert_date_fault(year: u32, month: u32, day: u32) -> u32 {
    let fault = engine::date_fault(year, month, day);
    let expected = answers::date_fault(year, month, day);
    assert_eq!(fault, expected, "year {year}, month {month}, day {day}");
    fault
}

/// Files a line with both, starting from the same bytes. Asserts that both
/// leave the same bytes, and that none but those of a new line is written.
/// Gives the result and the register afterwards.
pub fn assert_file(
    register: &[u8],
    used: usize,
    first_number: u32,
    line: &[u8],
) -> (Filed, Vec<u8>) {
    let _input = Input { register, used, first_number: Some(first_number), text: line };
    let (filed, after) = lend_mut(register, |register| {
        lend(line, |line| engine::file(register, used, first_number, line))
    });
    let mut expected_after = register.to_vec();
    assert_eq!(filed, answers::file(&mut expected_after, used, first_number, line));
    assert!(after == expected_after, "bytes differ: {}", after.escape_ascii());
    let written = if filed.refusal == 0 { used..filed.used } else { 0..0 };
    assert!(after[..written.start] == register[..written.start], "a byte before was written");
    assert!(after[written.end..] == register[written.end..], "a byte behind was written");
    (filed, after)
}

/// What a list of filings comes to.
#[derive(Clone, Debug, PartialEq, Eq)]
pub struct FiledAll {
    pub used: usize,
    pub register: Vec<u8>,
    pub refusals: Vec<u8>,
}

impl FiledAll {
    fn assert_same(&self, expected: &FiledAll) {
        assert_eq!((self.used, &self.refusals), (expected.used, &expected.refusals));
        assert!(self == expected, "bytes differ: {}", beginning(&self.register));
    }
}

/// Files all lines of a text into an empty register with the engine, by both
/// calls that do so, and with the reference, at once and one by one, and gives
/// what they agree on.
pub fn assert_file_all(
    register: &[u8],
    first_number: u32,
    text: &[u8],
    refusals: &[u8],
) -> FiledAll {
    let _input = Input { register, used: 0, first_number: Some(first_number), text };
    let ((used, refusals_after), register_after) = lend_mut(register, |register| {
        lend(text, |text| {
            lend_mut(refusals, |refusals| engine::file_all(register, first_number, text, refusals))
        })
    });
    let filed = FiledAll { used, register: register_after, refusals: refusals_after };
    filed.assert_same(&assert_file_lines(register, 0, first_number, text, refusals));
    filed.assert_same(&file_at_once(register, first_number, text, refusals));
    filed
}

/// Files the lines of a text behind the used part of a register with the
/// engine and, one by one, with the reference, and gives what they agree on.
pub fn assert_file_lines(
    register: &[u8],
    used: usize,
    first_number: u32,
    text: &[u8],
    refusals: &[u8],
) -> FiledAll {
    let _input = Input { register, used, first_number: Some(first_number), text };
    let ((answer, refusals_after), register_after) = lend_mut(register, |register| {
        lend(text, |text| {
            lend_mut(refusals, |refusals| {
                engine::file_lines(register, used, first_number, text, refusals)
            })
        })
    });
    let filed = FiledAll { used: answer.used, register: register_after, refusals: refusals_after };
    filed.assert_same(&file_one_by_one(register, used, first_number, text, refusals));
    assert_eq!(answer.lines, lines_of(text).len());
    filed
}

/// The lines of a text. Nothing stands behind the last newline.
fn lines_of(text: &[u8]) -> Vec<&[u8]> {
    let mut lines: Vec<&[u8]> = text.split(|&character| character == b'\n').collect();
    if lines.last().is_some_and(|line| line.is_empty()) {
        lines.pop();
    }
    lines
}

/// Files all lines of a text with the reference, by one call.
fn file_at_once(register: &[u8], first_number: u32, text: &[u8], refusals: &[u8]) -> FiledAll {
    let (mut register, mut refusals) = (register.to_vec(), refusals.to_vec());
    let used = reference::register::file_all(&mut register, first_number, text, &mut refusals);
    FiledAll { used, register, refusals }
}

/// Files each line of a text with the reference, by a call of its own.
fn file_one_by_one(
    register: &[u8],
    used: usize,
    first_number: u32,
    text: &[u8],
    refusals: &[u8],
) -> FiledAll {
    let mut all = FiledAll { used, register: register.to_vec(), refusals: refusals.to_vec() };
    for (place, line) in lines_of(text).into_iter().enumerate() {
        let filed = reference::register::file(&mut all.register, all.used, first_number, line);
        let refusal = match filed {
            Ok(used) => {
                all.used = used;
                0
            }
            Err(refusal) => refusal.number(),
        };
        if let Some(room) = all.refusals.get_mut(place) {
            *room = refusal;
        }
    }
    all
}
