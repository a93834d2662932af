//! The edge of the C interface: null pointers of length 0, empty buffers and
//! used lengths beyond any buffer.

mod common;

use cases::fields::plain_case;
use cases::generator::Generator;
use cases::registers::{sound_register, FIRST_NUMBERS, LINE};
use common::guarded::{lend, lend_mut};
use engine::{optional, Checked, Filed, FiledLines, Found, FoundMember, Quote, Written};

/// Used lengths that no empty buffer has.
const BEYOND: [usize; 7] =
    [1, LINE, 2 * LINE, usize::MAX / LINE * LINE, usize::MAX / 2, usize::MAX - 1, usize::MAX];

const BAD_REGISTER: Filed = Filed { refusal: 11, used: 0 };
const NO_SPACE: Filed = Filed { refusal: 12, used: 0 };
const EMPTY_LINE: Filed = Filed { refusal: 2, used: 0 };
const ABSENT: Found = Found { refusal: 14, offset: 0, length: 0 };
const NOT_FOUND_IN_BAD_REGISTER: Found = Found { refusal: 11, offset: 0, length: 0 };
const NO_MEMBER: FoundMember = FoundMember { refusal: 14, offset: 0, length: 0, compared: 0 };
const NO_MEMBER_IN_BAD_REGISTER: FoundMember = FoundMember { refusal: 11, ..NO_MEMBER };
const JOINED_NOTHING: Written = Written { refusal: 0, used: 0 };
const NOT_JOINED_WITH_BAD_REGISTER: Written = Written { refusal: 11, used: 0 };
const NO_ROOM_TO_JOIN: Written = Written { refusal: 17, used: 0 };

/// An empty buffer in each way it can be lent: no pointer, and one to nothing.
fn nothing() -> [Option<&'static [u8]>; 2] {
    [None, Some(&[])]
}

#[test]
fn quoting_nothing() {
    for line in nothing() {
        assert_eq!(optional::quote(line), Quote { refusal: 2, ..Quote::default() });
    }
}

#[test]
fn checking_nothing() {
    for register in nothing() {
        assert_eq!(optional::check(register, 0), Checked { refusal: 0, offset: 0 });
        for used in BEYOND {
            assert_eq!(optional::check(register, used), Checked { refusal: 11, offset: used });
        }
    }
}

#[test]
fn finding_in_nothing() {
    for register in nothing() {
        for wanted in [0, 1, u32::MAX] {
            assert_eq!(optional::find_number(register, 0, wanted), ABSENT);
            assert_eq!(optional::find_member(register, 0, wanted), NO_MEMBER);
            for used in BEYOND {
                let found = optional::find_number(register, used, wanted);
                assert_eq!(found, NOT_FOUND_IN_BAD_REGISTER);
                let found = optional::find_member(register, used, wanted);
                assert_eq!(found, NO_MEMBER_IN_BAD_REGISTER);
            }
        }
    }
}

#[test]
fn filing_into_nothing() {
    let good = plain_case(&[1]).line();
    for is_null in [true, false] {
        let register = || if is_null { None } else { Some(&mut [][..]) };
        for first in FIRST_NUMBERS {
            lend(&good, |line| {
                assert_eq!(optional::file(register(), 0, first, Some(line)), NO_SPACE);
                for used in BEYOND {
                    assert_eq!(optional::file(register(), used, first, Some(line)), BAD_REGISTER);
                }
            });
            for line in nothing() {
                assert_eq!(optional::file(register(), 0, first, line), EMPTY_LINE);
                assert_eq!(optional::file(register(), usize::MAX, first, line), EMPTY_LINE);
            }
        }
    }
}

#[test]
fn filing_nothing() {
    let before = [0x5A; 2 * LINE];
    for line in nothing() {
        for used in [0, LINE, 2 * LINE, 2 * LINE + 1, usize::MAX] {
            for first in FIRST_NUMBERS {
                let (filed, after) =
                    lend_mut(&before, |register| optional::file(Some(register), used, first, line));
                assert_eq!(filed, EMPTY_LINE);
                assert_eq!(after, before);
            }
        }
    }
}

#[test]
fn filing_with_a_used_length_beyond() {
    let good = plain_case(&[1, 1, 1, 1]).line();
    for length in [1, LINE - 1, LINE, 2 * LINE, 400] {
        let before = vec![b'0'; length];
        for used in BEYOND.into_iter().chain([length + 1]).filter(|&used| used > length) {
            for first in FIRST_NUMBERS {
                let (filed, after) =
                    lend_mut(&before, |register| engine::file(register, used, first, &good));
                assert_eq!(filed, BAD_REGISTER);
                assert_eq!(after, before);
            }
        }
    }
}

/// A text of a good line and a blank one.
fn good_and_blank() -> Vec<u8> {
    [plain_case(&[1]).line(), b"\n\n".to_vec()].concat()
}

#[test]
fn filing_texts_with_buffers_missing() {
    for first in FIRST_NUMBERS {
        assert_texts_with_buffers_missing(first, &good_and_blank());
    }
    assert_eq!(engine::file_all(&mut [], 1, &[], &mut []), 0);
}

fn assert_texts_with_buffers_missing(first: u32, text: &[u8]) {
    // No register: both lines are refused, for want of room and of a case.
    let (used, refusals) = lend_mut(&[0xEE; 3], |refusals| {
        optional::file_all(None, first, Some(text), Some(refusals))
    });
    assert_eq!((used, refusals), (0, vec![12, 2, 0xEE]));
    // No room for refusals.
    let (used, register) = lend_mut(&[0xEE; LINE + 9], |register| {
        optional::file_all(Some(register), first, Some(text), None)
    });
    assert_eq!(used, LINE);
    assert_eq!(register[LINE..], [0xEE; 9]);
    // No text: nothing is written at all.
    for text in nothing() {
        let (used, register) = lend_mut(&[0xEE; 130], |register| {
            let (used, refusals) = lend_mut(&[0xDD; 3], |refusals| {
                optional::file_all(Some(register), first, text, Some(refusals))
            });
            assert_eq!(refusals, [0xDD; 3]);
            used
        });
        assert_eq!((used, register), (0, vec![0xEE; 130]));
    }
    // Neither register nor refusals, and nothing whatever.
    assert_eq!(optional::file_all(None, first, Some(text), None), 0);
    assert_eq!(optional::file_all(None, first, None, None), 0);
}

#[test]
fn filing_lines_with_buffers_missing_or_too_short() {
    for first in FIRST_NUMBERS {
        for used in BEYOND {
            assert_lines_with_buffers_missing(used, first, &good_and_blank());
        }
        let filed = optional::file_lines(None, 0, first, None, None);
        assert_eq!(filed, FiledLines { used: 0, lines: 0 });
    }
}

/// The used length is one that no register here has.
fn assert_lines_with_buffers_missing(used: usize, first: u32, text: &[u8]) {
    let (filed, refusals) = lend_mut(&[0xEE; 3], |refusals| {
        optional::file_lines(None, used, first, Some(text), Some(refusals))
    });
    assert_eq!(filed, FiledLines { used, lines: 2 });
    assert_eq!(refusals, [11, 2, 0xEE]);
    let (filed, register) = lend_mut(&[0x5A; LINE - 1], |register| {
        optional::file_lines(Some(register), used, first, Some(text), None)
    });
    assert_eq!(filed, FiledLines { used, lines: 2 });
    assert_eq!(register, [0x5A; LINE - 1]);
    let filed = optional::file_lines(None, used, first, None, None);
    assert_eq!(filed, FiledLines { used, lines: 0 });
}

/// Two empty registers of no bytes, into a third buffer of none and of some.
#[test]
fn joining_nothing_with_nothing() {
    for (first, second) in nothing().into_iter().flat_map(|one| nothing().map(|other| (one, other)))
    {
        for target in [None, Some(&mut [][..])] {
            assert_eq!(optional::join(first, 0, second, 0, target), JOINED_NOTHING);
        }
        let (joined, target) =
            lend_mut(&[0xEE; 130], |target| optional::join(first, 0, second, 0, Some(target)));
        assert_eq!((joined, target), (JOINED_NOTHING, vec![0xEE; 130]));
        for used in BEYOND {
            for (first_used, second_used) in [(used, 0), (0, used), (used, used)] {
                let join = |target: Option<&mut [u8]>| {
                    optional::join(first, first_used, second, second_used, target)
                };
                assert_eq!(join(None), NOT_JOINED_WITH_BAD_REGISTER);
                let (joined, target) = lend_mut(&[0xEE; LINE], |target| join(Some(target)));
                assert_eq!(joined, NOT_JOINED_WITH_BAD_REGISTER);
                assert_eq!(target, [0xEE; LINE]);
            }
        }
    }
}

/// A register of two lines with one of no bytes, in both orders: it is given back,
/// and has no room in a third buffer of no bytes.
#[test]
fn joining_lines_with_nothing() {
    let register = sound_register(&mut Generator::for_test("joining_lines_with_nothing"), 2, 77);
    let (lines, used) = (Some(&register[..]), register.len());
    for empty in nothing() {
        let (first, second) = ((lines, used), (empty, 0));
        for ((first, first_used), (second, second_used)) in [(first, second), (second, first)] {
            let join = |target: Option<&mut [u8]>| {
                optional::join(first, first_used, second, second_used, target)
            };
            assert_eq!(join(None), NO_ROOM_TO_JOIN);
            assert_eq!(join(Some(&mut [])), NO_ROOM_TO_JOIN);
            let (joined, target) = lend_mut(&vec![0xEE; used + 9], |target| join(Some(target)));
            assert_eq!(joined, Written { refusal: 0, used });
            assert_eq!(target, [&register[..], &[0xEE; 9]].concat());
        }
        for used in BEYOND {
            let joined = optional::join(lines, register.len(), empty, used, None);
            assert_eq!(joined, NOT_JOINED_WITH_BAD_REGISTER);
            let joined = optional::join(empty, used, lines, register.len(), None);
            assert_eq!(joined, NOT_JOINED_WITH_BAD_REGISTER);
        }
    }
}
