//! The used part of the lump sum allowance that a case line may end with: its
//! length, its characters, and when it is looked at. Engine against reference.

mod common;

use std::ops::Range;

use cases::allowances::{allowance_case, DAYS, USED};
use cases::fields::{break_rule, breakable_case, plain_case};
use cases::generator::Generator;
use cases::random::{good_case_on, kind_lists};
use common::compare::{assert_quote, assert_refusal};
use reference::calendar::Date;

const FIRST_DAY: Date = Date::new(2024, 4, 6);
const DAY_BEFORE: Date = Date::new(2024, 4, 5);

/// Digits for lines of every length: pension after pension, all good.
fn good_digits(commencement: Date) -> Vec<u8> {
    let mut case = plain_case(&[1; 6]);
    case.commencement = commencement;
    case.line()
}

/// Where the count of pensions stands in a line.
const COUNT: Range<usize> = 24..26;

#[test]
fn every_length_with_every_count() {
    let lengths = [70, 78, 114, 122, 158, 166, 202, 210];
    for commencement in [DAY_BEFORE, FIRST_DAY] {
        let digits = good_digits(commencement);
        for length in 0..=260 {
            for count in (0..=5).chain([255]) {
                let mut line = digits[..length].to_vec();
                if let Some(place) = line.get_mut(COUNT) {
                    place.copy_from_slice(format!("{count:02X}").as_bytes());
                }
                let agrees = lengths.iter().position(|&good| good == length);
                let is_good = agrees.is_some_and(|place| place / 2 + 1 == count);
                let refusal = assert_quote(&line).refusal;
                assert_eq!(refusal, if is_good { 0 } else { 2 }, "{length}, count {count}");
            }
        }
    }
}

/// Characters next to the digits, and others that are none.
const BAD: &[u8] = b"/:@G`agf \r\n\t\0\x7F\x80\xB0\xC1\xFF";

/// A character that is no digit is refused wherever it stands in the field, be
/// the field looked at or not, and so it is in a line of another length.
#[test]
fn bad_characters_in_the_field() {
    for commencement in [DAY_BEFORE, FIRST_DAY] {
        for count in 1..=4 {
            let mut case = plain_case(&vec![1; count]);
            case.commencement = commencement;
            case.used_allowance = Some(0x0123_4567);
            let line = case.line();
            for place in line.len() - 8..line.len() {
                for &character in BAD {
                    let mut bad = line.clone();
                    bad[place] = character;
                    assert_eq!(assert_quote(&bad).refusal, 1);
                    assert_eq!(assert_quote(&bad[..=place]).refusal, 1);
                    assert_eq!(assert_quote(&[&bad[..], b"0"].concat()).refusal, 1);
                }
                for &digit in b"0123456789ABCDEF" {
                    let mut other = line.clone();
                    other[place] = digit;
                    assert_eq!(assert_quote(&other).refusal, 0);
                }
            }
        }
    }
}

/// A field that lacks characters, has some too many, or stands there twice.
#[test]
fn damaged_fields() {
    for commencement in [DAY_BEFORE, FIRST_DAY] {
        for count in 1..=4 {
            let mut case = plain_case(&vec![1; count]);
            case.commencement = commencement;
            let line = case.line();
            for field in 0..=60 {
                let extended = [&line[..], &vec![b'7'; field]].concat();
                let refusal = if field == 0 || field == 8 { 0 } else { 2 };
                assert_eq!(assert_quote(&extended).refusal, refusal, "{field} characters");
            }
            // The field at another place, where it moves the fields behind it.
            for place in (0..line.len()).step_by(2) {
                assert_quote(&[&line[..place], b"01995AEC", &line[place..]].concat());
            }
            // As many characters missing as the field has.
            assert_eq!(assert_quote(&line[..line.len() - 8]).refusal, 2);
            assert_eq!(assert_quote(&line[8..]).refusal, 2);
        }
    }
}

/// Every other refusal comes with the field as without.
#[test]
fn refusals_with_the_field() {
    for used in USED {
        for refusal in 1..=10 {
            for count in 1..=4 {
                let mut case = breakable_case(count);
                case.used_allowance = used;
                assert_refusal(&case, 0);
                break_rule(&mut case, refusal, count - 1);
                assert_refusal(&case, refusal);
            }
        }
    }
}

/// A line of a length that states no used amount has the whole allowance, as
/// one that states 0.
#[test]
fn old_lengths_mean_nothing_used() {
    let mut random = Generator::for_test("old_lengths_mean_nothing_used");
    let mut cut = 0;
    for kinds in kind_lists() {
        for _ in 0..200 {
            let mut case = allowance_case(&mut random, &kinds);
            case.used_allowance = None;
            let without_field = assert_quote(&case.line());
            case.used_allowance = Some(0);
            assert_eq!(assert_quote(&case.line()), without_field);
            cut += usize::from(without_field.total == 26_827_500);
        }
    }
    assert!(cut > 500, "{cut} cases have the whole allowance");
}

/// Before the first day no used amount makes a difference.
#[test]
fn early_commencements_ignore_the_field() {
    let mut random = Generator::for_test("early_commencements_ignore_the_field");
    for kinds in kind_lists() {
        for day in DAYS.into_iter().filter(|&day| day < FIRST_DAY) {
            let mut case = good_case_on(&mut random, &kinds, day);
            case.pensions[0].yearly = 12_500_000;
            case.pensions[1..].iter_mut().for_each(|pension| pension.yearly = 12_000_000);
            let without_field = assert_quote(&case.line());
            assert_eq!(without_field.refusal, 0);
            let any = random.next() as u32;
            for used in USED.into_iter().chain([Some(any)]) {
                case.used_allowance = used;
                assert_eq!(assert_quote(&case.line()), without_field);
            }
        }
    }
}
