//! Quotes of random, changed and damaged case lines, engine against reference.

mod common;

use cases::allowances::{allowance_case, any_allowance_case};
use cases::fields::CaseFields;
use cases::generator::Generator;
use cases::random::{any_case, good_case, kind_lists};
use common::compare::{assert_quote, assert_refusal};
use reference::calendar::Date;
use reference::case_line::{characters, characters_with_used, MOST_CHARACTERS};

#[test]
fn good_cases_of_every_kind_and_count() {
    let mut random = Generator::for_test("good_cases_of_every_kind_and_count");
    for kinds in kind_lists() {
        for _ in 0..5_000 {
            let case = good_case(&mut random, &kinds);
            assert_refusal(&case, 0);
            let case = allowance_case(&mut random, &kinds);
            assert_refusal(&case, 0);
        }
    }
}

/// Good cases in which a field or two are changed to any value or one near an
/// end of some list.
#[test]
fn good_cases_with_changed_fields() {
    let mut random = Generator::for_test("good_cases_with_changed_fields");
    for _ in 0..600_000 {
        let mut case = any_good_case(&mut random);
        for _ in 0..=random.below(2) {
            change_field(&mut random, &mut case);
        }
        assert_quote(&case.line());
    }
}

/// A good case, at the lump sum allowance or anywhere.
fn any_good_case(random: &mut Generator) -> CaseFields {
    if random.once_in(2) {
        any_case(random)
    } else {
        any_allowance_case(random)
    }
}

fn change_field(random: &mut Generator, case: &mut CaseFields) {
    let place = random.below(case.pensions.len());
    let any = random.next();
    let number =
        random.pick(&[0, 1, 2, 499, 500, 1000, 1001, 4000, 4001, 10_000, 10_001, any as u16]);
    let date = random_date(random);
    let pension = &mut case.pensions[place];
    match random.below(13) {
        0 => pension.kind = (any % 5) as u8,
        1 => pension.yearly = random.pick(&[0, 1, 50_000_000, 50_000_001, any as u32]),
        2 => pension.start = date,
        3 => pension.end = date,
        4 => pension.lift = (any % 3) as u8,
        5 => pension.f1 = number,
        6 => pension.f2 = number,
        7 => pension.f3 = number,
        8 => pension.increase = number,
        9 => case.birth = date,
        10 => case.commencement = date,
        11 => case.used_allowance = random.pick(&[None, Some(0), Some(any as u32)]),
        _ => case.count = (any % 6) as u8,
    }
}

/// A date that is mostly in the calendar.
fn random_date(random: &mut Generator) -> Date {
    let year = random.within(1899..=2200) as u16;
    Date::new(year, random.within(0..=13) as u8, random.within(0..=32) as u8)
}

#[test]
fn random_characters_of_every_short_length() {
    let mut random = Generator::for_test("random_characters_of_every_short_length");
    for length in 0..=420 {
        for _ in 0..20 {
            assert_quote(&random.bytes(length));
            let mut digits = random.digits(length);
            assert_quote(&digits);
            if length > 0 {
                digits[random.below(length)] = random.byte();
                assert_quote(&digits);
            }
        }
    }
}

/// Characters to put into good lines: digits, their neighbours and other bytes.
const CHARACTERS: &[u8] = b"019AF/:@Ggaf \r\n\t\0\x7F\x80\xB0\xFF";

#[test]
fn good_lines_with_one_other_character() {
    let mut random = Generator::for_test("good_lines_with_one_other_character");
    for kinds in
        kind_lists().into_iter().filter(|kinds| kinds.len() == 1 || kinds.ends_with(&[1, 2]))
    {
        for round in 0..4 {
            let mut case = good_case(&mut random, &kinds);
            case.used_allowance = [None, None, Some(0), Some(20_000_000)][round];
            let line = case.line();
            for place in 0..line.len() {
                for &character in CHARACTERS {
                    let mut other = line.clone();
                    other[place] = character;
                    assert_quote(&other);
                }
            }
        }
    }
}

#[test]
fn good_lines_cut_and_extended() {
    let mut random = Generator::for_test("good_lines_cut_and_extended");
    for kinds in kind_lists() {
        let line = good_case(&mut random, &kinds).line();
        for length in 0..line.len() {
            let quote = assert_quote(&line[..length]);
            assert_eq!(quote.refusal, 2);
        }
        for &character in CHARACTERS {
            let quote = assert_quote(&[&line[..], &[character]].concat());
            assert!(quote.refusal == 1 || quote.refusal == 2);
            assert_quote(&[&[character], &line[..]].concat());
        }
        // A whole further pension, which the count does not know of.
        let further = random.digits(characters(1) - characters(0));
        assert_quote(&[line, further].concat());
    }
}

/// Lines that end with a used amount: cut down to the old length they are good
/// too, and cut or extended to any other length they are not.
#[test]
fn good_lines_with_a_used_amount_cut_and_extended() {
    let mut random = Generator::for_test("good_lines_with_a_used_amount_cut_and_extended");
    for kinds in kind_lists() {
        let mut case = good_case(&mut random, &kinds);
        case.used_allowance = Some(random.next() as u32);
        let line = case.line();
        let old_length = characters(kinds.len());
        assert_eq!(line.len(), characters_with_used(kinds.len()));
        for length in 0..=line.len() {
            let is_good = length == old_length || length == line.len();
            assert_eq!(assert_quote(&line[..length]).refusal, if is_good { 0 } else { 2 });
        }
        for further in 1..=60 {
            let digits = random.digits(further);
            assert_eq!(assert_quote(&[&line[..], &digits].concat()).refusal, 2);
        }
    }
}

/// Long lines are refused for their length, or for a bad character anywhere.
#[test]
fn long_lines() {
    for length in [MOST_CHARACTERS + 1, 1_000, 65_536, 1 << 20] {
        let mut line = vec![b'A'; length];
        assert_eq!(assert_quote(&line).refusal, 2);
        for place in [0, length / 2, length - 1] {
            line[place] = b'a';
            assert_eq!(assert_quote(&line).refusal, 1);
            line[place] = b'A';
        }
    }
}
