//! The first number that comes with a filing: the default by the year of
//! commencement, given numbers to the last one, and what leaves it unset. What is
//! expected is worked out here; the engine and the reference are held against it
//! and against each other.

mod common;

use cases::allowances::any_allowance_case;
use cases::fields::{case_between, case_of_year, plain_case, refused_line, CaseFields};
use cases::generator::Generator;
use cases::month_ends::month_end_case;
use cases::random::any_case;
use cases::registers::{
    any_first_number, register_with_room, set_number, sound_register, FIRST_NUMBERS, LINE,
};
use common::book::{assert_list, assert_text, numbers_of, text_from, Filing, UNTOUCHED};
use common::compare::{assert_check, assert_file, assert_file_lines, assert_find_number};
use common::guarded::{lend, lend_mut};
use common::texts::any_line;
use engine::Found;
use reference::calendar::Date;

/// The default first number of a year.
fn default_of(year: u16) -> u32 {
    u32::from(year) * 100_000 + 1
}

/// The number that a case of a year has in an empty register.
fn number_set(first_number: u32, year: u16) -> u32 {
    if first_number == 0 {
        default_of(year)
    } else {
        first_number
    }
}

/// The line of a good case that commences in a year.
fn line_of(year: u16) -> Vec<u8> {
    case_of_year(year).line()
}

/// The lines of good cases that commence in these years.
fn lines_of(years: &[u16]) -> Vec<Vec<u8>> {
    years.iter().map(|&year| line_of(year)).collect()
}

/// A line for each refusal of a case line, from 1 to 10.
fn refused_lines() -> Vec<Vec<u8>> {
    (1..=10).map(refused_line).collect()
}

/// Files a line into an empty register and gives its register line.
fn filed_alone(first_number: u32, line: &[u8]) -> Vec<u8> {
    let (filed, mut after) = assert_file(&[UNTOUCHED; LINE + 9], 0, first_number, line);
    assert_eq!((filed.refusal, filed.used), (0, LINE));
    assert_eq!(assert_check(&after, LINE).refusal, 0);
    after.truncate(LINE);
    after
}

/// Asserts that a case has the default number of a year, and that its register
/// line differs in nothing else from the one with number 1.
fn assert_default(case: &CaseFields, year: u16) {
    let line = case.line();
    let (by_default, from_one) = (filed_alone(0, &line), filed_alone(1, &line));
    assert_eq!(numbers_of(&by_default), [default_of(year)], "{case:?}");
    assert_eq!(numbers_of(&from_one), [1], "{case:?}");
    assert_eq!(by_default[8..], from_one[8..], "{case:?}");
}

/// Every year that a case can commence in: the calendar has births from 1900 on,
/// and the youngest are 18.
#[test]
fn the_default_of_every_year() {
    for year in 1918..=2199 {
        let ages = [18, 30, 54, 60, 75, 99].into_iter().filter(|age| year - age >= 1900);
        for birth in ages.map(|age| Date::new(year - age, 1, 1)) {
            for (month, day) in [(1, 1), (2, 28), (4, 5), (4, 6), (7, 1), (12, 31)] {
                assert_default(&case_between(birth, Date::new(year, month, day)), year);
            }
        }
    }
}

/// The digits of some defaults, as a calculator has them.
#[test]
fn digits_of_defaults() {
    for (year, digits) in
        [(1918, b"0B6EA2C1"), (2000, b"0BEBC201"), (2023, b"0C0EDA61"), (2199, b"0D1B6861")]
    {
        assert_eq!(filed_alone(0, &line_of(year))[..8], *digits);
    }
}

/// In the first years of the calendar everybody born in it is too young, and the
/// years next to it are no years of a case. Nothing is set then: a later filing
/// has its own year's default.
#[test]
fn years_that_no_case_can_commence_in() {
    let too_young = (1900..1918).flat_map(|year| (1900..=year).map(move |born| (born, year, 5)));
    let outside = [(1881, 1899, 3), (1882, 1900, 3), (1899, 1918, 3), (2100, 2200, 3)];
    for (born, year, refusal) in too_young.chain(outside) {
        let line = case_between(Date::new(born, 1, 1), Date::new(year, 12, 31)).line();
        for first_number in [0, 1, u32::MAX] {
            let buffer = [UNTOUCHED; 2 * LINE];
            let (filed, after) = assert_file(&buffer, 0, first_number, &line);
            assert_eq!((filed.refusal, filed.used), (refusal, 0));
            assert_eq!(after, buffer);
            let filings = [(first_number, line.clone()), (0, line_of(2023))];
            assert_eq!(assert_list(&buffer, &filings).numbers(), [202_300_001]);
        }
    }
}

/// A member born in June 1970 with service from June 1988 to June 2018 who takes
/// the pensions in June 2027, each of these years changed by itself.
#[test]
fn only_the_year_of_commencement_decides() {
    let plain = plain_case(&[1, 1, 1, 1]);
    for (field, years) in [(0, 1928..=1987), (1, 2018..=2069), (2, 1971..=2018), (3, 1988..=2027)] {
        for year in years {
            let mut case = plain.clone();
            case.set_date(2, field, Date::new(year, 6, 15));
            assert_default(&case, case.commencement.year);
        }
    }
}

#[test]
fn the_default_of_random_cases() {
    let mut random = Generator::for_test("the_default_of_random_cases");
    for _ in 0..5_000 {
        let case = any_case(&mut random);
        assert_default(&case, case.commencement.year);
        let case = any_allowance_case(&mut random);
        assert_default(&case, case.commencement.year);
        let case = month_end_case(&mut random);
        assert_default(&case, case.commencement.year);
    }
}

/// The first line has the given number, those after it the next, whatever comes
/// with them, and behind FFFFFFFF there is none.
#[test]
fn given_first_numbers() {
    let near_defaults = [202_300_000, 202_300_001, 202_399_999, 202_400_000];
    let given = FIRST_NUMBERS.into_iter().filter(|&number| number != 0);
    for first in given.chain(near_defaults) {
        let filings = [first, 0, 1, u32::MAX].map(|number| (number, line_of(2023)));
        let listed = assert_list(&[UNTOUCHED; 5 * LINE], &filings);
        let granted = (u64::from(u32::MAX - first) + 1).min(4);
        let expected: Vec<u64> = (0..granted).map(|place| u64::from(first) + place).collect();
        let numbers: Vec<u64> = listed.numbers().into_iter().map(u64::from).collect();
        assert_eq!(numbers, expected);
        let refusals: Vec<u32> = (0..4).map(|place| if place < granted { 0 } else { 13 }).collect();
        assert_eq!(listed.refusals, refusals);
    }
}

/// With FFFFFFFF given, the next filing finds no number, and no room where there
/// is none. In an empty register only room can be wanting.
#[test]
fn the_last_number_given_first() {
    let filings = [u32::MAX, 1, 0].map(|number| (number, line_of(2023)));
    for free in [0, 1, LINE - 1, LINE, LINE + 1, 3 * LINE] {
        let listed = assert_list(&vec![UNTOUCHED; LINE + free], &filings);
        let refusal = if free < LINE { 12 } else { 13 };
        assert_eq!(listed.refusals, [0, refusal, refusal]);
        assert_eq!(listed.numbers(), [u32::MAX]);
        assert!(listed.register[LINE..].iter().all(|&byte| byte == UNTOUCHED));
    }
    for length in [0, 1, LINE - 1] {
        assert_eq!(assert_list(&vec![UNTOUCHED; length], &filings).refusals, [12; 3]);
    }
}

/// Filings with 0 alone, some refused: no line has the number 0, and none is found
/// by it.
#[test]
fn zero_is_never_a_number() {
    for year in [1918, 1999, 2024, 2199] {
        for refused in 0..3 {
            let mut lines = refused_lines()[..refused].to_vec();
            lines.extend(lines_of(&[year, year, 2000]));
            let filings: Vec<Filing> = lines.into_iter().map(|line| (0, line)).collect();
            let listed = assert_list(&[UNTOUCHED; 4 * LINE], &filings);
            let first = default_of(year);
            assert_eq!(listed.numbers(), [first, first + 1, first + 2]);
            assert_eq!(assert_find_number(&listed.register, listed.used, 0).refusal, 14);
        }
    }
}

/// The next line has the last number plus one, and is the same to the byte for
/// every first number.
#[test]
fn a_register_that_has_lines_ignores_it() {
    let mut random = Generator::for_test("a_register_that_has_lines_ignores_it");
    for first in [1, 2, 77, 99_999, 202_300_001, 0x7FFF_FFFF, u32::MAX - 5] {
        for lines in [1, 2, 5] {
            let register = register_with_room(&mut random, lines, first, 2 * LINE);
            let (used, last) = (lines * LINE, first + (lines as u32 - 1));
            let line = any_case(&mut random).line();
            let (_, expected) = assert_file(&register, used, 1, &line);
            assert_eq!(numbers_of(&expected[used..used + LINE]), [last + 1]);
            let own = [first, last, last + 1, random.next() as u32, random.next() as u32];
            for first_number in FIRST_NUMBERS.into_iter().chain(own) {
                let (filed, after) = assert_file(&register, used, first_number, &line);
                assert_eq!((filed.refusal, filed.used), (0, used + LINE));
                assert!(after == expected, "first number {first_number}");
            }
        }
    }
}

/// Refused filings first, each with a first number of its own, and more between
/// granted ones of other years.
#[test]
fn refused_filings_set_nothing() {
    for (refusal, refused) in (1..).zip(refused_lines()) {
        for number in FIRST_NUMBERS {
            let filings = [
                (number, refused.clone()),
                (u32::MAX, Vec::new()),
                (9, b"x".to_vec()),
                (0, line_of(1999)),
                (number, line_of(2050)),
                (5, refused.clone()),
                (1, line_of(1918)),
            ];
            let listed = assert_list(&[UNTOUCHED; 4 * LINE], &filings);
            assert_eq!(listed.refusals, [refusal, 2, 1, 0, 0, refusal, 0]);
            assert_eq!(listed.numbers(), [199_900_001, 199_900_002, 199_900_003]);
        }
    }
}

/// Filings refused for want of room set nothing either: in a longer buffer with the
/// same bytes the next one does.
#[test]
fn filings_without_room_set_nothing() {
    for length in [0, 1, 60, LINE - 1] {
        for number in FIRST_NUMBERS {
            let filings = [number, 0, 1, number].map(|number| (number, line_of(2023)));
            let mut listed = assert_list(&vec![UNTOUCHED; length], &filings);
            assert_eq!((listed.refusals, listed.used), (vec![12; 4], 0));
            listed.register.resize(2 * LINE, UNTOUCHED);
            let listed =
                assert_list(&listed.register, &[(0, line_of(2031)), (number, line_of(2023))]);
            assert_eq!(listed.numbers(), [203_100_001, 203_100_002]);
        }
    }
}

/// A buffer for a list: of any bytes, or full of lines from before.
fn any_buffer(random: &mut Generator) -> Vec<u8> {
    let lines = random.below(12);
    let free = random.below(LINE);
    if random.once_in(2) {
        let first = random.within(1..=u32::MAX - 12);
        return register_with_room(random, lines, first, free);
    }
    random.bytes(lines * LINE + free)
}

/// Lists of any lines, each with a first number of its own; in half of them
/// refused ones come first.
#[test]
fn random_lists() {
    let mut random = Generator::for_test("random_lists");
    for _ in 0..1_000 {
        let buffer = any_buffer(&mut random);
        let refused = random.below(2) * random.below(5);
        let mut filings = Vec::new();
        for place in 0..refused + random.below(20) {
            let line = if place < refused {
                refused_line(random.within(1..=10))
            } else {
                any_line(&mut random)
            };
            filings.push((any_first_number(&mut random), line));
        }
        assert_list(&buffer, &filings);
    }
}

/// Lists whose numbers may be used up before the room is.
#[test]
fn random_lists_to_the_last_number() {
    let mut random = Generator::for_test("random_lists_to_the_last_number");
    let mut used_up = 0;
    for _ in 0..500 {
        let buffer = any_buffer(&mut random);
        let filings: Vec<Filing> = (0..12)
            .map(|_| (random.within(u32::MAX - 6..=u32::MAX), any_line(&mut random)))
            .collect();
        let listed = assert_list(&buffer, &filings);
        used_up += usize::from(listed.refusals.contains(&13));
    }
    assert!(used_up > 100, "{used_up} lists");
}

/// Every line of a text is given the same first number: the first that is granted
/// sets it, and those of other years go on from there.
#[test]
fn texts_with_refused_lines_first() {
    for year in [1918, 1987, 2024, 2199] {
        let mut lines = refused_lines();
        lines.extend(lines_of(&[year, 2000]));
        lines.push(refused_line(3));
        lines.extend(lines_of(&[1999, year]));
        for first_number in FIRST_NUMBERS.into_iter().chain([default_of(2000)]) {
            let listed = assert_text(&[UNTOUCHED; 5 * LINE], first_number, &lines);
            let first = number_set(first_number, year);
            let numbers: Vec<u32> = (0..4).filter_map(|place| first.checked_add(place)).collect();
            assert_eq!(listed.numbers(), numbers);
            assert_eq!(listed.refusals[..11], [1, 2, 3, 4, 5, 6, 7, 8, 9, 10, 0]);
        }
    }
}

#[test]
fn random_texts() {
    let mut random = Generator::for_test("random_texts");
    for _ in 0..1_000 {
        let buffer = any_buffer(&mut random);
        let count = 1 + random.below(20);
        let lines: Vec<Vec<u8>> = (0..count).map(|_| any_line(&mut random)).collect();
        let near_last = random.within(u32::MAX - 6..=u32::MAX);
        let first_number = any_first_number(&mut random);
        let first_number = random.pick(&[first_number, first_number, near_last]);
        assert_text(&buffer, first_number, &lines);
    }
}

/// A text of which no line is granted leaves the register empty, and the number to
/// the next call.
#[test]
fn texts_with_no_line_granted() {
    let buffer = [UNTOUCHED; 3 * LINE];
    for first_number in FIRST_NUMBERS {
        let none = assert_text(&buffer, first_number, &refused_lines());
        assert_eq!((none.used, &none.register[..]), (0, &buffer[..]));
        assert_eq!(none.refusals, [1, 2, 3, 4, 5, 6, 7, 8, 9, 10]);
        let text = text_from(&lines_of(&[2024, 2025]));
        for (next, first) in [(0, 202_400_001), (7, 7), (u32::MAX - 1, u32::MAX - 1)] {
            let filed = assert_file_lines(&none.register, none.used, next, &text, &[9; 2]);
            assert_eq!((filed.used, filed.refusals), (2 * LINE, vec![0, 0]));
            assert_eq!(numbers_of(&filed.register[..filed.used]), [first, first + 1]);
        }
    }
}

/// Texts behind lines go on from the last number too, for every first number.
#[test]
fn texts_behind_lines_ignore_it() {
    let mut random = Generator::for_test("texts_behind_lines_ignore_it");
    let text = text_from(&[refused_line(2), line_of(2024), line_of(1950)]);
    for first in [1, 500, 202_399_998, u32::MAX - 4] {
        let register = register_with_room(&mut random, 3, first, 2 * LINE + 60);
        let expected = assert_file_lines(&register, 3 * LINE, 1, &text, &[9; 3]);
        assert_eq!(expected.refusals, [2, 0, 0]);
        let numbers: Vec<u32> = (0..5).map(|place| first + place).collect();
        assert_eq!(numbers_of(&expected.register[..expected.used]), numbers);
        for first_number in FIRST_NUMBERS.into_iter().chain([first, first + 3]) {
            let filed = assert_file_lines(&register, 3 * LINE, first_number, &text, &[9; 3]);
            assert!(filed == expected, "first number {first_number}");
        }
    }
}

/// The numbers of a year's default go on into those of the next, and cases of that
/// year do not change them.
#[test]
fn more_lines_than_a_year_has_numbers() {
    const LINES: usize = 100_001;
    let mut text = text_from(&lines_of(&[2023]));
    text.extend(text_from(&lines_of(&[2024])).repeat(LINES - 1));
    let buffer = vec![UNTOUCHED; LINES * LINE + 9];
    let (used, register) = lend_mut(&buffer, |register| {
        lend(&text, |text| engine::file_all(register, 0, text, &mut []))
    });
    assert_eq!(used, LINES * LINE);
    let numbers: Vec<u32> = (202_300_001..=202_400_001).collect();
    assert_eq!(default_of(2024), 202_400_001);
    assert!(numbers_of(&register[..used]) == numbers, "numbers that rise by one");
    let mut expected = buffer;
    reference::register::file_all(&mut expected, 0, &text, &mut []);
    assert!(register == expected, "bytes differ");
    assert_eq!(assert_check(&register, used).refusal, 0);
}

/// Lines are found by their numbers and by no number next to those.
#[test]
fn lines_are_found_by_their_numbers() {
    let near_last = [u32::MAX - 4, u32::MAX - 3, u32::MAX - 2];
    for first_number in FIRST_NUMBERS.into_iter().chain(near_last) {
        let lines = lines_of(&[2023, 2024, 1990, 2023]);
        let listed = assert_text(&[UNTOUCHED; 5 * LINE], first_number, &lines);
        let find = |number| assert_find_number(&listed.register, listed.used, number);
        let first = number_set(first_number, 2023);
        let count = listed.used / LINE;
        for place in 0..count {
            let found = Found { refusal: 0, offset: place * LINE, length: LINE };
            assert_eq!(find(first + place as u32), found);
        }
        let absent = [Some(first - 1), first.checked_add(count as u32), Some(0)];
        for number in absent.into_iter().flatten() {
            assert_eq!(find(number), Found { refusal: 14, offset: 0, length: 0 });
        }
    }
}

/// With used length 0 a register is empty, though it is full of lines from before:
/// their numbers do not count, and those not written over stay.
#[test]
fn lines_from_before_do_not_count() {
    let mut random = Generator::for_test("lines_from_before_do_not_count");
    for old in [1, 500, 202_300_001, u32::MAX - 3] {
        let register = sound_register(&mut random, 4, old);
        for first_number in FIRST_NUMBERS {
            let (filed, after) = assert_file(&register, 0, first_number, &line_of(2023));
            assert_eq!((filed.refusal, filed.used), (0, LINE));
            assert_eq!(numbers_of(&after[..LINE]), [number_set(first_number, 2023)]);
            assert_eq!(after[LINE..], register[LINE..]);
            assert_eq!(assert_check(&after, LINE).refusal, 0);
            assert_text(&register, first_number, &lines_of(&[2023, 2024]));
        }
    }
}

/// Asserts that a register is bad for filings of every kind, and stays as it is.
fn assert_bad(register: &[u8], used: usize) {
    let line = line_of(2023);
    for first_number in FIRST_NUMBERS {
        let (filed, after) = assert_file(register, used, first_number, &line);
        assert_eq!((filed.refusal, filed.used), (11, 0));
        assert!(after == register);
        let filed = assert_file_lines(register, used, first_number, &line, &[9; 2]);
        assert_eq!((filed.used, filed.refusals), (used, vec![11, 9]));
        assert!(filed.register == register);
    }
}

/// No first number makes up for a bad character, number or used length.
#[test]
fn bad_registers() {
    let mut random = Generator::for_test("bad_registers");
    for first in [1, 77, 202_300_001, u32::MAX - 2] {
        let sound = register_with_room(&mut random, 3, first, 2 * LINE);
        for offset in [0, 7, 8, LINE - 1, LINE, 2 * LINE + 60, 3 * LINE - 1] {
            let mut damaged = sound.clone();
            damaged[offset] = b'x';
            assert_bad(&damaged, 3 * LINE);
        }
        for (line, number) in [(0, 0), (1, first), (1, 0), (2, default_of(2023) + 9)] {
            let mut renumbered = sound.clone();
            set_number(&mut renumbered, line, number);
            assert_bad(&renumbered, 3 * LINE);
        }
        for used in [1, LINE - 1, LINE + 1, 3 * LINE - 1, 6 * LINE, usize::MAX] {
            assert_bad(&sound, used);
        }
    }
}
