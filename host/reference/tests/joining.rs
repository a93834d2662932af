//! Joining two registers: what the result is, in every position of the two and in
//! third buffers of every length. Registers are runs of one file, so that what is
//! expected is a part of that file. The engine, the reference and the rules over
//! maps are held against it and against each other.

mod common;

use std::collections::BTreeMap;
use std::ops::Range;

use cases::fields::{case_of_year, plain_case};
use cases::generator::Generator;
use cases::pairs::{joined_places, runs, Lent, Position, POSITIONS};
use cases::random::any_case;
use cases::registers::{own_member, set_member, set_own_members, sound_register, LINE, NOBODY};
use common::book::{numbers_of, text_from, UNTOUCHED};
use common::compare::{
    assert_check, assert_file, assert_file_all, assert_find_member, assert_find_number,
};
use common::guarded::lend_mut;
use common::joins::{assert_join, assert_joined, assert_not_joined};
use engine::Written;

/// First numbers of a file of some lines: the lowest, those at which digits carry,
/// a year's default, and the one from which the file ends with FFFFFFFF.
fn first_numbers(lines: usize) -> [u32; 8] {
    let latest = u32::MAX - (lines as u32 - 1);
    [1, 2, 0xE, 0x0FFF_FFFD, 0x7FFF_FFFE, 202_300_001, latest - 1, latest]
}

/// The lines of a file at some places.
fn part<'a>(file: &'a [u8], places: &Range<usize>) -> &'a [u8] {
    &file[places.start * LINE..places.end * LINE]
}

/// Every two of some runs, and each with itself.
fn pairs_of(runs: &[Range<usize>]) -> impl Iterator<Item = (&Range<usize>, &Range<usize>)> {
    runs.iter().flat_map(|one| runs.iter().map(move |other| (one, other)))
}

/// Every two runs of a file, each used to the last byte: the result is the file's
/// part from the lower first to the higher last, unless a number between is in
/// neither.
#[test]
fn every_position_of_two_runs() {
    const LINES: usize = 6;
    let mut random = Generator::for_test("every_position_of_two_runs");
    let mut seen: BTreeMap<Position, usize> = BTreeMap::new();
    for first in first_numbers(LINES) {
        let file = sound_register(&mut random, LINES, first);
        for (one, other) in pairs_of(&runs(LINES)) {
            let position = Position::of(one, other);
            *seen.entry(position).or_default() += 1;
            let target = random.bytes(LINES * LINE + 9);
            let (first, second) = (Lent::run(&file, one), Lent::run(&file, other));
            if position == Position::Apart {
                assert_not_joined(&first, &second, &target, 16);
            } else {
                let lines = part(&file, &joined_places(one, other));
                assert_joined(&first, &second, &target, lines);
            }
        }
    }
    assert!(POSITIONS.iter().all(|position| seen.contains_key(position)), "{seen:?}");
}

/// Two runs of a file of six lines in every position that can be joined.
const JOINABLE: [(Range<usize>, Range<usize>); 12] = [
    (0..0, 0..0),
    (0..0, 2..3),
    (1..5, 0..0),
    (2..4, 2..4),
    (0..5, 1..3),
    (0..5, 0..2),
    (0..5, 3..5),
    (2..3, 1..6),
    (0..4, 2..6),
    (3..5, 1..4),
    (0..2, 2..3),
    (5..6, 0..5),
];

/// A third buffer that is shorter than the result by any number of bytes gets 17
/// and stays; one of just its length, or longer by any number, keeps the rest.
#[test]
fn third_buffers_of_every_length() {
    let mut random = Generator::for_test("third_buffers_of_every_length");
    for first in [1, u32::MAX - 5] {
        let file = sound_register(&mut random, 6, first);
        for (one, other) in JOINABLE {
            let lines = part(&file, &joined_places(&one, &other));
            let (first, second) = (Lent::run(&file, &one), Lent::run(&file, &other));
            for length in 0..=lines.len() + LINE + 1 {
                let target = random.bytes(length);
                if length < lines.len() {
                    assert_not_joined(&first, &second, &target, 17);
                } else {
                    assert_joined(&first, &second, &target, lines);
                }
            }
        }
    }
}

/// The result needs room for common lines once, however much the two used parts
/// are together, and is the same in a buffer of far more bytes.
#[test]
fn common_lines_need_room_once() {
    let mut random = Generator::for_test("common_lines_need_room_once");
    let file = sound_register(&mut random, 40, 7);
    for common in 1..40 {
        let (first, second) = (Lent::run(&file, &(0..40)), Lent::run(&file, &(0..common)));
        assert_joined(&first, &second, &[UNTOUCHED; 40 * LINE], &file);
        assert_not_joined(&first, &second, &[UNTOUCHED; 40 * LINE - 1], 17);
        assert_joined(&first, &second, &[UNTOUCHED; 100 * LINE], &file);
    }
}

/// What the third buffer held before does not matter: neither lines that would go
/// on from the result, nor lines unlike it, nor a register's own bytes.
#[test]
fn third_buffers_that_hold_lines() {
    let mut random = Generator::for_test("third_buffers_that_hold_lines");
    let file = sound_register(&mut random, 9, 100);
    let (first, second) = (Lent::run(&file, &(0..4)), Lent::run(&file, &(2..6)));
    let unlike = sound_register(&mut random, 9, 100);
    let far = sound_register(&mut random, 9, 5_000);
    let spoilt = vec![b'?'; 9 * LINE];
    for before in [&file, &unlike, &far, &spoilt] {
        let joined = assert_join(&first, &second, before);
        assert_eq!(joined.written, Written { refusal: 0, used: 6 * LINE });
        assert!(joined.target == [&file[..6 * LINE], &before[6 * LINE..]].concat());
        let too_short = &before[..6 * LINE - 1];
        assert_not_joined(&first, &second, too_short, 17);
    }
}

/// Registers with used length 0 are empty, whatever their bytes: nothing, lines of
/// the other's numbers or unlike them, or bytes of any kind.
#[test]
fn empty_registers() {
    let mut random = Generator::for_test("empty_registers");
    let file = sound_register(&mut random, 3, 50);
    let buffers =
        [Vec::new(), file.clone(), sound_register(&mut random, 5, 50), random.bytes(2 * LINE + 5)];
    for bytes in &buffers {
        let empty = Lent { bytes: bytes.clone(), used: 0 };
        for lines in 0..=3 {
            let other = Lent::run(&file, &(0..lines)).with_free(&bytes[..bytes.len() / 2]);
            let lines = part(&file, &(0..lines));
            assert_joined(&empty, &other, lines, lines);
            assert_joined(&empty, &other, &random.bytes(4 * LINE), lines);
            if !lines.is_empty() {
                assert_not_joined(&empty, &other, &random.bytes(lines.len() - 1), 17);
                assert_not_joined(&empty, &other, &[], 17);
            }
        }
        for bytes in &buffers {
            let also_empty = Lent { bytes: bytes.clone(), used: 0 };
            for length in [0, 1, LINE, 300] {
                assert_joined(&empty, &also_empty, &random.bytes(length), &[]);
            }
        }
    }
}

/// Bytes past the used parts are no lines: they fill no gap, are unlike nothing,
/// damage nothing, and are no part of the result.
#[test]
fn free_bytes_do_not_count() {
    let mut random = Generator::for_test("free_bytes_do_not_count");
    let file = sound_register(&mut random, 6, 0x99);
    let unlike = sound_register(&mut random, 6, 0x99);
    let target = [UNTOUCHED; 7 * LINE];
    let [low, high] = [Lent::run(&file, &(0..2)), Lent::run(&file, &(3..6))];
    assert_not_joined(&low.with_free(&file[2 * LINE..]), &high, &target, 16);
    for free in [&file[2 * LINE..], &unlike[2 * LINE..], b"?", &random.bytes(LINE)] {
        let low = Lent::run(&file, &(0..2)).with_free(free);
        for places in [0..1, 0..2, 1..2, 1..6, 2..6] {
            let other = Lent::run(&file, &places).with_free(b"\0\n\xFF");
            let lines = part(&file, &joined_places(&(0..2), &places));
            assert_joined(&low, &other, &target, lines);
            assert_joined(&low, &other, &target[..lines.len()], lines);
        }
    }
}

/// One buffer lent for both registers: with the same used length it gives itself,
/// and with two used lengths the longer.
#[test]
fn the_same_register_twice() {
    let mut random = Generator::for_test("the_same_register_twice");
    for first in first_numbers(5) {
        let file = sound_register(&mut random, 5, first);
        for (one, other) in [(0, 0), (0, 3), (1, 1), (2, 5), (5, 5), (5, 1)] {
            let lines = &file[..one.max(other) * LINE];
            for length in [lines.len(), 5 * LINE + 60] {
                let before = random.bytes(length);
                let (written, after) = lend_mut(&before, |target| {
                    engine::join(&file, one * LINE, &file, other * LINE, target)
                });
                assert_eq!(written, Written { refusal: 0, used: lines.len() });
                assert!(after == [lines, &before[lines.len()..]].concat());
            }
        }
    }
}

/// Two registers that lie in one file's bytes, partly over each other.
#[test]
fn registers_that_share_bytes() {
    let mut random = Generator::for_test("registers_that_share_bytes");
    let file = sound_register(&mut random, 6, 0xFFFF);
    let whole = file.clone();
    for (one, other) in JOINABLE {
        let places = joined_places(&one, &other);
        let (one, other, lines) = (part(&file, &one), part(&file, &other), part(&file, &places));
        let before = [UNTOUCHED; 7 * LINE];
        let (written, after) =
            lend_mut(&before, |target| engine::join(one, one.len(), other, other.len(), target));
        assert_eq!(written, Written { refusal: 0, used: lines.len() });
        assert!(after == [lines, &before[lines.len()..]].concat());
        assert!(file == whole, "a register was written");
    }
}

/// A register that ends with FFFFFFFF is joined as any other, and does not go on
/// with one that begins with 1.
#[test]
fn numbers_to_the_last() {
    let mut random = Generator::for_test("numbers_to_the_last");
    let target = [UNTOUCHED; 8 * LINE];
    for lines in 1..=4_usize {
        let last = sound_register(&mut random, lines, u32::MAX - (lines as u32 - 1));
        for lowest in [1, 2, 3] {
            let low = Lent::whole(&sound_register(&mut random, 3, lowest));
            assert_not_joined(&Lent::whole(&last), &low, &target, 16);
        }
        for start in 0..lines {
            let end = Lent::run(&last, &(start..lines));
            let beginning = Lent::run(&last, &(0..start));
            assert_joined(&end, &beginning, &target, &last);
            assert_joined(&end, &Lent::whole(&last), &target, &last);
        }
    }
}

/// Registers on both sides of the most lines that 16 bits count.
#[test]
fn long_registers() {
    const LINES: usize = 70_000;
    let mut random = Generator::for_test("long_registers");
    let file = sound_register(&mut random, LINES, 1);
    for (one, other) in [
        (0..65_535, 65_535..65_536),
        (0..65_536, 65_536..LINES),
        (0..66_000, 300..LINES),
        (0..LINES, 65_535..65_537),
    ] {
        let lines = part(&file, &joined_places(&one, &other));
        let (first, mut second) = (Lent::run(&file, &one), Lent::run(&file, &other));
        assert_joined(&first, &second, &vec![UNTOUCHED; lines.len() + 1], lines);
        assert_not_joined(&first, &second, &vec![UNTOUCHED; lines.len() - 1], 17);
        if one.end > other.start {
            let last_common = one.end.min(other.end) - 1 - other.start;
            set_member(&mut second.bytes, last_common, NOBODY);
            assert_not_joined(&first, &second, &vec![UNTOUCHED; lines.len()], 16);
        }
    }
}

/// Runs of one file joined one after the other, each with the result so far, give
/// the whole file in the end.
#[test]
fn joined_registers_are_joined_again() {
    let mut random = Generator::for_test("joined_registers_are_joined_again");
    let turns = [[0..4, 3..7, 7..9, 8..12], [8..12, 6..9, 4..6, 0..5], [5..7, 6..9, 2..5, 0..12]];
    for first in first_numbers(12) {
        let file = sound_register(&mut random, 12, first);
        for runs in &turns {
            let mut so_far = Lent { bytes: random.bytes(50), used: 0 };
            for places in runs {
                let target = random.bytes(13 * LINE);
                let joined = assert_join(&so_far, &Lent::run(&file, places), &target);
                assert_eq!(joined.written.refusal, 0);
                so_far = Lent { used: joined.written.used, bytes: joined.target };
            }
            assert!(so_far.bytes[..so_far.used] == file);
        }
    }
}

/// Two offices file cases: the first those up to some line, the second, with its
/// first number set to that of another line, those from there on. Joined they are
/// what one office files for all, and the next filing goes on from the last.
#[test]
fn registers_that_were_filed() {
    let mut random = Generator::for_test("registers_that_were_filed");
    let filed = |first_number: u32, lines: &[Vec<u8>]| {
        let buffer = [UNTOUCHED; 12 * LINE];
        let filed = assert_file_all(&buffer, first_number, &text_from(lines), &[0; 12]);
        assert_eq!(filed.used, lines.len() * LINE);
        Lent { bytes: filed.register, used: filed.used }
    };
    for _ in 0..40 {
        let lines: Vec<Vec<u8>> = (0..12).map(|_| any_case(&mut random).line()).collect();
        let start = random.below(12);
        let end = start + random.below(13 - start);
        let first_number = random.pick(&[1, 500, 202_300_001, u32::MAX - 11]);
        let all = filed(first_number, &lines);
        let first = filed(first_number, &lines[..end]);
        let second = filed(first_number + start as u32, &lines[start..]);
        assert_joined(&first, &second, &random.bytes(13 * LINE), &all.bytes);
        assert_filing_goes_on(&first, &second, &mut random);
    }
}

/// Files a case behind the result of two registers: it has the last number plus
/// one, if there is one.
fn assert_filing_goes_on(first: &Lent, second: &Lent, random: &mut Generator) {
    let joined = assert_join(first, second, &random.bytes(14 * LINE));
    let used = joined.written.used;
    let numbers = numbers_of(joined.result());
    let case = plain_case(&[1, 3]);
    let (filed, after) = assert_file(&joined.target, used, 77, &case.line());
    match numbers.last().expect("lines").checked_add(1) {
        None => assert_eq!((filed.refusal, filed.used), (13, 0)),
        Some(next) => {
            assert_eq!((filed.refusal, filed.used), (0, used + LINE));
            assert_eq!(numbers_of(&after[used..filed.used]), [next]);
            assert!(after[..used] == *joined.result());
            assert_eq!(assert_find_member(&after, filed.used, case.member).offset, used);
        }
    }
}

/// The same case filed by two offices under different numbers stands twice in the
/// result, and under the same number once.
#[test]
fn one_case_filed_by_both() {
    let line = case_of_year(2023).line();
    let filed = |first_number| {
        let (filed, register) = assert_file(&[UNTOUCHED; LINE], 0, first_number, &line);
        assert_eq!(filed.refusal, 0);
        Lent::whole(&register)
    };
    let [default, same, next, later] = [0, 202_300_001, 202_300_002, 202_300_003].map(filed);
    let target = [UNTOUCHED; 3 * LINE];
    assert_joined(&default, &same, &target, &same.bytes);
    let both = [&default.bytes[..], &next.bytes].concat();
    assert_joined(&default, &next, &target, &both);
    assert_joined(&next, &Lent::whole(&both), &target, &both);
    assert_not_joined(&default, &later, &target, 16);
}

/// Lines of the result are found by number and by member, whichever register they
/// are from, and a member's newest is the one with the highest number.
#[test]
fn lines_are_found_in_the_result() {
    let mut random = Generator::for_test("lines_are_found_in_the_result");
    let mut file = sound_register(&mut random, 10, 300);
    set_own_members(&mut file);
    for line in [1, 4, 8] {
        set_member(&mut file, line, 77);
    }
    for (one, other) in [(0..6, 3..10), (5..10, 0..5), (0..10, 2..4), (0..0, 0..10)] {
        let target = random.bytes(11 * LINE);
        let joined = assert_join(&Lent::run(&file, &one), &Lent::run(&file, &other), &target);
        let (register, used) = (&joined.target, joined.written.used);
        assert_eq!(assert_check(register, used).refusal, 0);
        for line in 0..10 {
            let found = assert_find_number(register, used, 300 + line as u32);
            assert_eq!((found.refusal, found.offset), (0, line * LINE));
            if ![1, 4, 8].contains(&line) {
                let found = assert_find_member(register, used, own_member(line));
                assert_eq!((found.offset, found.compared), (line * LINE, 10 - line));
            }
        }
        let newest = assert_find_member(register, used, 77);
        assert_eq!((newest.offset, newest.compared), (8 * LINE, 2));
        assert_eq!(assert_find_number(register, used, 310).refusal, 14);
        assert_eq!(assert_find_member(register, used, NOBODY).compared, 10);
    }
}
