//! The check of registers, and finding in them, engine against reference.

mod common;

use cases::fields::plain_case;
use cases::generator::Generator;
use cases::registers::{
    own_member, set_member, set_number, set_own_members, sound_register, LINE, MEMBERS, NOBODY,
};
use common::compare::{assert_check, assert_file, assert_find_member, assert_find_number};
use engine::FoundMember;

/// Bytes that damage a digit or a newline, and two that may only change one.
const DAMAGES: &[u8] = b"a\0\n\rG/:@ \x80\xFF0F";

/// Compares every call on a register: check, finding, filing.
fn assert_calls(register: &[u8], used: usize, numbers: &[u32], members: &[u32]) {
    assert_check(register, used);
    for &number in numbers {
        assert_find_number(register, used, number);
    }
    for &member in members {
        assert_find_member(register, used, member);
    }
    assert_file(register, used, 1, &plain_case(&[1, 3]).line());
}

/// The numbers around those of a register that starts with `first`.
fn numbers_around(first: u32, lines: usize) -> Vec<u32> {
    let before = first.saturating_sub(2)..first;
    let after = (0..lines as u32 + 2).filter_map(|line| first.checked_add(line));
    before.chain(after).chain([0, 1, u32::MAX]).collect()
}

/// First numbers for a register of some lines.
fn first_numbers(random: &mut Generator, lines: usize) -> [u32; 4] {
    let latest = if lines == 0 { u32::MAX } else { u32::MAX - (lines as u32 - 1) };
    [1, random.within(1..=latest), latest - 1, latest]
}

#[test]
fn sound_registers() {
    let mut random = Generator::for_test("sound_registers");
    for lines in 0..=20 {
        for first in first_numbers(&mut random, lines) {
            let mut register = sound_register(&mut random, lines, first);
            let used = register.len();
            for spare in [0, 1, LINE - 1, LINE, 300] {
                register.truncate(used);
                register.extend(random.bytes(spare));
                assert_eq!(assert_check(&register, used).refusal, 0);
                assert_calls(&register, used, &numbers_around(first, lines), &[NOBODY]);
                assert_calls(&register, used, &[], &MEMBERS);
            }
        }
    }
}

#[test]
fn lines_found_are_the_right_ones() {
    let mut random = Generator::for_test("lines_found_are_the_right_ones");
    let register = sound_register(&mut random, 20, 1000);
    let used = register.len();
    for line in 0..20 {
        let found = assert_find_number(&register, used, 1000 + line as u32);
        assert_eq!((found.refusal, found.offset, found.length), (0, line * LINE, LINE));
    }
    for number in [0, 1, 999, 1020, u32::MAX] {
        let found = assert_find_number(&register, used, number);
        assert_eq!((found.refusal, found.offset, found.length), (14, 0, 0));
    }
    for member in MEMBERS {
        let digits = format!("{member:08X}").into_bytes();
        let newest = (0..20).rev().find(|line| register[line * LINE + 8..][..8] == digits);
        let found = assert_find_member(&register, used, member);
        assert_eq!(found, newest.map_or(absent(20), |line| found_at(line, 20 - line)));
    }
    assert_eq!(assert_find_member(&register, used, NOBODY), absent(20));
}

/// The answer for a member whose newest line is `line`, counted from 0.
fn found_at(line: usize, compared: usize) -> FoundMember {
    FoundMember { refusal: 0, offset: line * LINE, length: LINE, compared }
}

/// The answer for a member who has no line.
fn absent(compared: usize) -> FoundMember {
    FoundMember { refusal: 14, offset: 0, length: 0, compared }
}

/// The answer for every member of a bad register.
const NOT_LOOKED_FOR: FoundMember = FoundMember { refusal: 11, offset: 0, length: 0, compared: 0 };

#[test]
fn lines_compared_for_a_member() {
    let mut random = Generator::for_test("lines_compared_for_a_member");
    // The members line by line, the member looked for, and the answer.
    let searches: [(&[u32], u32, FoundMember); 12] = [
        (&[], 5, absent(0)),
        (&[5], 5, found_at(0, 1)),
        (&[5], 6, absent(1)),
        (&[5, 6, 7], 7, found_at(2, 1)),
        (&[5, 6, 7], 6, found_at(1, 2)),
        (&[5, 6, 7], 5, found_at(0, 3)),
        (&[5, 6, 7], 8, absent(3)),
        (&[5, 5, 5, 5], 5, found_at(3, 1)),
        (&[5, 6, 5, 7, 8], 5, found_at(2, 3)),
        // Members that differ in one digit, and a quote number for a member.
        (&[0x1000_0005, 0x0005_0005, 0x0000_0004], 5, absent(3)),
        (&[9, 9, 9], 2, absent(3)),
        (&[2, 9, 9], 2, found_at(0, 3)),
    ];
    for (members, member, expected) in searches {
        let mut register = sound_register(&mut random, members.len(), 1);
        for (line, &member) in members.iter().enumerate() {
            set_member(&mut register, line, member);
        }
        let found = assert_find_member(&register, register.len(), member);
        assert_eq!(found, expected, "{member} among {members:?}");
    }
}

/// Lines past the used length are neither looked at nor counted, whether they
/// are sound or not.
#[test]
fn members_at_every_place_and_used_length() {
    let mut random = Generator::for_test("members_at_every_place_and_used_length");
    let mut sound = sound_register(&mut random, 20, 1000);
    set_own_members(&mut sound);
    for lines in 0..=20 {
        let used = lines * LINE;
        let spoilt = [&sound[..used], &random.bytes(sound.len() - used)].concat();
        for register in [&sound, &spoilt] {
            for line in 0..20 {
                let found = assert_find_member(register, used, own_member(line));
                let is_used = line < lines;
                let expected = if is_used { found_at(line, lines - line) } else { absent(lines) };
                assert_eq!(found, expected);
            }
            assert_eq!(assert_find_member(register, used, NOBODY), absent(lines));
        }
    }
}

/// Counts on both sides of the most that 16 bits hold.
#[test]
fn lines_compared_in_a_long_register() {
    const LINES: usize = 70_000;
    let mut random = Generator::for_test("lines_compared_in_a_long_register");
    let mut register = sound_register(&mut random, LINES, 1);
    set_own_members(&mut register);
    for compared in [1, 65_535, 65_536, 65_537, LINES] {
        let line = LINES - compared;
        let found = assert_find_member(&register, register.len(), own_member(line));
        assert_eq!(found, found_at(line, compared));
    }
    assert_eq!(assert_find_member(&register, register.len(), NOBODY), absent(LINES));
}

/// Lines and first numbers of the registers that are damaged.
const DAMAGED: [(usize, u32); 6] =
    [(1, 1), (1, u32::MAX), (2, 0xFFFF_FFFE), (3, 0x0FFF_FFFF), (7, 0x99), (20, 1)];

/// Damages every character of registers, one at a time.
#[test]
fn damage_at_every_character() {
    let mut random = Generator::for_test("damage_at_every_character");
    for (lines, first) in DAMAGED {
        let mut register = sound_register(&mut random, lines, first);
        let used = register.len();
        register.extend(random.bytes(130));
        let numbers = [first, first + lines as u32 / 2];
        for offset in 0..used {
            let whole = register[offset];
            for &damage in DAMAGES {
                register[offset] = damage;
                assert_calls(&register, used, &numbers, &[7, NOBODY]);
                assert_damage(&register, used, offset);
            }
            register[offset] = whole;
        }
    }
}

/// The whole register is checked before any line is compared, even where the
/// newest would answer at once.
#[test]
fn damage_comes_before_finding_a_member() {
    let mut random = Generator::for_test("damage_comes_before_finding_a_member");
    for (lines, first) in DAMAGED {
        let mut register = sound_register(&mut random, lines, first);
        set_own_members(&mut register);
        let used = register.len();
        for offset in 0..used {
            let whole = std::mem::replace(&mut register[offset], b'x');
            for member in [own_member(lines - 1), own_member(0), NOBODY] {
                assert_eq!(assert_find_member(&register, used, member), NOT_LOOKED_FOR);
            }
            register[offset] = whole;
        }
    }
}

/// Asserts that a register which may be damaged at one offset is bad there. A
/// digit for another may make a wrong number, which is not looked at here.
fn assert_damage(register: &[u8], used: usize, offset: usize) {
    let character = register[offset];
    let is_digit = character.is_ascii_digit() || (b'A'..=b'F').contains(&character);
    if offset % LINE == LINE - 1 {
        assert_offset(register, used, (character != b'\n').then_some(offset));
    } else if !is_digit {
        assert_offset(register, used, Some(offset));
    }
}

/// Asserts where a register is bad, or that it is sound.
fn assert_offset(register: &[u8], used: usize, offset: Option<usize>) {
    let checked = assert_check(register, used);
    let expected = offset.map_or((0, 0), |offset| (11, offset));
    assert_eq!((checked.refusal, checked.offset), expected);
}

#[test]
fn wrong_numbers() {
    let mut random = Generator::for_test("wrong_numbers");
    for (lines, first) in [(1, 5), (2, 1), (5, 0x1000), (3, 0xFFFF_FFFD)] {
        let sound = sound_register(&mut random, lines, first);
        for line in 0..lines {
            let right = first + line as u32;
            let near = [right.wrapping_sub(1), right.wrapping_add(1), right ^ 0x8000_0000];
            for number in near.into_iter().chain([0, 1, u32::MAX]) {
                assert_renumbered(&sound, line, right, number);
            }
        }
    }
}

/// Gives one line of a sound register another number.
fn assert_renumbered(sound: &[u8], line: usize, right: u32, number: u32) {
    let mut register = sound.to_vec();
    set_number(&mut register, line, number);
    assert_calls(&register, sound.len(), &[right, number, 0, 1, u32::MAX], &[1, NOBODY]);
    // The first line may have any number but 0; then the second is wrong.
    if number != right && (line > 0 || number == 0) {
        assert_wrong_number(&register, sound.len(), line);
    }
}

/// A wrong number is bad at the line's first character, even with a bad
/// character behind it, but not with one among its own digits.
fn assert_wrong_number(register: &[u8], used: usize, line: usize) {
    let start = line * LINE;
    assert_offset(register, used, Some(start));
    let mut register = register.to_vec();
    for behind in [start + 8, start + 60, start + LINE - 1, used - 1] {
        let whole = std::mem::replace(&mut register[behind], b'x');
        assert_offset(&register, used, Some(start));
        register[behind] = whole;
    }
    for among in start..start + 8 {
        let whole = std::mem::replace(&mut register[among], b'x');
        assert_offset(&register, used, Some(among));
        register[among] = whole;
    }
}

/// No line can follow the number FFFFFFFF.
#[test]
fn numbers_do_not_wrap() {
    let mut random = Generator::for_test("numbers_do_not_wrap");
    for before in [1, 2, 5] {
        let mut register = sound_register(&mut random, before, u32::MAX - (before as u32 - 1));
        register.extend(sound_register(&mut random, 1, 0));
        let used = register.len();
        for number in [0, 1, u32::MAX, u32::MAX - 1] {
            set_number(&mut register, before, number);
            assert_offset(&register, used, Some(before * LINE));
            assert_calls(&register, used, &[0, 1, u32::MAX], &[1, NOBODY]);
        }
        assert_offset(&register, used - LINE, None);
    }
}

/// With many damages the first bad line decides.
#[test]
fn many_damages() {
    let mut random = Generator::for_test("many_damages");
    for _ in 0..20_000 {
        let lines = 1 + random.below(6);
        let mut register = sound_register(&mut random, lines, 0xFE);
        let used = register.len();
        for _ in 0..=random.below(3) {
            let offset = random.below(used);
            register[offset] = random.pick(DAMAGES);
        }
        if random.once_in(3) {
            set_number(&mut register, random.below(lines), random.within(0xF0..=0x110));
        }
        assert_calls(&register, used, &[0xFF], &[1]);
    }
}

/// Used lengths that are wrong by one, too long by far, or fine, in buffers of
/// every length to 400 and around multiples of a line's.
#[test]
fn used_lengths() {
    let mut random = Generator::for_test("used_lengths");
    let long = sound_register(&mut random, 12, 1);
    let around_multiples = (4..=11).flat_map(|lines| lines * LINE - 1..=lines * LINE + 1);
    for length in (0..=400).chain(around_multiples) {
        let register = &long[..length];
        let lines = length / LINE;
        let near_ends = [0, LINE, lines * LINE, (lines + 1) * LINE, length];
        let near = near_ends.iter().flat_map(|&end| [end.saturating_sub(1), end, end + 1]);
        // The greatest multiple of a line's length, and numbers past any sum.
        let most = usize::MAX / LINE * LINE;
        let far = [most - LINE, most, usize::MAX - 1, usize::MAX, usize::MAX / 2 + 1];
        for used in near.chain(far) {
            let checked = assert_check(register, used);
            if used > length || used % LINE != 0 {
                assert_eq!((checked.refusal, checked.offset), (11, used));
                assert_eq!(assert_find_member(register, used, NOBODY), NOT_LOOKED_FOR);
            }
            assert_calls(register, used, &[1, 2], &[1, NOBODY]);
        }
    }
}

/// A bad used length is tested before any character.
#[test]
fn used_length_comes_before_characters() {
    let mut random = Generator::for_test("used_length_comes_before_characters");
    for length in [0, 1, LINE, LINE + 1, 2 * LINE, 3 * LINE] {
        let register = random.bytes(length);
        for used in [1, LINE - 1, LINE + 1, 2 * LINE + 1, 3 * LINE + 1, 4 * LINE, usize::MAX] {
            assert_offset(&register, used, Some(used));
        }
        assert_offset(&register, 0, None);
    }
}

/// Registers of random bytes, and of random digits with newlines in place.
#[test]
fn random_registers() {
    let mut random = Generator::for_test("random_registers");
    for _ in 0..2_000 {
        let lines = random.below(4);
        let spare = random.below(130);
        let mut register = random.bytes(lines * LINE + spare);
        assert_calls(&register, lines * LINE, &[1], &[1]);
        for line in 0..lines {
            let digits = random.digits(LINE - 1);
            register[line * LINE..(line + 1) * LINE - 1].copy_from_slice(&digits);
            register[(line + 1) * LINE - 1] = b'\n';
        }
        assert_calls(&register, lines * LINE, &[1], &[1]);
    }
}
