//! Filing of one line and of many, engine against reference.

mod common;

use cases::allowances::{allowance_case, any_allowance_case, cut_line};
use cases::fields::{plain_case, refused_line};
use cases::generator::Generator;
use cases::random::{any_case, good_case, kind_lists};
use cases::registers::{any_first_number, register_with_room, sound_register, LINE, NOBODY};
use common::book::register_line;
use common::compare::{
    assert_file, assert_file_all, assert_file_lines, assert_find_member, assert_find_number,
};
use common::texts::{any_line, any_text};
use reference::quotes::REGISTER_LENGTH;

#[test]
fn good_cases_are_filed() {
    let mut random = Generator::for_test("good_cases_are_filed");
    for kinds in kind_lists() {
        for lines in [0, 1, 2, 5] {
            let first = random.within(1..=u32::MAX - 5);
            let free = LINE + random.below(200);
            let register = register_with_room(&mut random, lines, first, free);
            let case = good_case(&mut random, &kinds);
            let (filed, after) = assert_file(&register, lines * LINE, 1, &case.line());
            assert_eq!((filed.refusal, filed.used), (0, (lines + 1) * LINE));
            let number = if lines == 0 { 1 } else { first + lines as u32 };
            let heading = format!("{number:08X}{:08X}", case.member);
            assert_eq!(&after[lines * LINE..][..16], heading.as_bytes());
            assert_eq!(after[filed.used - 1], b'\n');
        }
    }
}

/// Cases at the lump sum allowance are filed with the figures of their quotes;
/// nothing of the used amount goes into the line.
#[test]
fn cases_at_the_allowance_are_filed() {
    let mut random = Generator::for_test("cases_at_the_allowance_are_filed");
    for kinds in kind_lists() {
        for lines in [0, 1, 3] {
            let free = LINE + random.below(200);
            let register = register_with_room(&mut random, lines, 1, free);
            let case = allowance_case(&mut random, &kinds);
            let (filed, after) = assert_file(&register, lines * LINE, 1, &case.line());
            assert_eq!((filed.refusal, filed.used), (0, (lines + 1) * LINE));
            let quote = engine::quote(&case.line());
            let expected = register_line(lines as u32 + 1, &quote);
            assert_eq!(
                after[lines * LINE..filed.used].escape_ascii().to_string(),
                expected.escape_ascii().to_string()
            );
        }
    }
}

/// The whole line of a case that has half the allowance left: a 1987 pension of
/// 10,000,000 at factor 25, 13,413,750 used, 13,413,750 granted, and 536,550
/// given up.
#[test]
fn the_written_line_of_half_the_allowance() {
    let line = b"0000000507B2060F07E8040601010098968007C4060F07E2060F0009C400000000000000CCAD76";
    let (_, after) = assert_file(&[0xEE; 130], 0, 1, line);
    let mut expected = b"000000010000000500CCAD7600CCAD760090669A".to_vec();
    expected.resize(LINE - 1, b'0');
    expected.push(b'\n');
    expected.resize(130, 0xEE);
    assert_eq!(after.escape_ascii().to_string(), expected.escape_ascii().to_string());
}

/// The whole line of the rules' example.
#[test]
fn the_written_line() {
    let line = b"0000000107B2060F07E707010101002DC6C007C9060107E70701000000000000000000";
    let (_, after) = assert_file(&[0xEE; 130], 0, 1, line);
    let mut expected = b"000000010000000100F1BACB00F1BACB0024426C".to_vec();
    expected.resize(LINE - 1, b'0');
    expected.push(b'\n');
    expected.resize(130, 0xEE);
    assert_eq!(after.escape_ascii().to_string(), expected.escape_ascii().to_string());
}

#[test]
fn fewer_than_121_bytes_free() {
    let mut random = Generator::for_test("fewer_than_121_bytes_free");
    let line = plain_case(&[1]).line();
    for lines in [0, 1, 3] {
        for free in 0..=LINE + 3 {
            let register = register_with_room(&mut random, lines, 1, free);
            let (filed, _) = assert_file(&register, lines * LINE, 1, &line);
            assert_eq!(filed.refusal, if free < LINE { 12 } else { 0 });
        }
    }
}

#[test]
fn last_number_used_up() {
    let mut random = Generator::for_test("last_number_used_up");
    let line = plain_case(&[1]).line();
    for lines in [1, 2, 4] {
        for (before_last, free, refusal) in
            [(0, LINE, 13), (0, 500, 13), (0, LINE - 1, 12), (0, 0, 12), (1, LINE, 0), (1, 0, 12)]
        {
            let first = u32::MAX - before_last - (lines as u32 - 1);
            let register = register_with_room(&mut random, lines, first, free);
            let (filed, after) = assert_file(&register, lines * LINE, 1, &line);
            assert_eq!(filed.refusal, refusal);
            if refusal == 0 {
                assert_eq!(&after[lines * LINE..][..8], b"FFFFFFFF");
            }
        }
    }
}

/// A refusal of the case line comes before those of the register, and a
/// damaged register before a full one or a used-up number.
#[test]
fn refusals_of_line_and_register_together() {
    let mut random = Generator::for_test("refusals_of_line_and_register_together");
    let good = plain_case(&[1]).line();
    let whole = 2 * LINE;
    let refused: Vec<Vec<u8>> = (1..=10).map(refused_line).collect();
    for (first, free) in [(1, 200), (1, 3), (u32::MAX - 1, 200), (u32::MAX - 1, 3)] {
        let sound = register_with_room(&mut random, 2, first, free);
        let mut damaged = sound.clone();
        damaged[200] = b'?';
        for (register, used) in
            [(&sound, whole), (&damaged, whole), (&sound, whole - 1), (&sound, 999 * LINE)]
        {
            for (refusal, line) in (1..).zip(&refused) {
                let (filed, after) = assert_file(register, used, 1, line);
                assert_eq!((filed.refusal, filed.used), (refusal, 0));
                assert!(after == *register);
            }
            let (filed, _) = assert_file(register, used, 1, &good);
            if used != whole || *register == damaged {
                assert_eq!((filed.refusal, filed.used), (11, 0));
            }
        }
    }
}

/// Filing the same register again and again, with good and bad lines.
#[test]
fn filings_one_after_another() {
    let mut random = Generator::for_test("filings_one_after_another");
    for _ in 0..20 {
        let length = random.below(30 * LINE);
        let mut register = random.bytes(length);
        let mut used = 0;
        for _ in 0..40 {
            let line = any_line(&mut random);
            let (filed, after) = assert_file(&register, used, 1, &line);
            register = after;
            used = if filed.refusal == 0 { filed.used } else { used };
        }
    }
}

#[test]
fn texts_of_many_lines() {
    let mut random = Generator::for_test("texts_of_many_lines");
    for round in 0..1_000 {
        let lines = random.below(40);
        let text = any_text(&mut random, lines);
        let room = random.below(30) * LINE + random.below(LINE);
        let register = random.bytes(room);
        let count = random.pick(&[0, lines / 2, lines, lines + 1, lines + 50]);
        let refusals = vec![0xEE; count];
        let first_number = any_first_number(&mut random);
        let filed = assert_file_all(&register, first_number, &text, &refusals);
        assert!(filed.used <= register.len(), "round {round}");
        assert!(filed.register[filed.used..] == register[filed.used..]);
    }
}

/// Texts filed behind lines that are there: of any first number, sound and
/// damaged, with used lengths right and wrong.
#[test]
fn texts_behind_a_used_part() {
    let mut random = Generator::for_test("texts_behind_a_used_part");
    for _ in 0..1_000 {
        let there = random.below(6);
        let first = random.pick(&[1, 77, u32::MAX - 7, u32::MAX - 5]);
        let room = random.below(12) * LINE + random.below(LINE);
        let mut register = register_with_room(&mut random, there, first, room);
        let used = there * LINE;
        if there > 0 && random.once_in(4) {
            let place = random.below(used);
            register[place] = random.byte();
        }
        let used = random.pick(&[used, used, used, used + 1, used + LINE, usize::MAX]);
        let lines = random.below(15);
        let text = any_text(&mut random, lines);
        let first_number = any_first_number(&mut random);
        assert_file_lines(&register, used, first_number, &text, &vec![0xEE; random.below(20)]);
    }
}

/// The text of blank lines and of none, with every small refusal buffer.
#[test]
fn small_texts() {
    let good = plain_case(&[1]).line();
    let texts: [&[u8]; 9] = [
        b"",
        b"\n",
        b"\n\n",
        b"\n\n\n0",
        b"0",
        b"\r\n",
        b"\n\r",
        &[&good[..], b"\n"].concat(),
        &[b"\n", &good[..], b"\n\n", &good[..]].concat(),
    ];
    for text in texts {
        for count in 0..6 {
            for room in [0, 1, LINE - 1, LINE, LINE + 1, 2 * LINE - 1, 2 * LINE, 2 * LINE + 1] {
                assert_file_all(&vec![0x5A; room], 1, text, &vec![0xEE; count]);
            }
        }
    }
}

/// A newline is a bad character of one line, and ends a line of a text.
#[test]
fn newlines_in_a_line_and_in_a_text() {
    let good = plain_case(&[1]).line();
    let register = [0x5A; 3 * LINE];
    let two = [&good[..], b"\n", &good].concat();
    for line in [&[&good[..], b"\n"].concat(), &two] {
        let (filed, after) = assert_file(&register, 0, 1, line);
        assert_eq!((filed.refusal, filed.used), (1, 0));
        assert!(after == register);
    }
    let filed = assert_file_all(&register, 1, &two, &[9; 2]);
    assert_eq!((filed.used, filed.refusals), (2 * LINE, vec![0, 0]));
}

/// A register that looks filled from before is taken as empty all the same.
#[test]
fn texts_start_with_an_empty_register() {
    let mut random = Generator::for_test("texts_start_with_an_empty_register");
    let text = [plain_case(&[1]).line(), b"\n".to_vec()].concat();
    for first in [1, 77, u32::MAX - 2] {
        let register = sound_register(&mut random, 3, first);
        let filed = assert_file_all(&register, 1, &text.repeat(2), &[9; 2]);
        assert_eq!((filed.used, filed.refusals), (2 * LINE, vec![0, 0]));
        assert_eq!(&filed.register[..8], b"00000001");
    }
}

#[test]
fn long_lines_in_texts() {
    let good = plain_case(&[2]).line();
    let mut text = vec![b'0'; 1 << 20];
    text.push(b'\n');
    text.extend_from_slice(&good);
    text.push(b'\n');
    text.extend(vec![b'x'; 1 << 20]);
    let filed = assert_file_all(&[0; 500], 1, &text, &[0xEE; 4]);
    assert_eq!((filed.used, filed.refusals), (LINE, vec![2, 0, 1, 0xEE]));
}

/// Lines filed from a text are found again by number and by member.
#[test]
fn filed_lines_are_found_again() {
    let mut random = Generator::for_test("filed_lines_are_found_again");
    for _ in 0..20 {
        let mut text = Vec::new();
        let mut members = Vec::new();
        for _ in 0..50 {
            let mut case = any_case(&mut random);
            if random.once_in(2) {
                case = any_allowance_case(&mut random);
            }
            case.member = random.within(1..=20);
            members.push(case.member);
            text.extend(case.line());
            text.extend(random.pick(&["\n", "\n\n", "\nbad\n"]).bytes());
        }
        let filed = assert_file_all(&[0; 60 * LINE], 1, &text, &[0; 200]);
        assert_eq!(filed.used, 50 * LINE);
        for (line, &member) in members.iter().enumerate() {
            let found = assert_find_number(&filed.register, filed.used, line as u32 + 1);
            assert_eq!((found.refusal, found.offset), (0, line * LINE));
            let newer = members.iter().rev().take_while(|&&other| other != member).count();
            let found = assert_find_member(&filed.register, filed.used, member);
            let (offset, compared) = ((49 - newer) * LINE, newer + 1);
            assert_eq!((found.refusal, found.offset, found.compared), (0, offset, compared));
        }
        assert_eq!(assert_find_number(&filed.register, filed.used, 51).refusal, 14);
        let nobody = assert_find_member(&filed.register, filed.used, NOBODY);
        assert_eq!((nobody.refusal, nobody.compared), (14, 50));
    }
}

/// What a member's lines in the register total is not taken as used: the same
/// line filed again has the same figures.
#[test]
fn filed_lumps_are_not_used_allowance() {
    let mut random = Generator::for_test("filed_lumps_are_not_used_allowance");
    for _ in 0..50 {
        let text = [cut_line(&mut random), b"\n".to_vec()].concat().repeat(3);
        let filed = assert_file_all(&[0; 3 * LINE], 1, &text, &[9; 3]);
        assert_eq!((filed.used, filed.refusals), (3 * LINE, vec![0; 3]));
        let figures: Vec<&[u8]> = filed.register.chunks(LINE).map(|line| &line[8..]).collect();
        assert!(figures.iter().all(|line| *line == figures[0]));
    }
}

/// A register of the program's size, filled beyond its room.
#[test]
fn a_full_register() {
    let mut random = Generator::for_test("a_full_register");
    let text = any_text(&mut random, 1_000);
    let filed = assert_file_all(&vec![0; REGISTER_LENGTH], 1, &text, &vec![0xEE; 1_100]);
    assert_eq!(filed.used, REGISTER_LENGTH / LINE * LINE);
    assert!(filed.refusals.contains(&12));
}
