//! The proved program `quotes` against the reference's, on the same inputs.

mod common;

use std::env;
use std::fs::File;
use std::io::Write;
use std::path::{Path, PathBuf};
use std::process::{Command, Stdio};
use std::thread;

use cases::allowances::{any_allowance_case, USED};
use cases::fields::{case_of_year, plain_case, refused_line};
use cases::generator::Generator;
use cases::random::any_case;
use cases::registers::LINE;
use common::book::numbers_of;
use common::conversation::Conversation;
use reference::calendar::Date;
use reference::case_line::{characters, MOST_CHARACTERS};
use reference::quotes::REGISTER_LENGTH;

/// The proved program: named by `PENSION_QUOTES`, or where it is built.
fn proved_program() -> PathBuf {
    let built = || Path::new(env!("CARGO_MANIFEST_DIR")).join("../../target/bin/quotes");
    let program = env::var_os("PENSION_QUOTES").map_or_else(built, PathBuf::from);
    assert!(
        program.is_file(),
        "{} is not there: run `make -C host program` first",
        program.display()
    );
    program
}

/// Feeds a program and gives what it prints. It must end well and report no
/// error.
fn printed_by(program: &Path, input: &[u8]) -> Vec<u8> {
    let mut child = Command::new(program)
        .stdin(Stdio::piped())
        .stdout(Stdio::piped())
        .stderr(Stdio::piped())
        .spawn()
        .expect("the program starts");
    let mut stdin = child.stdin.take().expect("standard input is piped");
    let output = thread::scope(|scope| {
        scope.spawn(move || stdin.write_all(input).expect("the program reads its input"));
        child.wait_with_output().expect("the program ends")
    });
    assert_eq!(output.stderr.escape_ascii().to_string(), "");
    assert!(output.status.success(), "{} ended with {}", program.display(), output.status);
    output.stdout
}

/// Feeds both programs and gives what both print.
fn assert_printed(input: &[u8]) -> Vec<u8> {
    let expected = printed_by(Path::new(env!("CARGO_BIN_EXE_quotes")), input);
    let printed = printed_by(&proved_program(), input);
    if printed != expected {
        let differs = printed.iter().zip(&expected).position(|(one, other)| one != other);
        let place = differs.unwrap_or(printed.len().min(expected.len()));
        panic!(
            "output differs at byte {place}: {:?} for {:?}; input starts {}",
            excerpt(&printed, place),
            excerpt(&expected, place),
            input[..input.len().min(2_000)].escape_ascii()
        );
    }
    printed
}

/// A part of an output, for the message of a failure.
fn excerpt(output: &[u8], place: usize) -> String {
    output[place..output.len().min(place + 80)].escape_ascii().to_string()
}

/// Characters of a printed refusal, its newline included.
const REFUSAL: usize = 4;

/// Characters of input that the proved program takes at a time.
const BLOCK: usize = 1 << 16;

const EXAMPLE: &[u8] =
    b"0000000107B2060F07E707010101002DC6C007C9060107E70701000000000000000000\n00\n";

/// What the first line of the example is filed as, in an empty register.
fn example_quote() -> Vec<u8> {
    let mut line = b"000000010000000100F1BACB00F1BACB0024426C".to_vec();
    line.resize(LINE - 1, b'0');
    line.push(b'\n');
    line
}

#[test]
fn the_example() {
    let expected = [example_quote(), b"R02\n".to_vec()].concat();
    assert_eq!(assert_printed(EXAMPLE), expected);
    assert_eq!(assert_printed(&EXAMPLE[..EXAMPLE.len() - 1]), expected);
}

#[test]
fn blank_inputs() {
    assert_eq!(assert_printed(b""), b"");
    assert_eq!(assert_printed(b"\n"), b"R02\n");
    assert_eq!(assert_printed(b"\n\n\n"), b"R02\nR02\nR02\n");
    assert_eq!(assert_printed(b"\0"), b"R01\n");
    assert_eq!(assert_printed(b"0"), b"R02\n");
}

#[test]
fn no_final_newline() {
    let line = plain_case(&[1, 3]).line();
    assert_eq!(assert_printed(&line).len(), LINE);
    assert_eq!(assert_printed(&[&line[..], b"\n", &line].concat()).len(), 2 * LINE);
    assert_eq!(assert_printed(&[&line[..], b"\n\n"].concat())[LINE..], *b"R02\n");
}

#[test]
fn carriage_returns_are_bad_characters() {
    let line = plain_case(&[2]).line();
    assert_eq!(
        assert_printed(&[&line[..], b"\r\n", &line, b"\r\n\r\n"].concat()),
        b"R01\nR01\nR01\n"
    );
}

#[test]
fn every_refusal_of_a_line() {
    let lines: Vec<Vec<u8>> =
        (1..=10).map(|refusal| [refused_line(refusal), b"\n".to_vec()].concat()).collect();
    assert_eq!(
        assert_printed(&lines.concat()),
        b"R01\nR02\nR03\nR04\nR05\nR06\nR07\nR08\nR09\nR10\n"
    );
}

/// More good lines than the register has room for, among refused ones.
#[test]
fn two_thousand_mixed_lines() {
    let mut random = Generator::for_test("two_thousand_mixed_lines");
    let mut input = Vec::new();
    for _ in 0..2_000 {
        match random.below(8) {
            0 => input.extend(refused_line(random.within(1..=10))),
            1 => {
                let length = random.below(300);
                input.extend(random.digits(length));
            }
            2 if random.once_in(2) => {}
            3..5 => input.extend(any_allowance_case(&mut random).line()),
            _ => input.extend(any_case(&mut random).line()),
        }
        input.push(b'\n');
    }
    let printed = assert_printed(&input);
    assert!(printed.windows(4).any(|line| line == b"R12\n"));
}

/// The program gives the first number 1: its lines are numbered from 1, whatever
/// year the cases commence in.
#[test]
fn numbers_from_1_in_every_year() {
    let line_of = |year| [case_of_year(year).line(), b"\n".to_vec()].concat();
    let every_year: Vec<u8> = (1918..=2199).flat_map(line_of).collect();
    let numbers: Vec<u32> = (1..=282).collect();
    assert_eq!(numbers_of(&assert_printed(&every_year)), numbers);
    for year in [1918, 1999, 2024, 2199] {
        let printed = assert_printed(&[b"00\n", &line_of(year)[..], &line_of(2023)].concat());
        assert_eq!(printed[..REFUSAL], *b"R02\n");
        assert_eq!(numbers_of(&printed[REFUSAL..]), [1, 2]);
    }
}

/// Lines that end with a used amount, on the day before the allowance's first
/// and on that day: the total is the third number of a printed line.
#[test]
fn lines_with_a_used_amount() {
    for count in 1..=4 {
        let mut case = plain_case(&vec![1; count]);
        case.pensions.iter_mut().for_each(|pension| pension.yearly = 10_000_000);
        let mut input = Vec::new();
        for (day, used) in [5, 6].into_iter().flat_map(|day| USED.map(|used| (day, used))) {
            case.commencement = Date::new(2024, 4, day);
            case.used_allowance = used;
            input.extend(case.line());
            input.push(b'\n');
        }
        let printed = String::from_utf8(assert_printed(&input)).expect("digits and newlines");
        let totals: Vec<&str> = printed.lines().map(|line| &line[16..24]).collect();
        let (before, from_first_day) = totals.split_at(USED.len());
        assert!(before.iter().all(|&total| total == before[0] && total > "03000000"));
        let left = ["01995AEC", "01995AEC", "01995AEB", "00000001"];
        assert_eq!(from_first_day[..4], left);
        assert_eq!(from_first_day[4..], ["00000000"; 3]);
    }
}

/// Lines of every length from that of four pensions to some more than the
/// program keeps, with good characters and with a bad one at each of the last ten
/// places, between good lines.
#[test]
fn lengths_next_to_those_of_long_lines() {
    let mut case = plain_case(&[1, 1, 3, 3]);
    case.used_allowance = Some(0);
    let good = case.line();
    for length in characters(4) - 2..=MOST_CHARACTERS + 6 {
        let line = &[&good[..], b"0123456789"].concat()[..length];
        let mut input = [line, b"\n", &good, b"\n"].concat();
        let is_case = length == characters(4) || length == MOST_CHARACTERS;
        let mut expected = if is_case { LINE } else { REFUSAL } + LINE;
        for place in length - 10..length {
            let mut bad = line.to_vec();
            bad[place] = b'g';
            input.extend(bad);
            input.push(b'\n');
            expected += REFUSAL;
        }
        input.extend(&good);
        let printed = assert_printed(&input);
        assert_eq!(printed.len(), expected + LINE, "{length} characters");
        let lines: Vec<&[u8]> = printed.split(|&character| character == b'\n').collect();
        assert_eq!(lines[0] == b"R02", !is_case, "{length} characters");
        assert!(lines[2..12].iter().all(|line| *line == b"R01"), "{length} characters");
        // The line ended by the input's end.
        assert_eq!(assert_printed(line).len(), if is_case { LINE } else { REFUSAL });
    }
}

/// Random bytes, newlines among them.
#[test]
fn random_bytes() {
    let mut random = Generator::for_test("random_bytes");
    for length in [1, 10, 1_000, 70_000] {
        assert_printed(&random.bytes(length));
    }
}

/// Lines of several megabytes, good characters and bad ones, between others.
#[test]
fn long_lines() {
    let good = plain_case(&[1]).line();
    let long = vec![b'F'; 3 << 20];
    let mut bad = vec![b'0'; 1 << 20];
    bad.push(b'x');
    let input = [&good[..], &long, &good, &bad, &bad[..1 << 20]].join(&b'\n');
    let printed = assert_printed(&input);
    assert_eq!(printed.len(), 2 * LINE + 3 * REFUSAL);
    assert!(printed.ends_with(b"R01\nR02\n"));
}

/// One bad character at any place of a line of several blocks.
#[test]
fn a_bad_character_anywhere_in_a_long_line() {
    let good = plain_case(&[1]).line();
    // Of a line without its end the program keeps one character more than a
    // case line has, and reads on behind those.
    let kept = MOST_CHARACTERS + 1;
    let near_kept = [0, 1, characters(4), characters(4) + 1, kept - 1, kept, kept + 1, 300];
    let near_blocks = [BLOCK - kept - 1, BLOCK - kept, BLOCK - 1, BLOCK, 2 * BLOCK - kept - 1];
    for place in near_kept.into_iter().chain(near_blocks).chain([199_999]) {
        let mut long = vec![b'F'; 200_000];
        long[place] = b'x';
        let printed = assert_printed(&[&long[..], b"\n", &good].concat());
        assert!(printed.starts_with(b"R01\n0000000100C0FFEE"));
        // The same line, ended by the input's end.
        assert_eq!(assert_printed(&long), b"R01\n");
    }
}

/// Lines of the greatest length, with a used amount and without, and of one more,
/// cut anywhere by a block's end.
#[test]
fn lines_across_a_block() {
    let mut case = plain_case(&[1, 1, 3, 3]);
    for used in [None, Some(26_000_000)] {
        case.used_allowance = used;
        let good = case.line();
        for before in (0..=good.len() + 2).step_by(3) {
            let mut input = vec![b'\n'; BLOCK - before];
            for line in [&good[..], b"\n", &good, b"0\n", &good] {
                input.extend_from_slice(line);
            }
            let printed = assert_printed(&input);
            assert_eq!(printed.len(), REFUSAL * (BLOCK - before) + 2 * LINE + REFUSAL);
        }
    }
}

/// Tens of thousands of lines after the register is full.
#[test]
fn a_long_input() {
    let line = [plain_case(&[1, 1, 3, 3]).line(), b"\n".to_vec()].concat();
    let printed = assert_printed(&line.repeat(20_000));
    let filed = REGISTER_LENGTH / LINE;
    assert_eq!(printed.len(), filed * LINE + (20_000 - filed) * REFUSAL);
}

/// A host that sends a line only when the answer to the one before has come.
#[test]
fn each_line_is_answered_before_the_next() {
    let mut talk = Conversation::with(&proved_program());
    let (line, second) = EXAMPLE.split_at(characters(1) + 1);
    talk.say(line);
    assert_eq!(talk.answer(), example_quote());
    talk.say(second);
    assert_eq!(talk.answer(), b"R02\n");
    // Lines that come together are answered together.
    talk.say(&[b"\n", line, b"x\n"].concat());
    assert_eq!(talk.answer(), b"R02\n");
    assert!(talk.answer().starts_with(b"0000000200000001"));
    assert_eq!(talk.answer(), b"R01\n");
    talk.close();
    talk.assert_ended();
}

/// A line is answered when its newline comes, or the input's end.
#[test]
fn half_a_line_is_answered_when_it_ends() {
    let mut talk = Conversation::with(&proved_program());
    let line = &EXAMPLE[..characters(1)];
    talk.say(&line[..30]);
    talk.assert_silent();
    talk.say(&line[30..]);
    talk.assert_silent();
    talk.say(b"\n0");
    assert_eq!(talk.answer(), example_quote());
    talk.assert_silent();
    talk.close();
    assert_eq!(talk.answer(), b"R02\n");
    talk.assert_ended();
}

/// What the proved program prints of the example and says on standard error,
/// where one of the two files can't be used. It ends, and not well.
fn failing(input: &str, output: Stdio) -> (Vec<u8>, String) {
    let run = Command::new(proved_program())
        .stdin(File::open(input).expect("the input opens"))
        .stdout(output)
        .stderr(Stdio::piped())
        .spawn()
        .and_then(|program| program.wait_with_output())
        .expect("the program ends");
    assert!(!run.status.success(), "a run that failed ended well");
    (run.stdout, String::from_utf8(run.stderr).expect("a message of text"))
}

/// Answers that can't be written are not lost in silence.
#[test]
fn a_full_disk_is_told() {
    let example = concat!(env!("CARGO_MANIFEST_DIR"), "/../../docs/example.txt");
    let full = File::options().write(true).open("/dev/full").expect("the full device opens");
    let (_, told) = failing(example, full.into());
    assert!(told.contains("No space left on device"), "{told}");
}

/// An input that can't be read, as a directory, is not taken for an empty one.
#[test]
fn an_unreadable_input_is_told() {
    let (printed, told) = failing("/", Stdio::piped());
    assert_eq!(printed, b"");
    assert!(told.contains("Is a directory"), "{told}");
}
