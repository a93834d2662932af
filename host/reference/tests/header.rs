//! The C header, as a C compiler reads it: its structs and constants against
//! those of the Rust side, and every call made from C.

use std::env;
use std::fmt::Write;
use std::fs;
use std::mem::{offset_of, size_of};
use std::path::{Path, PathBuf};
use std::process::Command;

use engine::{
    Checked, Commuted, Filed, FiledLines, Found, FoundMember, Quote, Written, MOST_PENSIONS,
};
use reference::calendar::DateFault;
use reference::{case_line, register, Refusal};

/// Every warning is an error.
const FLAGS: [&str; 7] =
    ["-std=c11", "-O2", "-Wall", "-Wextra", "-Wpedantic", "-Wconversion", "-Werror"];

/// A file of this package, or, through `..`, of one beside it.
fn file(name: &str) -> PathBuf {
    Path::new(env!("CARGO_MANIFEST_DIR")).join(name)
}

/// A file that a test makes.
fn made_file(name: &str) -> PathBuf {
    Path::new(env!("CARGO_TARGET_TMPDIR")).join(name)
}

/// The C compiler, on a file that includes the header in a folder.
fn compiler(source: &Path, include: &Path) -> Command {
    let mut compiler = Command::new(env::var_os("CC").unwrap_or_else(|| "cc".into()));
    compiler.args(FLAGS).arg("-I").arg(include).arg(source);
    compiler
}

/// Compiles header.c with the header and links it with the engine's archive.
fn compiled_program() -> PathBuf {
    let program = made_file("header");
    let status = compiler(&file("tests/header.c"), &file("../include"))
        .arg(file("../../target/staticlib/libpension.a"))
        .arg("-o")
        .arg(&program)
        .status()
        .expect("a C compiler starts");
    assert!(status.success(), "header.c does not compile");
    program
}

fn size_of_field<S, F>(_: fn(&S) -> &F) -> usize {
    size_of::<F>()
}

/// Writes a struct's name and size, and each field's name, offset and size.
macro_rules! write_struct {
    ($text:ident, $name:literal, $type:ty: $($field:ident),+) => {
        writeln!($text, "{} {}", $name, size_of::<$type>()).expect("text grows");
        $(
            let (offset, size) =
                (offset_of!($type, $field), size_of_field(|value: &$type| &value.$field));
            writeln!($text, "{}.{} {offset} {size}", $name, stringify!($field)).expect("text grows");
        )+
    };
}

/// The structs of the Rust side, as header.c prints those of the header.
fn structs() -> String {
    let mut text = String::new();
    write_struct!(text, "pension_quote", Quote: refusal, member, total, lump, remaining, second);
    write_struct!(text, "pension_checked", Checked: refusal, offset);
    write_struct!(text, "pension_filed", Filed: refusal, used);
    write_struct!(text, "pension_filed_lines", FiledLines: used, lines);
    write_struct!(text, "pension_found", Found: refusal, offset, length);
    write_struct!(text, "pension_found_member", FoundMember: refusal, offset, length, compared);
    write_struct!(text, "pension_commuted", Commuted: refusal, lump);
    write_struct!(text, "pension_written", Written: refusal, used);
    text
}

/// The refusals and their names in the header.
fn refusals() -> Vec<(&'static str, usize)> {
    let refusals = [
        ("BAD_CHARACTER", Refusal::Character),
        ("BAD_LENGTH", Refusal::Length),
        ("BAD_DATE", Refusal::Date),
        ("BAD_ORDER", Refusal::DateOrder),
        ("BAD_AGE", Refusal::Age),
        ("UNKNOWN_KIND", Refusal::Kind),
        ("BAD_TERMS", Refusal::Terms),
        ("WRONG_AGE", Refusal::KindAtAge),
        ("NO_FACTOR", Refusal::AgeOutsideTable),
        ("BAD_AMOUNT", Refusal::StatedPension),
        ("BAD_REGISTER", Refusal::Register),
        ("NO_SPACE", Refusal::NoSpace),
        ("NO_NUMBER", Refusal::LastNumber),
        ("ABSENT", Refusal::Absent),
        ("NOT_COMMUTABLE", Refusal::NotCommutable),
        ("NOT_JOINABLE", Refusal::NotJoinable),
        ("TARGET_TOO_SHORT", Refusal::TargetTooShort),
    ];
    refusals.map(|(name, refusal)| (name, usize::from(refusal.number()))).to_vec()
}

/// The faults of a date and their names in the header.
fn date_faults() -> Vec<(&'static str, usize)> {
    let faults = [
        ("DATE_WRONG_DAY", DateFault::Day),
        ("DATE_WRONG_MONTH", DateFault::Month),
        ("DATE_WRONG_YEAR", DateFault::Year),
        ("DATE_PAST_MONTH_END", DateFault::MonthLength),
    ];
    faults.map(|(name, fault)| (name, usize::from(fault.number()))).to_vec()
}

/// The constants, as header.c prints those of the header.
fn constants() -> String {
    let mut constants = vec![
        ("LINE_LENGTH", register::LINE_LENGTH),
        ("CASE_LENGTH", case_line::MOST_CHARACTERS),
        ("MOST", MOST_PENSIONS),
        ("GRANTED", 0),
    ];
    constants.extend(refusals());
    constants.push(("DATE_GOOD", 0));
    constants.extend(date_faults());
    constants.iter().map(|(name, value)| format!("PENSION_{name} {value}\n")).collect()
}

#[test]
fn the_header_for_c() {
    let output = Command::new(compiled_program()).output().expect("the program starts");
    let printed = String::from_utf8(output.stdout).expect("names and numbers");
    let expected = structs() + &constants();
    for (printed, expected) in printed.lines().zip(expected.lines()) {
        assert_eq!(printed, expected, "pension.h differs from the Rust side");
    }
    assert_eq!(printed, expected);
    assert_eq!(output.stderr.escape_ascii().to_string(), "");
    assert!(output.status.success(), "header.c ended with {}", output.status);
}

/// Whether the benchmark's calls.c compiles with a header of this text.
fn timed_calls_compile(header: &str) -> bool {
    let include = made_file("include");
    fs::create_dir_all(&include).expect("a folder can be made");
    fs::write(include.join("pension.h"), header).expect("a file can be written");
    let mut compiler = compiler(&file("../bench/calls.c"), &include);
    let output = compiler.arg("-fsyntax-only").output().expect("a C compiler starts");
    output.status.success()
}

/// The benchmark's calls.c compiles with the header, and not where a call that is
/// timed has another type.
#[test]
fn the_calls_that_are_timed() {
    let header = fs::read_to_string(file("../include/pension.h")).expect("the header is there");
    assert!(timed_calls_compile(&header), "calls.c does not compile with pension.h");
    let changes = [
        (
            "struct pension_found_member pension_find_member",
            "struct pension_found pension_find_member",
        ),
        ("size_t used, uint32_t member", "size_t used, uint64_t member"),
        ("uint32_t first_number", "uint64_t first_number"),
        ("size_t compared;", "uint32_t compared;"),
        ("size_t compared;", "size_t compared, checked;"),
        ("struct pension_checked {", "struct pension_checked { uint64_t lines;"),
    ];
    for (here, other) in changes {
        assert!(header.contains(here), "{here}");
        assert!(!timed_calls_compile(&header.replace(here, other)), "calls.c takes: {other}");
    }
}
