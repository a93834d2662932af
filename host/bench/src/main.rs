//! The same work by two, in one run: by the proved engine and by the
//! reference, or by two archives of the engine and their programs; and joining by
//! the engine and by plain copying.
//!
//! Each job is done by both in turn, several times, and the shortest time of
//! each counts. Buffers are written once before the clock starts.

#![deny(unsafe_code)]

#[allow(unsafe_code)]
mod archive;
mod comparison;
mod implementations;
mod joining;
mod programs;
mod table;
mod work;

use std::env;
use std::ffi::OsString;
use std::io;
use std::path::{Path, PathBuf};
use std::process::ExitCode;
use std::time::Duration;

use cases::allowances::cut_line;
use cases::generator::Generator;
use cases::month_ends::month_end_case;
use cases::random::{mixed_text, text_of};
use cases::registers::{set_own_members, sound_register, LINE};

use archive::Archive;
use comparison::{Comparison, Side};
use implementations::{LinkedEngine, Reference};
use joining::compare_joining;
use table::{Quotient, Table};
use work::Effort;

const LINES: usize = 1_000_000;
const REGISTER_BYTES: usize = 100_000_000;
const MIXED: &str = "quote 1,000,000 mixed lines";
const MONTH_ENDS: &str = "quote 1,000,000 lines of month ends and leap days";
const CUT: &str = "quote 1,000,000 lines with a used amount, cut by the allowance";

fn main() -> ExitCode {
    match compare() {
        Ok(()) => ExitCode::SUCCESS,
        Err(error) => {
            eprintln!("bench: {error}");
            ExitCode::FAILURE
        }
    }
}

/// Compares what the arguments name.
fn compare() -> io::Result<()> {
    let arguments: Vec<OsString> = env::args_os().skip(1).collect();
    match arguments.as_slice() {
        [] => compare_with_reference(),
        [mode, before, after, before_quotes, after_quotes] if mode == "compare" => {
            let before = loaded(before.as_ref(), before_quotes.as_ref())?;
            let after = loaded(after.as_ref(), after_quotes.as_ref())?;
            compare_archives(before, after)
        }
        _ => Err(io::Error::other(
            "give no argument, or: compare BEFORE_SO AFTER_SO BEFORE_QUOTES AFTER_QUOTES",
        )),
    }
}

/// The engine that this program is linked with against the reference, and in
/// joining against plain copying too.
fn compare_with_reference() -> io::Result<()> {
    let made = PathBuf::from(env!("CARGO_MANIFEST_DIR")).join("../../target/bin");
    let own_folder = programs::own_folder()?;
    let comparison = Comparison {
        left: Side { calls: LinkedEngine, program: made.join("quotes") },
        right: Side { calls: Reference, program: own_folder.join("quotes") },
        effort: Effort { runs: 7, time: Duration::ZERO },
        table: Table { left: "engine", right: "reference", quotient: Quotient::LeftByRight },
    };
    let mut random = Generator::for_test("bench");
    let text = mixed_text(&mut random, LINES);
    let register = register(&mut random);
    let mut random = Generator::for_test("bench of the allowance");
    let cut = text_of(LINES, || cut_line(&mut random));
    comparison.assert_same_quotes(&cut);
    comparison.table.print_heading();
    comparison.quote_lines(MIXED, &text);
    comparison.quote_lines(CUT, &cut);
    comparison.file_and_find(&text, &register)?;
    compare_joining(&comparison.effort, &comparison.table);
    Ok(())
}

/// An archive against another. Every line is quoted by both before the first
/// row is printed, and every figure of the quotes must agree.
fn compare_archives(before: Side<Archive>, after: Side<Archive>) -> io::Result<()> {
    let comparison = Comparison {
        left: before,
        right: after,
        effort: Effort { runs: 15, time: Duration::from_secs(2) },
        table: Table { left: "before", right: "after", quotient: Quotient::RightByLeft },
    };
    let mut random = Generator::for_test("bench");
    let text = mixed_text(&mut random, LINES);
    let register = register(&mut random);
    let mut random = Generator::for_test("bench of month ends");
    let month_ends = text_of(LINES, || month_end_case(&mut random).line());
    comparison.assert_same_quotes(&text);
    comparison.assert_same_quotes(&month_ends);
    comparison.table.print_heading();
    comparison.quote_lines(MIXED, &text);
    comparison.quote_lines(MONTH_ENDS, &month_ends);
    comparison.file_and_find(&text, &register)?;
    comparison.find_nobody(&register);
    Ok(())
}

fn loaded(object: &Path, program: &Path) -> io::Result<Side<Archive>> {
    Ok(Side { calls: Archive::load(object)?, program: program.to_path_buf() })
}

/// A register with a member of its own in every line.
fn register(random: &mut Generator) -> Vec<u8> {
    let mut register = sound_register(random, REGISTER_BYTES / LINE, 1);
    set_own_members(&mut register);
    register
}
