//! The jobs, done by both sides of a comparison.

use std::fmt::Debug;
use std::io;
use std::path::PathBuf;

use cases::registers::{own_member, LINE, NOBODY};
use engine::{Found, FoundMember};
use reference::register::lines;
use reference::Refusal;

use crate::implementations::Implementation;
use crate::programs::{run, Input};
use crate::table::{with_commas, Table};
use crate::work::Effort;

const FEW_LINES: usize = 10_000;
const MANY_LINES: usize = 100_000;

/// One of the two: what does its calls, and its program `quotes`.
pub struct Side<I> {
    pub calls: I,
    pub program: PathBuf,
}

/// Two that do the same jobs and must give the same answers.
pub struct Comparison<L, R> {
    pub left: Side<L>,
    pub right: Side<R>,
    pub effort: Effort,
    pub table: Table,
}

impl<L: Implementation, R: Implementation> Comparison<L, R> {
    /// Asserts that both give the same whole quote for every line of a text.
    pub fn assert_same_quotes(&self, text: &[u8]) {
        for line in lines(text) {
            let quotes = (self.left.calls.quote(line), self.right.calls.quote(line));
            assert_eq!(quotes.0, quotes.1, "{}", line.escape_ascii());
        }
    }

    pub fn quote_lines(&self, job: &str, text: &[u8]) {
        let lines: Vec<&[u8]> = lines(text).collect();
        let timed = self.effort.time(
            || lines.iter().map(|line| self.left.calls.total(line)).sum::<u64>(),
            || lines.iter().map(|line| self.right.calls.total(line)).sum::<u64>(),
        );
        self.table.print_per_line(job, &timed, lines.len());
    }

    /// The jobs of programs and registers that every comparison has.
    pub fn file_and_find(&self, text: &[u8], register: &[u8]) -> io::Result<()> {
        self.run_programs(text)?;
        for count in [FEW_LINES, MANY_LINES] {
            self.file_lines(text, count);
        }
        self.check(register);
        let last = register.len() / LINE - 1;
        let places = [("newest", last), ("middle", last / 2), ("oldest", 0)];
        for (which, line) in places {
            self.find_number(register, which, line);
        }
        for (which, line) in places {
            self.find_member(register, which, line);
        }
        Ok(())
    }

    fn run_programs(&self, text: &[u8]) -> io::Result<()> {
        let input = Input::write(text)?;
        let (mut left, mut right) = (Vec::new(), Vec::new());
        let timed = self.effort.time(
            || run(&self.left.program, &input, &mut left),
            || run(&self.right.program, &input, &mut right),
        );
        assert!(left == right, "the programs print different lines");
        self.table.print_per_line("program quotes, 1,000,000 lines", &timed, lines(text).count());
        Ok(())
    }

    fn file_lines(&self, text: &[u8], count: usize) {
        let length = lines(text).take(count).map(|line| line.len() + 1).sum();
        let text: &[u8] = &text[..length];
        let mut left = Buffers::for_lines(count);
        let mut right = Buffers::for_lines(count);
        let timed = self.effort.time(
            || self.left.calls.file_all(&mut left.register, text, &mut left.refusals),
            || self.right.calls.file_all(&mut right.register, text, &mut right.refusals),
        );
        assert!(left == right, "file_all leaves different bytes");
        self.table.print_per_line(&format!("file_all of {count} lines"), &timed, count);
    }

    fn check(&self, register: &[u8]) {
        let timed = self
            .effort
            .time(|| self.left.calls.check(register), || self.right.calls.check(register));
        self.table.print_whole("check of a register of 100 MB", &timed);
    }

    /// Finds a line by its number; the first line has number 1.
    fn find_number(&self, register: &[u8], which: &str, line: usize) {
        let number = u32::try_from(line + 1).expect("a short register");
        let expected = Found { refusal: 0, offset: line * LINE, length: LINE };
        self.find(
            &format!("find the {which} number in it"),
            expected,
            || self.left.calls.find_number(register, number),
            || self.right.calls.find_number(register, number),
        );
    }

    /// Finds a line by its member, which no other line has.
    fn find_member(&self, register: &[u8], which: &str, line: usize) {
        let compared = register.len() / LINE - line;
        let expected = FoundMember { refusal: 0, offset: line * LINE, length: LINE, compared };
        let job = format!("find the {which} line's member in it");
        self.look_for_member(register, &job, own_member(line), expected);
    }

    /// Looks for a member that no line has.
    pub fn find_nobody(&self, register: &[u8]) {
        let refusal = u32::from(Refusal::Absent.number());
        let compared = register.len() / LINE;
        let expected = FoundMember { refusal, compared, ..FoundMember::default() };
        self.look_for_member(register, "find an absent member in it", NOBODY, expected);
    }

    /// Looks for a member. The row tells how many lines are compared, so that
    /// the count can be held against the time.
    fn look_for_member(&self, register: &[u8], job: &str, member: u32, expected: FoundMember) {
        let lines = if expected.compared == 1 { "line" } else { "lines" };
        self.find(
            &format!("{job}: {} {lines} compared", with_commas(expected.compared)),
            expected,
            || self.left.calls.find_member(register, member),
            || self.right.calls.find_member(register, member),
        );
    }

    fn find<T: PartialEq + Debug>(
        &self,
        job: &str,
        expected: T,
        left: impl Fn() -> T,
        right: impl Fn() -> T,
    ) {
        assert_eq!(left(), expected, "{job}");
        self.table.print_whole(job, &self.effort.time(left, right));
    }
}

/// What one side files into.
#[derive(PartialEq)]
struct Buffers {
    register: Vec<u8>,
    refusals: Vec<u8>,
}

impl Buffers {
    fn for_lines(count: usize) -> Buffers {
        Buffers { register: vec![0xEE; count * LINE], refusals: vec![0xEE; count] }
    }
}
