//! The plain book that stands beside a list of filings: register lines one below
//! the other, with no buffer and no used length to go wrong. Lists and texts are
//! filed here and held against it.

use cases::answers;
use cases::registers::LINE;
use engine::Quote;

use super::compare::{assert_check, assert_file, assert_file_all};

/// A byte of a buffer that nothing was written into.
pub const UNTOUCHED: u8 = 0xEE;

/// A filing of a list: its first number and its case line.
pub type Filing = (u32, Vec<u8>);

/// The lines of the granted filings, in a buffer of some length.
pub struct Book {
    length: usize,
    /// The first number, as the first granted filing set it.
    first: Option<u32>,
    lines: Vec<Vec<u8>>,
}

impl Book {
    /// A book with no lines.
    pub fn empty(length: usize) -> Book {
        Book { length, first: None, lines: Vec::new() }
    }

    /// Files a case line and gives its refusal, 0 for none. The kth line has the
    /// first number plus k less one.
    pub fn file(&mut self, first_number: u32, line: &[u8]) -> u32 {
        let quote = answers::quote(line);
        let refusal = if quote.refusal != 0 { quote.refusal } else { self.refusal() };
        if refusal == 0 {
            let first = *self.first.get_or_insert_with(|| number_set(first_number, line));
            let k = self.lines.len() as u32 + 1;
            self.lines.push(register_line(first + (k - 1), &quote));
        }
        refusal
    }

    /// The refusal of an accepted case. A book is never bad, so that only room
    /// and numbers can be wanting.
    fn refusal(&self) -> u32 {
        let has_last_number = self.lines.last().is_some_and(|line| line.starts_with(b"FFFFFFFF"));
        if self.length < (self.lines.len() + 1) * LINE {
            12
        } else if has_last_number {
            13
        } else {
            0
        }
    }

    /// The length of the book's lines.
    pub fn used(&self) -> usize {
        self.lines.len() * LINE
    }

    /// A buffer of the book's length after the filings: it begins with the lines,
    /// and the bytes past them are as they were.
    pub fn written_over(&self, buffer: &[u8]) -> Vec<u8> {
        [&self.lines.concat(), &buffer[self.used()..]].concat()
    }
}

/// What a list of filings leaves.
pub struct Listed {
    pub refusals: Vec<u32>,
    pub register: Vec<u8>,
    pub used: usize,
}

impl Listed {
    /// The numbers of the lines.
    pub fn numbers(&self) -> Vec<u32> {
        numbers_of(&self.register[..self.used])
    }

    /// Asserts that the register is as a book has it, and sound.
    fn assert_as_in(&self, book: &Book, buffer: &[u8]) {
        assert_eq!(self.used, book.used());
        assert!(
            self.register == book.written_over(buffer),
            "the book has other lines: {}",
            self.register.escape_ascii()
        );
        assert_eq!(assert_check(&self.register, self.used).refusal, 0);
    }
}

/// Files a list into a buffer that has no lines at first, one filing after the
/// other, and asserts after each that a plain book has the same.
pub fn assert_list(buffer: &[u8], filings: &[Filing]) -> Listed {
    let mut book = Book::empty(buffer.len());
    let mut listed = Listed { refusals: Vec::new(), register: buffer.to_vec(), used: 0 };
    for (first_number, line) in filings {
        let (filed, after) = assert_file(&listed.register, listed.used, *first_number, line);
        listed.refusals.push(filed.refusal);
        listed.register = after;
        let refusal = book.file(*first_number, line);
        assert_eq!(filed.refusal, refusal, "{first_number}, {}", line.escape_ascii());
        if filed.refusal == 0 {
            listed.used = filed.used;
        } else {
            assert_eq!(filed.used, 0);
        }
        listed.assert_as_in(&book, buffer);
    }
    listed
}

/// Files the lines of a text into a buffer that has no lines at first, by every
/// call for texts, and asserts that a plain book has the same.
pub fn assert_text(buffer: &[u8], first_number: u32, lines: &[Vec<u8>]) -> Listed {
    let mut book = Book::empty(buffer.len());
    let refusals: Vec<u32> = lines.iter().map(|line| book.file(first_number, line)).collect();
    let room = vec![UNTOUCHED; lines.len()];
    let filed = assert_file_all(buffer, first_number, &text_from(lines), &room);
    let listed = Listed {
        refusals: filed.refusals.into_iter().map(u32::from).collect(),
        register: filed.register,
        used: filed.used,
    };
    assert_eq!(listed.refusals, refusals);
    listed.assert_as_in(&book, buffer);
    listed
}

/// A text of lines, each ended by a newline.
pub fn text_from(lines: &[Vec<u8>]) -> Vec<u8> {
    lines.iter().flat_map(|line| [line, &b"\n"[..]].concat()).collect()
}

/// The first number that an accepted case sets: the one given, or, for 0, that of
/// the year which the line has behind member and birth.
fn number_set(first_number: u32, line: &[u8]) -> u32 {
    match first_number {
        0 => number_in(&line[16..20]) * 100_000 + 1,
        given => given,
    }
}

/// The register line of a quote.
pub fn register_line(number: u32, quote: &Quote) -> Vec<u8> {
    let mut line = format!("{number:08X}{:08X}{:08X}", quote.member, quote.total);
    for place in 0..4 {
        let (lump, remaining) = (quote.lump[place], quote.remaining[place]);
        let second = quote.second[place];
        line.push_str(&format!("{lump:08X}{remaining:08X}{second:08X}"));
    }
    line.push('\n');
    line.into_bytes()
}

/// The quote numbers of register lines.
pub fn numbers_of(lines: &[u8]) -> Vec<u32> {
    lines.chunks(LINE).map(|line| number_in(&line[..8])).collect()
}

/// The number that uppercase hexadecimal digits stand for.
fn number_in(digits: &[u8]) -> u32 {
    digits.iter().fold(0, |number, digit| {
        let value = b"0123456789ABCDEF".iter().position(|other| other == digit);
        16 * number + value.expect("a digit") as u32
    })
}
