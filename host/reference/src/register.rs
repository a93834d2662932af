//! The register of quotes: numbered lines in bytes lent by the caller.

use std::ops::Range;

use crate::acceptance::accept;
use crate::calendar::Date;
use crate::case_line::MOST_PENSIONS;
use crate::hexadecimal::{self, NUMBER_DIGITS};
use crate::refusals::Refusal;
use crate::split::{self, Case, Quote};

/// Hexadecimal digits of a register line.
pub const LINE_DIGITS: usize = NUMBERS_IN_LINE * NUMBER_DIGITS;
/// Bytes of a register line, its newline included.
pub const LINE_LENGTH: usize = LINE_DIGITS + 1;

/// Quote number, member and total lump sum.
const NUMBERS_IN_HEAD: usize = 3;
/// Lump sum, remaining pension and second instalment.
const NUMBERS_IN_PENSION: usize = 3;
const NUMBERS_IN_LINE: usize = NUMBERS_IN_HEAD + MOST_PENSIONS * NUMBERS_IN_PENSION;
const MEMBER_PLACE: Range<usize> = NUMBER_DIGITS..2 * NUMBER_DIGITS;

/// The first number that stands for the default. No line has it.
const DEFAULT: u32 = 0;
/// From the default first number of a year to that of the next.
const NUMBERS_OF_A_YEAR: u32 = 100_000;

/// Where a register is bad: the offset of its first bad character, or the used
/// length if that is bad itself.
#[derive(Clone, Copy, Debug, PartialEq, Eq)]
pub struct BadAt(pub usize);

impl From<BadAt> for Refusal {
    fn from(_: BadAt) -> Refusal {
        Refusal::Register
    }
}

/// Checks the used part of a register and gives its last quote number, 0 if
/// there is none.
pub fn check(register: &[u8], used: usize) -> Result<u32, BadAt> {
    if used > register.len() || !used.is_multiple_of(LINE_LENGTH) {
        return Err(BadAt(used));
    }
    let mut last = 0;
    for (place, line) in register[..used].chunks_exact(LINE_LENGTH).enumerate() {
        last = check_line(line, last).map_err(|bad| BadAt(place * LINE_LENGTH + bad))?;
    }
    Ok(last)
}

/// Checks one line behind the line numbered `last` (0 for the first line) and
/// gives its number, or the place of its first bad character. A wrong number
/// is bad at its first digit, before any bad character behind it.
fn check_line(line: &[u8], last: u32) -> Result<u32, usize> {
    let number = hexadecimal::read_number(number_field(line))?;
    let follows = if last == 0 { number != 0 } else { last.checked_add(1) == Some(number) };
    if !follows {
        return Err(0);
    }
    let bad_digit =
        line[..LINE_DIGITS].iter().position(|&character| !hexadecimal::is_digit(character));
    match bad_digit {
        Some(place) => Err(place),
        None if line[LINE_DIGITS] != b'\n' => Err(LINE_DIGITS),
        None => Ok(number),
    }
}

fn number_field(line: &[u8]) -> &[u8; NUMBER_DIGITS] {
    line.first_chunk().expect("a register line starts with its number")
}

/// Files a case line behind the used part of a register and gives the used
/// length from then on. The case line is tested first, then the register; the
/// first number is never refused. An empty register takes it for the line, 0
/// standing for that of the case's commencement year; one that has lines goes on
/// from its last and ignores it.
pub fn file(
    register: &mut [u8],
    used: usize,
    first_number: u32,
    line: &[u8],
) -> Result<usize, Refusal> {
    let case = accept(line)?;
    let mut ledger = Ledger::open(register, used)?;
    ledger.append(first_number, &case)?;
    Ok(ledger.used())
}

/// Files every line of a text into a register that starts empty, whatever its
/// bytes, and gives its used length. Every line is given the same first number,
/// which counts until one is filed. Each line's refusal (0 for none) goes into
/// `refusals` as far as there is room.
pub fn file_all(register: &mut [u8], first_number: u32, text: &[u8], refusals: &mut [u8]) -> usize {
    let mut ledger = Ledger::empty(register);
    let mut room = refusals.iter_mut();
    for line in lines(text) {
        let refusal = ledger.file(first_number, line).map_or_else(Refusal::number, |_| 0);
        if let Some(place) = room.next() {
            *place = refusal;
        }
    }
    ledger.used()
}

/// The lines of a text, without their newlines. The last needs none.
pub fn lines(text: &[u8]) -> impl Iterator<Item = &[u8]> {
    text.split_inclusive(|&character| character == b'\n')
        .map(|line| line.strip_suffix(b"\n").unwrap_or(line))
}

/// Finds the line with a quote number: its place in the register.
pub fn find_number(register: &[u8], used: usize, number: u32) -> Result<Range<usize>, Refusal> {
    let last = check(register, used)?;
    // Numbers rise by one, so a line's distance from the last is known.
    let newer = last.checked_sub(number).ok_or(Refusal::Absent)? as usize;
    let lines = used / LINE_LENGTH;
    if newer >= lines {
        return Err(Refusal::Absent);
    }
    Ok(line_place(lines - 1 - newer))
}

/// What looking for a member's newest line came to.
#[derive(Clone, Debug, PartialEq, Eq)]
pub struct MemberSearch {
    /// The line's place in the register, or none if the member is absent.
    pub place: Option<Range<usize>>,
    /// The lines compared, the one found included.
    pub compared: usize,
}

/// Looks for a member from the newest line back, in a register that is checked
/// first. Lines count as they are compared, not as they are checked.
pub fn find_member(register: &[u8], used: usize, member: u32) -> Result<MemberSearch, Refusal> {
    check(register, used)?;
    let mut digits = [0; NUMBER_DIGITS];
    hexadecimal::write_number(member, &mut digits);
    let mut search = MemberSearch { place: None, compared: 0 };
    for (place, line) in register[..used].chunks_exact(LINE_LENGTH).enumerate().rev() {
        search.compared += 1;
        if line[MEMBER_PLACE] == digits {
            search.place = Some(line_place(place));
            break;
        }
    }
    Ok(search)
}

fn line_place(line: usize) -> Range<usize> {
    line * LINE_LENGTH..(line + 1) * LINE_LENGTH
}

/// A register whose used part is known to be sound, so that many filings need
/// but one check.
#[derive(Debug)]
pub struct Ledger<'a> {
    register: &'a mut [u8],
    used: usize,
    last: u32,
}

impl<'a> Ledger<'a> {
    /// A register with no lines, whatever its bytes.
    pub fn empty(register: &'a mut [u8]) -> Self {
        Ledger { register, used: 0, last: 0 }
    }

    /// A register that may have lines, after checking them.
    pub fn open(register: &'a mut [u8], used: usize) -> Result<Self, Refusal> {
        let last = check(register, used)?;
        Ok(Ledger { register, used, last })
    }

    pub fn used(&self) -> usize {
        self.used
    }

    /// Files a case line and gives the register line written for it.
    pub fn file(&mut self, first_number: u32, line: &[u8]) -> Result<&[u8], Refusal> {
        let case = accept(line)?;
        self.append(first_number, &case)
    }

    /// Writes the register line of a case's quote behind the used part.
    fn append(&mut self, first_number: u32, case: &Case) -> Result<&[u8], Refusal> {
        let quote = split::quote(case);
        let line =
            self.register[self.used..].first_chunk_mut::<LINE_LENGTH>().ok_or(Refusal::NoSpace)?;
        let number = number_after(self.last, first_number, case.commencement)?;
        write_line(number, &quote, line);
        self.used += LINE_LENGTH;
        self.last = number;
        Ok(line)
    }
}

/// The number of a line behind the line numbered `last`. Where there is none (0)
/// it is the first number that comes with the case.
fn number_after(last: u32, first_number: u32, commencement: Date) -> Result<u32, Refusal> {
    match (last, first_number) {
        (0, DEFAULT) => Ok(default_first_number(commencement)),
        (0, given) => Ok(given),
        _ => last.checked_add(1).ok_or(Refusal::LastNumber),
    }
}

/// The default first number, which tells the year that a case commences in. The
/// years of the calendar leave it room in eight digits.
fn default_first_number(commencement: Date) -> u32 {
    u32::from(commencement.year) * NUMBERS_OF_A_YEAR + 1
}

/// Writes a register line: quote number, member, total lump sum, and lump sum,
/// remaining pension and second instalment of each pension.
pub fn write_line(number: u32, quote: &Quote, line: &mut [u8; LINE_LENGTH]) {
    let mut numbers = [0; NUMBERS_IN_LINE];
    let (head, pensions) = numbers.split_at_mut(NUMBERS_IN_HEAD);
    head.copy_from_slice(&[number, quote.member, pence(quote.total.0)]);
    for (place, figures) in pensions.chunks_exact_mut(NUMBERS_IN_PENSION).enumerate() {
        figures[0] = pence(quote.lump[place].0);
        figures[1] = pence(quote.remaining[place].0);
        figures[2] = pence(quote.second[place].0);
    }
    let (digits, _) = line.as_chunks_mut::<NUMBER_DIGITS>();
    for (field, number) in digits.iter_mut().zip(numbers) {
        hexadecimal::write_number(number, field);
    }
    line[LINE_DIGITS] = b'\n';
}

/// An amount as a register field. The stated pensions total at most 50,000,000
/// pence, so every amount of a quote has room.
fn pence(amount: u64) -> u32 {
    u32::try_from(amount).expect("an amount of a quote has at most eight digits")
}

#[cfg(test)]
mod tests {
    use super::*;

    #[test]
    fn lengths_of_the_rules() {
        assert_eq!((LINE_DIGITS, LINE_LENGTH), (120, 121));
    }

    /// The example of the rules, which commences on 1 July 2023.
    const CASE: &[u8] = b"0000000107B2060F07E707010101002DC6C007C9060107E70701000000000000000000";

    /// Files the example with each first number in turn and gives the numbers of
    /// the lines, and the refusal that ended the list if there was one.
    fn numbers_filed(first_numbers: &[u32], length: usize) -> (Vec<u32>, Option<Refusal>) {
        let mut register = vec![b'-'; length];
        let (mut used, mut numbers) = (0, Vec::new());
        for &first_number in first_numbers {
            match file(&mut register, used, first_number, CASE) {
                Ok(after) => used = after,
                Err(refusal) => return (numbers, Some(refusal)),
            }
            numbers.push(check(&register, used).expect("a sound register"));
        }
        (numbers, None)
    }

    #[test]
    fn first_numbers() {
        assert_eq!(
            numbers_filed(&[0, 0, 1], 400),
            (vec![202_300_001, 202_300_002, 202_300_003], None)
        );
        assert_eq!(numbers_filed(&[1, 0, 77], 400), (vec![1, 2, 3], None));
        assert_eq!(numbers_filed(&[77, 1], 400), (vec![77, 78], None));
    }

    #[test]
    fn the_last_number_as_the_first() {
        let full = numbers_filed(&[u32::MAX, 1], LINE_LENGTH);
        assert_eq!(full, (vec![u32::MAX], Some(Refusal::NoSpace)));
        let used_up = numbers_filed(&[u32::MAX, 1], 2 * LINE_LENGTH);
        assert_eq!(used_up, (vec![u32::MAX], Some(Refusal::LastNumber)));
        let one_before = numbers_filed(&[u32::MAX - 1, 0, 0], 3 * LINE_LENGTH);
        assert_eq!(one_before, (vec![u32::MAX - 1, u32::MAX], Some(Refusal::LastNumber)));
    }
}
