//! Joining two registers into a third buffer.

use crate::refusals::Refusal;
use crate::register::{self, LINE_LENGTH};

/// A register line, its newline included.
type Line = [u8; LINE_LENGTH];

/// Joins two registers at the start of a third buffer and gives the used length
/// of the result there. The bytes past the result stay, and under a refusal all
/// do. The first register is checked before the second, both before their lines
/// are held against each other, and the buffer's length comes last.
pub fn join(
    first: &[u8],
    first_used: usize,
    second: &[u8],
    second_used: usize,
    target: &mut [u8],
) -> Result<usize, Refusal> {
    let first = NumberedLines::of(first, first_used)?;
    let second = NumberedLines::of(second, second_used)?;
    let lines = joined_lines(&first, &second)?;
    let used = lines.len() * LINE_LENGTH;
    let result = target.get_mut(..used).ok_or(Refusal::TargetTooShort)?;
    for (place, line) in result.chunks_exact_mut(LINE_LENGTH).zip(lines) {
        place.copy_from_slice(line);
    }
    Ok(used)
}

/// The lines of a sound register, which can be told by their numbers.
struct NumberedLines<'a> {
    lines: &'a [Line],
    /// The first line's number. It means nothing if there are no lines.
    first: u32,
    /// The last line's number, 0 if there are no lines.
    last: u32,
}

impl<'a> NumberedLines<'a> {
    /// The lines of a register, after checking them.
    fn of(register: &'a [u8], used: usize) -> Result<Self, Refusal> {
        let last = register::check(register, used)?;
        let (lines, _) = register[..used].as_chunks();
        // The numbers rise by one and start from 1 at the least, so that there
        // are never more lines than the last number says.
        let first = last - lines.len() as u32 + 1;
        Ok(NumberedLines { lines, first, last })
    }

    /// The line with a number. It stands as far behind the first line as its
    /// number is above the first number.
    fn line(&self, number: u32) -> Option<&'a Line> {
        let place = number.checked_sub(self.first)?;
        self.lines.get(place as usize)
    }
}

/// The lines of the result: one for every number from the lower first to the
/// higher last. Lines of a register that is joined with an empty one are taken as
/// they are.
fn joined_lines<'a>(
    first: &NumberedLines<'a>,
    second: &NumberedLines<'a>,
) -> Result<Vec<&'a Line>, Refusal> {
    if first.lines.is_empty() {
        return Ok(second.lines.iter().collect());
    }
    if second.lines.is_empty() {
        return Ok(first.lines.iter().collect());
    }
    // The first number that can't be joined ends this, so that a number between
    // which is in neither costs no more than the lines before it.
    (first.first.min(second.first)..=first.last.max(second.last))
        .map(|number| joined_line(first.line(number), second.line(number)))
        .collect()
}

/// The line that a number has in the result, by the lines that it has in the two
/// registers.
fn joined_line<'a>(
    in_first: Option<&'a Line>,
    in_second: Option<&'a Line>,
) -> Result<&'a Line, Refusal> {
    match (in_first, in_second) {
        (Some(line), Some(other)) if line == other => Ok(line),
        (Some(_), Some(_)) => Err(Refusal::NotJoinable),
        (Some(line), None) | (None, Some(line)) => Ok(line),
        (None, None) => Err(Refusal::NotJoinable),
    }
}

#[cfg(test)]
mod tests {
    use super::*;

    /// A register of lines numbered from `first`, each filled with a digit.
    fn register(first: u32, digits: &str) -> Vec<u8> {
        let fill = |(place, digit): (usize, char)| {
            let number = first + place as u32;
            format!("{number:08X}{}\n", digit.to_string().repeat(112)).into_bytes()
        };
        digits.chars().enumerate().flat_map(fill).collect()
    }

    /// Joins two registers that are used to the last byte, in a buffer of some
    /// length, and gives the result.
    fn joined(first: &[u8], second: &[u8], length: usize) -> Result<Vec<u8>, Refusal> {
        let mut target = vec![b'-'; length];
        let answer = join(first, first.len(), second, second.len(), &mut target);
        let used = answer.unwrap_or(0);
        assert!(target[used..].iter().all(|&byte| byte == b'-'));
        target.truncate(used);
        answer.map(|_| target)
    }

    const ROOM: usize = 9 * LINE_LENGTH;

    #[test]
    fn results() {
        let all = Ok(register(7, "ABCDE"));
        assert_eq!(joined(&register(7, "ABCD"), &register(9, "CDE"), ROOM), all);
        assert_eq!(joined(&register(9, "CDE"), &register(7, "ABCD"), ROOM), all);
        assert_eq!(joined(&register(7, "ABCDE"), &register(8, "BC"), ROOM), all);
        assert_eq!(joined(&register(7, "AB"), &register(9, "CDE"), ROOM), all);
        assert_eq!(joined(&register(7, "ABCDE"), &register(7, "ABCDE"), ROOM), all);
        assert_eq!(joined(&register(7, "ABCDE"), &[], ROOM), all);
        assert_eq!(joined(&[], &register(7, "ABCDE"), ROOM), all);
        assert_eq!(joined(&[], &[], 0), Ok(Vec::new()));
    }

    #[test]
    fn refusals() {
        let unlike = joined(&register(7, "ABC"), &register(8, "BD"), ROOM);
        assert_eq!(unlike, Err(Refusal::NotJoinable));
        let gap = joined(&register(7, "ABC"), &register(11, "E"), ROOM);
        assert_eq!(gap, Err(Refusal::NotJoinable));
        let wrapped = joined(&register(u32::MAX, "A"), &register(1, "B"), ROOM);
        assert_eq!(wrapped, Err(Refusal::NotJoinable));
        let bad = joined(&register(7, "AB"), &register(8, "Bb"), ROOM);
        assert_eq!(bad, Err(Refusal::Register));
        assert_eq!(joined(&register(0, "AB"), &[], ROOM), Err(Refusal::Register));
    }

    #[test]
    fn room() {
        let (first, second) = (register(u32::MAX - 2, "AB"), register(u32::MAX - 1, "BC"));
        let needed = 3 * LINE_LENGTH;
        assert_eq!(joined(&first, &second, needed), Ok(register(u32::MAX - 2, "ABC")));
        assert_eq!(joined(&first, &second, needed - 1), Err(Refusal::TargetTooShort));
        assert_eq!(joined(&first, &[], 0), Err(Refusal::TargetTooShort));
        let unlike = register(u32::MAX - 1, "CC");
        assert_eq!(joined(&first, &unlike, 0), Err(Refusal::NotJoinable));
    }
}
