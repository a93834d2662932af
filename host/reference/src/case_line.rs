//! Reading a case line: one frame of uppercase hexadecimal digits.

use crate::calendar::Date;
use crate::hexadecimal;
use crate::refusals::Refusal;

/// Pensions a case can hold.
pub const MOST_PENSIONS: usize = 4;

/// Characters of the longest case line.
pub const MOST_CHARACTERS: usize = characters_with_used(MOST_PENSIONS);

const HEAD_BYTES: usize = 13;
const PENSION_BYTES: usize = 22;
/// Bytes of the amount that a line may end with.
const USED_BYTES: usize = 4;
const DIGITS_IN_BYTE: usize = 2;
const MOST_BYTES: usize = MOST_CHARACTERS / DIGITS_IN_BYTE;

/// Characters of a case line with so many pensions, its newline left out.
pub const fn characters(pensions: usize) -> usize {
    DIGITS_IN_BYTE * (HEAD_BYTES + pensions * PENSION_BYTES)
}

/// The same of a case line that ends with the used part of the allowance.
pub const fn characters_with_used(pensions: usize) -> usize {
    characters(pensions) + DIGITS_IN_BYTE * USED_BYTES
}

/// A pension as the case line states it.
#[derive(Clone, Copy, Debug, Default)]
pub struct StatedPension {
    pub kind: u8,
    pub yearly: u32,
    pub start: Date,
    pub end: Date,
    pub lift: u8,
    pub f1: u16,
    pub f2: u16,
    pub f3: u16,
    pub increase: u16,
}

/// A case as its line states it, with nothing tested but characters and length.
#[derive(Clone, Copy, Debug)]
pub struct StatedCase {
    pub member: u32,
    pub birth: Date,
    pub commencement: Date,
    count: usize,
    pensions: [StatedPension; MOST_PENSIONS],
    /// Pence already used of the lump sum allowance; 0 if the line does not
    /// state them.
    pub used_allowance: u32,
}

impl StatedCase {
    pub fn pensions(&self) -> &[StatedPension] {
        &self.pensions[..self.count]
    }

    /// Complete months from birth to commencement.
    pub fn age(&self) -> i32 {
        self.birth.months_until(self.commencement)
    }
}

/// Reads a case line, its newline left out. Gives refusals 1 and 2.
pub fn read(line: &[u8]) -> Result<StatedCase, Refusal> {
    let Some(layout) = Layout::of(line.len()) else {
        // A bad character comes before a bad length.
        let all_digits = line.iter().all(|&character| hexadecimal::is_digit(character));
        return Err(if all_digits { Refusal::Length } else { Refusal::Character });
    };
    let mut bytes = [0; MOST_BYTES];
    let bytes = &mut bytes[..line.len() / DIGITS_IN_BYTE];
    if !hexadecimal::decode(line, bytes) {
        return Err(Refusal::Character);
    }
    read_case(Frame { rest: bytes }, layout).ok_or(Refusal::Length)
}

/// What a line has room for.
#[derive(Clone, Copy, Debug, PartialEq, Eq)]
struct Layout {
    pensions: usize,
    /// Whether the used part of the allowance stands behind the pensions.
    has_used: bool,
}

impl Layout {
    /// The layout of the lines of a length, if there is one.
    fn of(length: usize) -> Option<Layout> {
        (1..=MOST_PENSIONS)
            .flat_map(|pensions| [false, true].map(|has_used| Layout { pensions, has_used }))
            .find(|layout| layout.characters() == length)
    }

    fn characters(self) -> usize {
        let count = if self.has_used { characters_with_used } else { characters };
        count(self.pensions)
    }
}

/// Reads the fields of a frame of a layout, or nothing if the stated count
/// disagrees with it.
fn read_case(mut frame: Frame, layout: Layout) -> Option<StatedCase> {
    let count = layout.pensions;
    let member = frame.number();
    let birth = frame.date();
    let commencement = frame.date();
    if usize::from(frame.byte()) != count {
        return None;
    }
    let mut pensions = [StatedPension::default(); MOST_PENSIONS];
    for pension in &mut pensions[..count] {
        *pension = read_pension(&mut frame);
    }
    let used_allowance = if layout.has_used { frame.number() } else { 0 };
    Some(StatedCase { member, birth, commencement, count, pensions, used_allowance })
}

fn read_pension(frame: &mut Frame) -> StatedPension {
    StatedPension {
        kind: frame.byte(),
        yearly: frame.number(),
        start: frame.date(),
        end: frame.date(),
        lift: frame.byte(),
        f1: frame.pair(),
        f2: frame.pair(),
        f3: frame.pair(),
        increase: frame.pair(),
    }
}

/// The bytes of a frame that are still to be read, highest byte first.
struct Frame<'a> {
    rest: &'a [u8],
}

impl Frame<'_> {
    fn take<const N: usize>(&mut self) -> [u8; N] {
        let (field, rest) = self.rest.split_first_chunk().expect("the length was tested");
        self.rest = rest;
        *field
    }

    fn byte(&mut self) -> u8 {
        u8::from_be_bytes(self.take())
    }

    fn pair(&mut self) -> u16 {
        u16::from_be_bytes(self.take())
    }

    fn number(&mut self) -> u32 {
        u32::from_be_bytes(self.take())
    }

    fn date(&mut self) -> Date {
        Date::new(self.pair(), self.byte(), self.byte())
    }
}

#[cfg(test)]
mod tests {
    use super::*;

    #[test]
    fn fields_of_the_example() {
        let line = b"0000000107B2060F07E707010101002DC6C007C9060107E70701000000000000000000";
        let case = read(line).expect("a well formed line");
        assert_eq!(case.member, 1);
        assert_eq!(case.birth, Date::new(1970, 6, 15));
        assert_eq!(case.commencement, Date::new(2023, 7, 1));
        let [pension] = case.pensions() else { panic!("one pension") };
        assert_eq!((pension.kind, pension.yearly, pension.f1), (1, 3_000_000, 0));
        assert_eq!(pension.start, Date::new(1993, 6, 1));
        assert_eq!(pension.end, Date::new(2023, 7, 1));
        assert_eq!(case.used_allowance, 0);
    }

    #[test]
    fn used_allowance_at_the_end() {
        let line = b"0000000107B2060F07E707010101002DC6C007C9060107E70701000000000000000000";
        for (digits, used) in [("00000000", 0), ("01995AEC", 26_827_500), ("FFFFFFFF", u32::MAX)] {
            let case = read(&[line, digits.as_bytes()].concat()).expect("a well formed line");
            assert_eq!(case.used_allowance, used);
            assert_eq!(case.pensions().len(), 1);
        }
    }

    #[test]
    fn lengths_of_the_rules() {
        assert_eq!([1, 2, 3, 4].map(characters), [70, 114, 158, 202]);
        assert_eq!([1, 2, 3, 4].map(characters_with_used), [78, 122, 166, 210]);
        let good: Vec<usize> = (0..1_000).filter(|&length| Layout::of(length).is_some()).collect();
        assert_eq!(good, [70, 78, 114, 122, 158, 166, 202, 210]);
        assert_eq!(MOST_CHARACTERS, 210);
    }

    #[test]
    fn the_count_agrees_with_every_length() {
        let lengths =
            [(70, 1), (78, 1), (114, 2), (122, 2), (158, 3), (166, 3), (202, 4), (210, 4)];
        for (length, pensions) in lengths {
            for stated in 0..=9 {
                let mut line = vec![b'0'; length];
                line[2 * HEAD_BYTES - 1] = b'0' + stated;
                let read = read(&line).map(|case| case.pensions().len());
                let agrees = usize::from(stated) == pensions;
                let expected = if agrees { Ok(pensions) } else { Err(Refusal::Length) };
                assert_eq!(read, expected, "{length} characters, {stated} pensions");
            }
        }
    }

    #[test]
    fn characters_come_before_length() {
        assert_eq!(read(b"").unwrap_err(), Refusal::Length);
        assert_eq!(read(b"00").unwrap_err(), Refusal::Length);
        assert_eq!(read(b"0g").unwrap_err(), Refusal::Character);
        assert_eq!(read(&[b'0'; characters(1)]).unwrap_err(), Refusal::Length);
        assert_eq!(read(&[b'0'; characters_with_used(1)]).unwrap_err(), Refusal::Length);
        let mut line = [b'0'; characters_with_used(1)];
        line[characters_with_used(1) - 1] = b'g';
        assert_eq!(read(&line).unwrap_err(), Refusal::Character);
    }
}
