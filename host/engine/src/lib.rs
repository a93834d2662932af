//! The retirement quotation engine, called through its C interface.
//!
//! Each call takes slices, or numbers alone, and gives the C struct of the same
//! subject, or a number where C has none. Under a refusal every figure but
//! `refusal` is 0 (the offset of a check, and the count of lines compared for an
//! absent member, apart). [`optional`] holds the calls with slices for a host that
//! lends a null pointer in place of an empty buffer.

mod raw;

pub mod optional;

/// Pensions a case can hold; the figures of those not there are 0.
pub const MOST_PENSIONS: usize = 4;

/// The quote for one case line, money in whole pence.
#[repr(C)]
#[derive(Clone, Copy, Debug, Default, PartialEq, Eq)]
pub struct Quote {
    pub refusal: u32,
    pub member: u32,
    pub total: u64,
    pub lump: [u64; MOST_PENSIONS],
    pub remaining: [u64; MOST_PENSIONS],
    pub second: [u64; MOST_PENSIONS],
}

/// The check of a register: the offset of its first bad character, or the used
/// length if that is bad.
#[repr(C)]
#[derive(Clone, Copy, Debug, Default, PartialEq, Eq)]
pub struct Checked {
    pub refusal: u32,
    pub offset: usize,
}

/// A filing: with refusal 0 the register's used length from then on.
#[repr(C)]
#[derive(Clone, Copy, Debug, Default, PartialEq, Eq)]
pub struct Filed {
    pub refusal: u32,
    pub used: usize,
}

/// Filings of the lines of a text: the register's used length from then on,
/// and how many lines there were.
#[repr(C)]
#[derive(Clone, Copy, Debug, Default, PartialEq, Eq)]
pub struct FiledLines {
    pub used: usize,
    pub lines: usize,
}

/// A register line that was found: its place in the caller's register.
#[repr(C)]
#[derive(Clone, Copy, Debug, Default, PartialEq, Eq)]
pub struct Found {
    pub refusal: u32,
    pub offset: usize,
    pub length: usize,
}

/// A member's newest line that was found: its place in the caller's register,
/// and how many lines were compared, starting from the newest. With refusal 14
/// these are all lines, with refusal 11 none.
#[repr(C)]
#[derive(Clone, Copy, Debug, Default, PartialEq, Eq)]
pub struct FoundMember {
    pub refusal: u32,
    pub offset: usize,
    pub length: usize,
    pub compared: usize,
}

/// The trivial commutation of a small pension: with refusal 0 its lump sum, in
/// whole pence.
#[repr(C)]
#[derive(Clone, Copy, Debug, Default, PartialEq, Eq)]
pub struct Commuted {
    pub refusal: u32,
    pub lump: u64,
}

/// A register written into a buffer: with refusal 0 its used length there.
#[repr(C)]
#[derive(Clone, Copy, Debug, Default, PartialEq, Eq)]
pub struct Written {
    pub refusal: u32,
    pub used: usize,
}

/// Quotes one case line, its newline left out.
pub fn quote(line: &[u8]) -> Quote {
    optional::quote(Some(line))
}

/// Checks the first `used` bytes of a register.
pub fn check(register: &[u8], used: usize) -> Checked {
    optional::check(Some(register), used)
}

/// Files one case line behind the used part of a register. In an empty one it gets
/// the first number, where 0 stands for the commencement year of the case times
/// 100,000 plus 1; a register that has lines goes on from its last, and the first
/// number, whatever it is, is not looked at.
pub fn file(register: &mut [u8], used: usize, first_number: u32, line: &[u8]) -> Filed {
    optional::file(Some(register), used, first_number, Some(line))
}

/// Files the lines of a text one after the other behind the used part of a
/// register, each as `file` does with the same first number. `refusals` gets one
/// byte for each line as far as it has room.
pub fn file_lines(
    register: &mut [u8],
    used: usize,
    first_number: u32,
    lines: &[u8],
    refusals: &mut [u8],
) -> FiledLines {
    optional::file_lines(Some(register), used, first_number, Some(lines), Some(refusals))
}

/// Files every line of a text into a register that starts empty, whatever its
/// bytes: the first that is granted gets the first number, as `file` has it, and
/// each one after it the next. Gives the used length; `refusals` gets one byte for
/// each line as far as it has room.
pub fn file_all(
    register: &mut [u8],
    first_number: u32,
    lines: &[u8],
    refusals: &mut [u8],
) -> usize {
    optional::file_all(Some(register), first_number, Some(lines), Some(refusals))
}

/// Finds the register line with a quote number.
pub fn find_number(register: &[u8], used: usize, number: u32) -> Found {
    optional::find_number(Some(register), used, number)
}

/// Finds the newest register line of a member and counts the lines compared.
pub fn find_member(register: &[u8], used: usize, member: u32) -> FoundMember {
    optional::find_member(Some(register), used, member)
}

/// Commutes a former officer's small pension in payment. The scheme is its year,
/// the age is in completed years, and the pensions are in pence a year.
pub fn trivial_commutation(
    scheme: u32,
    age: u32,
    member_pension: u64,
    survivor_pension: u64,
) -> Commuted {
    // SAFETY: the call takes numbers alone, and the engine tests them itself.
    unsafe { raw::pension_trivial_commutation(scheme, age, member_pension, survivor_pension) }
}

/// The fault of a date, which may be any three numbers: 0 for a date of the
/// calendar, or which test it breaks first, 1 for the day against 1 to 31, 2 for
/// the month, 3 for the year, 4 for the length of the month in that year. It is no
/// refusal: that for a wrong date in a case line is 3, whichever its fault.
pub fn date_fault(year: u32, month: u32, day: u32) -> u32 {
    // SAFETY: the call takes numbers alone, and the engine takes any.
    unsafe { raw::pension_date_fault(year, month, day) }
}

/// Joins two registers at the start of a third buffer, `target`: every number from
/// the lower first to the higher last has its line there once. The bytes past the
/// result stay, and under a refusal all do: 11 for a bad register, 16 for unlike
/// lines of one number or a number between that is in neither, 17 for a target that
/// is too short. The two registers are only read, and may overlap each other.
pub fn join(
    first: &[u8],
    first_used: usize,
    second: &[u8],
    second_used: usize,
    target: &mut [u8],
) -> Written {
    optional::join(Some(first), first_used, Some(second), second_used, Some(target))
}
