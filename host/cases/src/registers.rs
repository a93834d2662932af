//! Registers, sound and damaged.

use reference::hexadecimal::NUMBER_DIGITS;
use reference::register::LINE_DIGITS;

use crate::generator::Generator;

pub use reference::register::LINE_LENGTH as LINE;

/// Digits of a register line behind its quote number and member.
const OTHER_DIGITS: usize = LINE_DIGITS - 2 * NUMBER_DIGITS;

/// Members that random registers draw from, so that some have many lines.
pub const MEMBERS: [u32; 5] = [0, 1, 7, 0xABCD_EF01, u32::MAX];

/// A member of no random register.
pub const NOBODY: u32 = 0x0BAD_0BAD;

/// First numbers to file with: 0 for the default, and numbers at the ends of a
/// year's share, of 31 bits and of 32.
pub const FIRST_NUMBERS: [u32; 9] =
    [0, 1, 2, 99_999, 100_000, 0x7FFF_FFFF, 0x8000_0000, u32::MAX - 1, u32::MAX];

/// A first number to file with: the default, one at an end, or any.
pub fn any_first_number(random: &mut Generator) -> u32 {
    let at_an_end = random.pick(&FIRST_NUMBERS);
    let any = random.next() as u32;
    random.pick(&[0, at_an_end, any])
}

/// A sound register of lines numbered from `first`, with amounts that need not
/// come from any case.
pub fn sound_register(random: &mut Generator, lines: usize, first: u32) -> Vec<u8> {
    let mut register = Vec::with_capacity(lines * LINE);
    for place in 0..lines {
        let number = first + u32::try_from(place).expect("a short register");
        let member = random.pick(&MEMBERS);
        register.extend_from_slice(format!("{number:08X}{member:08X}").as_bytes());
        register.extend(random.digits(OTHER_DIGITS));
        register.push(b'\n');
    }
    register
}

/// A sound register with free bytes of any kind behind its lines.
pub fn register_with_room(
    random: &mut Generator,
    lines: usize,
    first: u32,
    free: usize,
) -> Vec<u8> {
    let mut register = sound_register(random, lines, first);
    register.extend(random.bytes(free));
    register
}

/// Writes a quote number into a line of a register.
pub fn set_number(register: &mut [u8], line: usize, number: u32) {
    set_field(&mut register[line * LINE..], number);
}

/// Writes a member into a line of a register.
pub fn set_member(register: &mut [u8], line: usize, member: u32) {
    set_field(&mut register[line * LINE + NUMBER_DIGITS..], member);
}

/// Gives every line of a register a member of its own.
pub fn set_own_members(register: &mut [u8]) {
    for line in 0..register.len() / LINE {
        set_member(register, line, own_member(line));
    }
}

/// The own member of a line, counted from 0. Multiples of an odd number differ,
/// and those of a large one already in their first digits.
pub fn own_member(line: usize) -> u32 {
    let place = u32::try_from(line + 1).expect("a short register");
    place.wrapping_mul(0x9E37_79B1)
}

/// Writes a number over the first digits of some bytes.
fn set_field(bytes: &mut [u8], number: u32) {
    bytes[..NUMBER_DIGITS].copy_from_slice(format!("{number:08X}").as_bytes());
}
