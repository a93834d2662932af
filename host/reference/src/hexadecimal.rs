//! Uppercase hexadecimal text. Lower case letters are not digits here.

/// Digits of a 4-byte number.
pub const NUMBER_DIGITS: usize = 8;

const DIGITS: &[u8; 16] = b"0123456789ABCDEF";

/// Stands in [`VALUES`] for a character that is no digit.
const NO_DIGIT: u8 = 0xFF;

/// The value of every character.
const VALUES: [u8; 256] = {
    let mut values = [NO_DIGIT; 256];
    let mut value = 0;
    while value < DIGITS.len() {
        values[DIGITS[value] as usize] = value as u8;
        value += 1;
    }
    values
};

/// Whether a character is 0-9 or A-F.
pub fn is_digit(character: u8) -> bool {
    VALUES[usize::from(character)] != NO_DIGIT
}

/// Reads two digits for each byte of `bytes`. Gives whether all were digits;
/// if not, `bytes` means nothing.
pub fn decode(digits: &[u8], bytes: &mut [u8]) -> bool {
    debug_assert_eq!(digits.len(), 2 * bytes.len());
    let mut seen = 0;
    for (byte, pair) in bytes.iter_mut().zip(digits.chunks_exact(2)) {
        let high = VALUES[usize::from(pair[0])];
        let low = VALUES[usize::from(pair[1])];
        seen |= high | low;
        *byte = high << 4 | low & 0x0F;
    }
    seen <= 0x0F
}

/// Reads a number of eight digits, or gives the place of the first character
/// that is no digit.
pub fn read_number(digits: &[u8; NUMBER_DIGITS]) -> Result<u32, usize> {
    let mut bytes = [0; NUMBER_DIGITS / 2];
    if decode(digits, &mut bytes) {
        return Ok(u32::from_be_bytes(bytes));
    }
    let bad = digits.iter().position(|&character| !is_digit(character));
    Err(bad.unwrap_or(0))
}

/// Writes a number as eight digits.
pub fn write_number(number: u32, digits: &mut [u8; NUMBER_DIGITS]) {
    for (pair, byte) in digits.chunks_exact_mut(2).zip(number.to_be_bytes()) {
        pair[0] = DIGITS[usize::from(byte >> 4)];
        pair[1] = DIGITS[usize::from(byte & 0x0F)];
    }
}

#[cfg(test)]
mod tests {
    use super::*;

    #[test]
    fn only_sixteen_characters_are_digits() {
        let digits: Vec<u8> = (0..=255).filter(|&character| is_digit(character)).collect();
        assert_eq!(digits, b"0123456789ABCDEF");
    }

    #[test]
    fn numbers_read_back() {
        for number in [0, 1, 0x0123_4567, 0x89AB_CDEF, u32::MAX] {
            let mut digits = [0; NUMBER_DIGITS];
            write_number(number, &mut digits);
            assert_eq!(read_number(&digits), Ok(number));
            assert_eq!(digits, format!("{number:08X}").as_bytes());
        }
        assert_eq!(read_number(b"00a0000g"), Err(2));
        assert_eq!(read_number(b"0000000g"), Err(7));
    }
}
