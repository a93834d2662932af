//! The text that the program `quotes` reads and prints.

use std::io::{self, BufRead, Write};

use crate::refusals::Refusal;
use crate::register::Ledger;

/// Bytes of the program's register.
pub const REGISTER_LENGTH: usize = 65_536;

/// The number of the first line that is filed, whatever year its case commences in.
const FIRST_NUMBER: u32 = 1;

/// Reads case lines and prints, for each, the register line it was filed as or
/// its refusal. The register starts empty and nobody else writes it, so it is
/// never checked again.
pub fn run(mut input: impl BufRead, mut output: impl Write) -> io::Result<()> {
    let mut register = vec![0; REGISTER_LENGTH];
    let mut ledger = Ledger::empty(&mut register);
    let mut line = Vec::new();
    while input.read_until(b'\n', &mut line)? > 0 {
        let case_line = line.strip_suffix(b"\n").unwrap_or(&line);
        match ledger.file(FIRST_NUMBER, case_line) {
            Ok(filed) => output.write_all(filed)?,
            Err(refusal) => output.write_all(&refusal_line(refusal))?,
        }
        line.clear();
    }
    output.flush()
}

/// R and the refusal as two decimal digits.
fn refusal_line(refusal: Refusal) -> [u8; 4] {
    let number = refusal.number();
    [b'R', b'0' + number / 10, b'0' + number % 10, b'\n']
}

#[cfg(test)]
mod tests {
    use super::*;
    use crate::register::LINE_DIGITS;

    fn printed(input: &str) -> String {
        let mut output = Vec::new();
        run(input.as_bytes(), &mut output).expect("memory takes every byte");
        String::from_utf8(output).expect("digits and newlines")
    }

    const CASE: &str = "0000000107B2060F07E707010101002DC6C007C9060107E70701000000000000000000";

    #[test]
    fn example_of_the_rules() {
        let figures = "000000010000000100F1BACB00F1BACB0024426C";
        let quote = format!("{figures:0<LINE_DIGITS$}\n");
        assert_eq!(printed(&format!("{CASE}\n00\n")), format!("{quote}R02\n"));
        assert_eq!(printed(&format!("{CASE}\n00")), format!("{quote}R02\n"));
    }

    #[test]
    fn lines_end_with_a_newline() {
        assert_eq!(printed(""), "");
        assert_eq!(printed("\n"), "R02\n");
        assert_eq!(printed("\n\n0"), "R02\nR02\nR02\n");
        assert_eq!(printed("\r\n"), "R01\n");
    }

    #[test]
    fn the_register_has_room_for_541_lines() {
        let output = printed(&format!("{CASE}\n").repeat(543));
        let lines: Vec<&str> = output.lines().collect();
        assert_eq!(lines.len(), 543);
        assert!(lines[540].starts_with("0000021D00000001"));
        assert_eq!(&lines[541..], ["R12", "R12"]);
    }
}
