//! Lines and texts for lists of filings, good and bad.

use cases::allowances::any_allowance_case;
use cases::fields::refused_line;
use cases::generator::Generator;
use cases::random::any_case;

/// A line for a list of filings: mostly good, else refused, blank or long.
pub fn any_line(random: &mut Generator) -> Vec<u8> {
    match random.below(10) {
        0 => Vec::new(),
        1 => refused_line(random.within(1..=10)),
        2 => {
            let length = random.below(300);
            random.digits(length)
        }
        3 if random.once_in(20) => random.digits(5_000),
        4..7 => any_allowance_case(random).line(),
        _ => any_case(random).line(),
    }
}

/// A text of lines, the last with or without a newline.
pub fn any_text(random: &mut Generator, lines: usize) -> Vec<u8> {
    let mut text = Vec::new();
    for _ in 0..lines {
        text.extend(any_line(random));
        text.push(b'\n');
    }
    if random.once_in(2) {
        text.pop();
    }
    text
}
