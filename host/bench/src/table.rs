//! The table that is printed.

use std::time::Duration;

use crate::work::Timed;

/// Which time is divided by the other.
pub enum Quotient {
    LeftByRight,
    RightByLeft,
}

/// A table of both sides' times and their quotient, a row for each job.
pub struct Table {
    pub left: &'static str,
    pub right: &'static str,
    pub quotient: Quotient,
}

impl Table {
    pub fn print_heading(&self) {
        let Table { left, right, quotient } = self;
        let (above, below) = match quotient {
            Quotient::LeftByRight => (left, right),
            Quotient::RightByLeft => (right, left),
        };
        println!("| job | {left} | {right} | {above} / {below} |");
        println!("|---|---|---|---|");
    }

    /// Prints a job of many lines, in nanoseconds a line.
    pub fn print_per_line(&self, job: &str, timed: &Timed, lines: usize) {
        let show =
            |time: Duration| format!("{:.0} ns a line", time.as_nanos() as f64 / lines as f64);
        self.print(job, timed, show);
    }

    /// Prints a job as a whole, in milliseconds.
    pub fn print_whole(&self, job: &str, timed: &Timed) {
        self.print(job, timed, |time| format!("{:.1} ms", time.as_secs_f64() * 1e3));
    }

    fn print(&self, job: &str, timed: &Timed, show: impl Fn(Duration) -> String) {
        let left_by_right = timed.left.as_secs_f64() / timed.right.as_secs_f64();
        let quotient = match self.quotient {
            Quotient::LeftByRight => left_by_right,
            Quotient::RightByLeft => left_by_right.recip(),
        };
        println!("| {job} | {} | {} | {quotient:.2} |", show(timed.left), show(timed.right));
    }
}

/// A number with a comma before every three digits.
pub fn with_commas(number: usize) -> String {
    if number < 1_000 {
        return number.to_string();
    }
    format!("{},{:03}", with_commas(number / 1_000), number % 1_000)
}

#[cfg(test)]
mod tests {
    use super::*;

    #[test]
    fn commas_before_every_three_digits() {
        let printed = [0, 1, 999, 1_000, 826_446, 1_000_000, 12_003_045].map(with_commas);
        assert_eq!(printed, ["0", "1", "999", "1,000", "826,446", "1,000,000", "12,003,045"]);
    }
}
