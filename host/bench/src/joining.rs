//! Joining two registers: by the engine, by the reference, and as plain copying
//! of the result's bytes, which neither checks nor compares anything.

use std::hint;

use cases::answers;
use cases::generator::Generator;
use cases::registers::{sound_register, LINE};
use engine::Written;

use crate::table::{Quotient, Table};
use crate::work::Effort;

/// Bytes of each of the two registers. The rows have the time for each line that
/// the two have, which stays the same where the time is in proportion to them.
const SIZES: [(usize, &str); 3] =
    [(5_000_000, "5 MB"), (20_000_000, "20 MB"), (50_000_000, "50 MB")];

/// Two registers that overlap: the second half of the first is the first half of
/// the second.
struct Pair {
    job: String,
    first: Vec<u8>,
    second: Vec<u8>,
    /// The bytes of the result.
    whole: Vec<u8>,
}

impl Pair {
    fn of(random: &mut Generator, bytes: usize, size: &str) -> Pair {
        let half = bytes / LINE / 2;
        let whole = sound_register(random, 3 * half, 1);
        Pair {
            job: format!("join two registers of {size}, half of each common"),
            first: whole[..2 * half * LINE].to_vec(),
            second: whole[half * LINE..].to_vec(),
            whole,
        }
    }

    fn join(&self, target: &mut [u8]) -> Written {
        let Pair { first, second, .. } = self;
        engine::join(first, first.len(), second, second.len(), target)
    }

    fn join_by_reference(&self, target: &mut [u8]) -> Written {
        let Pair { first, second, .. } = self;
        answers::join(first, first.len(), second, second.len(), target)
    }

    fn copy(&self, target: &mut [u8]) -> Written {
        let (low, high) = target.split_at_mut(self.first.len());
        low.copy_from_slice(&self.first);
        high.copy_from_slice(&self.second[self.second.len() - high.len()..]);
        Written { refusal: 0, used: hint::black_box(target).len() }
    }

    /// Times the engine against another way to the same bytes.
    fn time(&self, effort: &Effort, table: &Table, other: impl Fn(&Pair, &mut [u8]) -> Written) {
        let (mut left, mut right) = (vec![0xEE; self.whole.len()], vec![0xEE; self.whole.len()]);
        let timed = effort.time(|| self.join(&mut left), || other(self, &mut right));
        assert!(left == self.whole && right == self.whole, "both write the result");
        let lines = (self.first.len() + self.second.len()) / LINE;
        table.print_per_line(&self.job, &timed, lines);
    }
}

/// Prints the rows of joining in a table of the engine and the reference, and
/// then a table of the engine and plain copying.
pub fn compare_joining(effort: &Effort, table: &Table) {
    let mut random = Generator::for_test("bench of joining");
    let pairs = SIZES.map(|(bytes, size)| Pair::of(&mut random, bytes, size));
    for pair in &pairs {
        pair.time(effort, table, Pair::join_by_reference);
    }
    println!();
    let copying = Table { left: "engine", right: "plain copying", quotient: Quotient::LeftByRight };
    copying.print_heading();
    for pair in &pairs {
        pair.time(effort, &copying, Pair::copy);
    }
}
