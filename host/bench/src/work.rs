//! Timing two ways of doing the same work.

use std::hint;
use std::time::{Duration, Instant};

/// How much is done for a row: at least so many runs of each, and runs for at
/// least so long.
pub struct Effort {
    pub runs: usize,
    pub time: Duration,
}

/// The shortest times of both.
pub struct Timed {
    pub left: Duration,
    pub right: Duration,
}

impl Effort {
    /// Does the work both ways in turn. Both must give the same result.
    pub fn time<T: PartialEq>(
        &self,
        mut left: impl FnMut() -> T,
        mut right: impl FnMut() -> T,
    ) -> Timed {
        let mut shortest = Timed { left: Duration::MAX, right: Duration::MAX };
        let start = Instant::now();
        let mut runs = 0;
        while runs < self.runs || start.elapsed() < self.time {
            let (left_time, left_result) = time(&mut left);
            let (right_time, right_result) = time(&mut right);
            assert!(left_result == right_result, "both give the same result");
            shortest.left = shortest.left.min(left_time);
            shortest.right = shortest.right.min(right_time);
            runs += 1;
        }
        shortest
    }
}

fn time<T>(work: &mut impl FnMut() -> T) -> (Duration, T) {
    let start = Instant::now();
    let result = hint::black_box(work());
    (start.elapsed(), result)
}
