//! Case lines and registers for the tests and the benchmark, by their fields and
//! random ones that a seed repeats, and the answers to expect.

pub mod allowances;
pub mod answers;
pub mod fields;
pub mod generator;
pub mod month_ends;
pub mod pairs;
pub mod random;
pub mod registers;
