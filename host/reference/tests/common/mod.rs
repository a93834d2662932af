//! What the test files share: lent buffers with guards, the comparison of the
//! engine with the reference, a plain book beside both, joined registers by maps of
//! their lines, a calendar counted in days, lines and texts to file, and programs
//! fed piece by piece.

// Each test file is a program of its own and uses only a part of this.
#![allow(dead_code)]

pub mod book;
pub mod compare;
pub mod conversation;
pub mod day_count;
pub mod guarded;
pub mod joins;
pub mod texts;
