//! What does the jobs: the engine, as linked or as loaded, and the reference.

use cases::answers;
use engine::{Checked, Found, FoundMember, Quote};

/// The number of the first line that is filed into a register.
pub const FIRST_NUMBER: u32 = 1;

/// The calls that are timed. Registers are used to their last byte, but by
/// `file_all`, which starts with an empty one.
pub trait Implementation {
    fn quote(&self, line: &[u8]) -> Quote;

    /// The total lump sum of a line, 0 under a refusal.
    fn total(&self, line: &[u8]) -> u64 {
        self.quote(line).total
    }

    fn file_all(&self, register: &mut [u8], text: &[u8], refusals: &mut [u8]) -> usize;

    fn check(&self, register: &[u8]) -> Checked;

    fn find_number(&self, register: &[u8], number: u32) -> Found;

    fn find_member(&self, register: &[u8], member: u32) -> FoundMember;
}

/// The engine's archive that this program is linked with.
pub struct LinkedEngine;

impl Implementation for LinkedEngine {
    fn quote(&self, line: &[u8]) -> Quote {
        engine::quote(line)
    }

    fn file_all(&self, register: &mut [u8], text: &[u8], refusals: &mut [u8]) -> usize {
        engine::file_all(register, FIRST_NUMBER, text, refusals)
    }

    fn check(&self, register: &[u8]) -> Checked {
        engine::check(register, register.len())
    }

    fn find_number(&self, register: &[u8], number: u32) -> Found {
        engine::find_number(register, register.len(), number)
    }

    fn find_member(&self, register: &[u8], member: u32) -> FoundMember {
        engine::find_member(register, register.len(), member)
    }
}

/// The independent implementation.
pub struct Reference;

impl Implementation for Reference {
    fn quote(&self, line: &[u8]) -> Quote {
        answers::quote(line)
    }

    // Spares the reference the struct of the C interface.
    fn total(&self, line: &[u8]) -> u64 {
        reference::quote(line).map_or(0, |quote| quote.total.0)
    }

    fn file_all(&self, register: &mut [u8], text: &[u8], refusals: &mut [u8]) -> usize {
        reference::register::file_all(register, FIRST_NUMBER, text, refusals)
    }

    fn check(&self, register: &[u8]) -> Checked {
        answers::check(register, register.len())
    }

    fn find_number(&self, register: &[u8], number: u32) -> Found {
        answers::find_number(register, register.len(), number)
    }

    fn find_member(&self, register: &[u8], member: u32) -> FoundMember {
        answers::find_member(register, register.len(), member)
    }
}
