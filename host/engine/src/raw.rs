//! The C declarations, one for one.

use crate::{Checked, Commuted, Filed, FiledLines, Found, FoundMember, Quote, Written};

extern "C" {
    pub fn pension_quote(line: *const u8, line_length: usize) -> Quote;

    pub fn pension_check(register: *const u8, register_length: usize, used: usize) -> Checked;

    pub fn pension_file(
        register: *mut u8,
        register_length: usize,
        used: usize,
        first_number: u32,
        line: *const u8,
        line_length: usize,
    ) -> Filed;

    pub fn pension_file_lines(
        register: *mut u8,
        register_length: usize,
        used: usize,
        first_number: u32,
        lines: *const u8,
        lines_length: usize,
        refusals: *mut u8,
        refusals_length: usize,
    ) -> FiledLines;

    pub fn pension_file_all(
        register: *mut u8,
        register_length: usize,
        first_number: u32,
        lines: *const u8,
        lines_length: usize,
        refusals: *mut u8,
        refusals_length: usize,
    ) -> usize;

    pub fn pension_find_number(
        register: *const u8,
        register_length: usize,
        used: usize,
        number: u32,
    ) -> Found;

    pub fn pension_find_member(
        register: *const u8,
        register_length: usize,
        used: usize,
        member: u32,
    ) -> FoundMember;

    pub fn pension_trivial_commutation(
        scheme: u32,
        age: u32,
        member_pension: u64,
        survivor_pension: u64,
    ) -> Commuted;

    pub fn pension_date_fault(year: u32, month: u32, day: u32) -> u32;

    pub fn pension_join(
        first: *const u8,
        first_length: usize,
        first_used: usize,
        second: *const u8,
        second_length: usize,
        second_used: usize,
        target: *mut u8,
        target_length: usize,
    ) -> Written;
}
