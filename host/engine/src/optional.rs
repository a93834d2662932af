//! The calls with slices that may be missing: `None` passes a null pointer and
//! length 0, as a C host may do for an empty buffer.

use std::ptr;

use crate::raw;
use crate::{Checked, Filed, FiledLines, Found, FoundMember, Quote, Written};

fn parts(slice: Option<&[u8]>) -> (*const u8, usize) {
    slice.map_or((ptr::null(), 0), |bytes| (bytes.as_ptr(), bytes.len()))
}

fn parts_mut(slice: Option<&mut [u8]>) -> (*mut u8, usize) {
    slice.map_or((ptr::null_mut(), 0), |bytes| (bytes.as_mut_ptr(), bytes.len()))
}

pub fn quote(line: Option<&[u8]>) -> Quote {
    let (line, line_length) = parts(line);
    // SAFETY: the pointer and length are those of a live slice, or null and 0.
    unsafe { raw::pension_quote(line, line_length) }
}

pub fn check(register: Option<&[u8]>, used: usize) -> Checked {
    let (register, register_length) = parts(register);
    // SAFETY: the pointer and length are those of a live slice, or null and 0;
    // the engine tests `used` itself.
    unsafe { raw::pension_check(register, register_length, used) }
}

pub fn file(
    register: Option<&mut [u8]>,
    used: usize,
    first_number: u32,
    line: Option<&[u8]>,
) -> Filed {
    let (register, register_length) = parts_mut(register);
    let (line, line_length) = parts(line);
    // SAFETY: pointers and lengths are those of live slices that do not
    // overlap, or null and 0; the engine tests `used` itself.
    unsafe { raw::pension_file(register, register_length, used, first_number, line, line_length) }
}

pub fn file_lines(
    register: Option<&mut [u8]>,
    used: usize,
    first_number: u32,
    lines: Option<&[u8]>,
    refusals: Option<&mut [u8]>,
) -> FiledLines {
    let (register, register_length) = parts_mut(register);
    let (lines, lines_length) = parts(lines);
    let (refusals, refusals_length) = parts_mut(refusals);
    // SAFETY: pointers and lengths are those of live slices that do not
    // overlap, or null and 0; the engine tests `used` itself.
    unsafe {
        raw::pension_file_lines(
            register,
            register_length,
            used,
            first_number,
            lines,
            lines_length,
            refusals,
            refusals_length,
        )
    }
}

pub fn file_all(
    register: Option<&mut [u8]>,
    first_number: u32,
    lines: Option<&[u8]>,
    refusals: Option<&mut [u8]>,
) -> usize {
    let (register, register_length) = parts_mut(register);
    let (lines, lines_length) = parts(lines);
    let (refusals, refusals_length) = parts_mut(refusals);
    // SAFETY: pointers and lengths are those of live slices that do not
    // overlap, or null and 0.
    unsafe {
        raw::pension_file_all(
            register,
            register_length,
            first_number,
            lines,
            lines_length,
            refusals,
            refusals_length,
        )
    }
}

pub fn find_number(register: Option<&[u8]>, used: usize, number: u32) -> Found {
    let (register, register_length) = parts(register);
    // SAFETY: as for `check`.
    unsafe { raw::pension_find_number(register, register_length, used, number) }
}

pub fn find_member(register: Option<&[u8]>, used: usize, member: u32) -> FoundMember {
    let (register, register_length) = parts(register);
    // SAFETY: as for `check`.
    unsafe { raw::pension_find_member(register, register_length, used, member) }
}

pub fn join(
    first: Option<&[u8]>,
    first_used: usize,
    second: Option<&[u8]>,
    second_used: usize,
    target: Option<&mut [u8]>,
) -> Written {
    let (first, first_length) = parts(first);
    let (second, second_length) = parts(second);
    let (target, target_length) = parts_mut(target);
    // SAFETY: pointers and lengths are those of live slices, or null and 0, and
    // the target overlaps neither of the others; the engine tests the used
    // lengths itself.
    unsafe {
        raw::pension_join(
            first,
            first_length,
            first_used,
            second,
            second_length,
            second_used,
            target,
            target_length,
        )
    }
}
