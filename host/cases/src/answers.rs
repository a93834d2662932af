//! The reference's answers in the structs of the C interface.

use std::ops::Range;

use engine::{Checked, Commuted, Filed, Found, FoundMember, Quote, Written};
use reference::calendar;
use reference::joining;
use reference::money::{LumpPence, YearlyPence};
use reference::register::{self as book, MemberSearch};
use reference::Refusal;

pub fn quote(line: &[u8]) -> Quote {
    match reference::quote(line) {
        Err(refusal) => Quote { refusal: number(refusal), ..Quote::default() },
        Ok(quote) => Quote {
            refusal: 0,
            member: quote.member,
            total: quote.total.0,
            lump: quote.lump.map(|LumpPence(pence)| pence),
            remaining: quote.remaining.map(|YearlyPence(pence)| pence),
            second: quote.second.map(|LumpPence(pence)| pence),
        },
    }
}

pub fn check(register: &[u8], used: usize) -> Checked {
    match book::check(register, used) {
        Ok(_) => Checked::default(),
        Err(bad) => Checked { refusal: number(Refusal::Register), offset: bad.0 },
    }
}

pub fn file(register: &mut [u8], used: usize, first_number: u32, line: &[u8]) -> Filed {
    match book::file(register, used, first_number, line) {
        Ok(used) => Filed { refusal: 0, used },
        Err(refusal) => Filed { refusal: number(refusal), used: 0 },
    }
}

pub fn find_number(register: &[u8], used: usize, number: u32) -> Found {
    found(book::find_number(register, used, number))
}

pub fn find_member(register: &[u8], used: usize, member: u32) -> FoundMember {
    match book::find_member(register, used, member) {
        Ok(MemberSearch { place, compared }) => {
            let Found { refusal, offset, length } = found(place.ok_or(Refusal::Absent));
            FoundMember { refusal, offset, length, compared }
        }
        Err(refusal) => FoundMember { refusal: number(refusal), ..FoundMember::default() },
    }
}

pub fn trivial_commutation(
    scheme: u32,
    age: u32,
    member_pension: u64,
    survivor_pension: u64,
) -> Commuted {
    let (member, survivor) = (YearlyPence(member_pension), YearlyPence(survivor_pension));
    match reference::trivial_commutation::lump_sum(scheme, age, member, survivor) {
        Ok(lump) => Commuted { refusal: 0, lump: lump.0 },
        Err(refusal) => Commuted { refusal: number(refusal), lump: 0 },
    }
}

pub fn date_fault(year: u32, month: u32, day: u32) -> u32 {
    calendar::date_fault(year, month, day).map_or(0, |fault| u32::from(fault.number()))
}

pub fn join(
    first: &[u8],
    first_used: usize,
    second: &[u8],
    second_used: usize,
    target: &mut [u8],
) -> Written {
    match joining::join(first, first_used, second, second_used, target) {
        Ok(used) => Written { refusal: 0, used },
        Err(refusal) => Written { refusal: number(refusal), used: 0 },
    }
}

fn found(found: Result<Range<usize>, Refusal>) -> Found {
    match found {
        Ok(place) => Found { refusal: 0, offset: place.start, length: place.len() },
        Err(refusal) => Found { refusal: number(refusal), ..Found::default() },
    }
}

fn number(refusal: Refusal) -> u32 {
    u32::from(refusal.number())
}
