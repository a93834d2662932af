//! Random good cases, with a liking for the ends of every range.

use std::ops::RangeInclusive;

use reference::calendar::{days_in_month, Date};

use crate::fields::{dates_after, dates_before, day_after, CaseFields, PensionFields};
use crate::generator::Generator;

/// Every list of 1 to 4 kinds that a case may have: kinds 2 and 3 are never at
/// the same age.
pub fn kind_lists() -> Vec<Vec<u8>> {
    let mut lists = vec![vec![]];
    let mut all = Vec::new();
    for _ in 0..4 {
        lists = lists
            .iter()
            .flat_map(|list: &Vec<u8>| (1..=3).map(|kind| [list.as_slice(), &[kind]].concat()))
            .collect();
        all.extend(
            lists.iter().filter(|kinds| !(kinds.contains(&2) && kinds.contains(&3))).cloned(),
        );
    }
    all
}

/// A good case of random kinds. Its line, as those of all cases here, states
/// no used allowance.
pub fn any_case(random: &mut Generator) -> CaseFields {
    let kinds = any_kinds(random);
    good_case(random, &kinds)
}

/// 1 to 4 kinds that a case may have.
pub(crate) fn any_kinds(random: &mut Generator) -> Vec<u8> {
    let count = 1 + random.below(4);
    let kinds_at_age = [1, random.pick(&[2, 3])];
    (0..count).map(|_| random.pick(&kinds_at_age)).collect()
}

/// A good case of the given kinds.
pub fn good_case(random: &mut Generator, kinds: &[u8]) -> CaseFields {
    let look_up = random.once_in(2);
    let age = age_for(random, kinds, look_up);
    let birth = birth_for(random, age);
    let commencement = random.pick(&dates_after(birth, age));
    case_between(random, kinds, look_up, birth, commencement)
}

/// A good case of the given kinds that commences on a day. Every age that the
/// kinds allow must be in the calendar on that day.
pub fn good_case_on(random: &mut Generator, kinds: &[u8], commencement: Date) -> CaseFields {
    let look_up = random.once_in(2);
    let age = age_for(random, kinds, look_up);
    let birth = random.pick(&dates_before(commencement, age));
    case_between(random, kinds, look_up, birth, commencement)
}

/// A good case of a member's dates, with factors to look up or stated.
fn case_between(
    random: &mut Generator,
    kinds: &[u8],
    look_up: bool,
    birth: Date,
    commencement: Date,
) -> CaseFields {
    let mut pensions: Vec<PensionFields> = Vec::new();
    for &kind in kinds {
        let (start, end) = service(random, birth, commencement);
        pensions.push(good_pension(random, kind, look_up, start, end));
    }
    with_amounts(random, birth, commencement, pensions)
}

/// The case of some pensions, with random amounts and a random member.
pub(crate) fn with_amounts(
    random: &mut Generator,
    birth: Date,
    commencement: Date,
    mut pensions: Vec<PensionFields>,
) -> CaseFields {
    state_amounts(random, &mut pensions);
    CaseFields {
        member: random.next() as u32,
        birth,
        commencement,
        count: pensions.len() as u8,
        pensions,
        used_allowance: None,
        bad_character: false,
    }
}

/// The line of a random good case; one in twenty has a character changed.
pub fn mixed_line(random: &mut Generator) -> Vec<u8> {
    let mut line = any_case(random).line();
    if random.once_in(20) {
        let place = random.below(line.len());
        line[place] = random.pick(b"05Fg\r");
    }
    line
}

/// A text of so many lines, each a [`mixed_line`].
pub fn mixed_text(random: &mut Generator, lines: usize) -> Vec<u8> {
    text_of(lines, || mixed_line(random))
}

/// A text of so many lines, drawn one after the other.
pub fn text_of(lines: usize, mut line: impl FnMut() -> Vec<u8>) -> Vec<u8> {
    let mut text = Vec::new();
    for _ in 0..lines {
        text.extend_from_slice(&line());
        text.push(b'\n');
    }
    text
}

fn age_for(random: &mut Generator, kinds: &[u8], look_up: bool) -> u32 {
    let ages = ages_for(random, kinds, look_up);
    let any = random.within(ages.clone());
    random.pick(&[any, any, any, *ages.start(), *ages.end()])
}

/// The ages in months, of those that the kinds allow, to draw one from.
pub(crate) fn ages_for(random: &mut Generator, kinds: &[u8], look_up: bool) -> RangeInclusive<u32> {
    let (mut youngest, mut oldest) = if look_up { (636, 875) } else { (216, 1199) };
    if kinds.contains(&2) {
        oldest = 659;
    }
    if kinds.contains(&3) {
        youngest = 660;
        // Mostly the ages of early payment.
        oldest = if random.once_in(4) { oldest } else { 721 };
    }
    youngest..=oldest
}

fn birth_for(random: &mut Generator, age: u32) -> Date {
    let last_year = 2199 - age / 12 - 2;
    let any_year = random.within(1900..=last_year);
    let year = random.pick(&[any_year, any_year, 1900, last_year]) as u16;
    let month = random.within(1..=12) as u8;
    let last_day = days_in_month(year, month);
    let any_day = random.within(1..=u32::from(last_day)) as u8;
    Date::new(year, month, random.pick(&[any_day, any_day, 1, last_day]))
}

/// Service after birth that ends by commencement, often of a length next to
/// the two-and-a-quarter cap.
fn service(random: &mut Generator, birth: Date, commencement: Date) -> (Date, Date) {
    let age = birth.months_until(commencement) as u32;
    let any_length = random.within(0..=age);
    let length = random.pick(&[any_length, 0, 299, 300, 301, 358, 359, 360]).min(age);
    let earliest = day_after(birth);
    let starts = dates_after(birth, random.within(0..=age - length));
    let start = random.pick(&starts).clamp(earliest, commencement);
    let mut ends = dates_after(start, length);
    ends.retain(|&end| end <= commencement);
    if ends.is_empty() {
        ends.push(commencement);
    }
    (start, random.pick(&ends))
}

pub(crate) fn good_pension(
    random: &mut Generator,
    kind: u8,
    look_up: bool,
    start: Date,
    end: Date,
) -> PensionFields {
    let f1 = if look_up { 0 } else { hundredths(random) };
    let (f3, increase) = (thousandths(random), increase(random));
    // A kind 2 pension with these factors has the price of kind 1.
    let tied = random.once_in(4) && f1 != 0;
    let (f2, f3) = if tied { (f1, 1000) } else { (hundredths(random), f3) };
    let [f1, f2, f3, increase] = match kind {
        1 => [f1, 0, 0, 0],
        2 => [f1, f2, f3, increase],
        _ => [0; 4],
    };
    let lift = if kind == 3 { 0 } else { random.below(2) as u8 };
    PensionFields { kind, yearly: 1, start, end, lift, f1, f2, f3, increase }
}

/// Factor 1200 has the price of a 2015 pension; 2000 makes equal prices likely.
fn hundredths(random: &mut Generator) -> u16 {
    let any = random.within(500..=4000) as u16;
    random.pick(&[any, any, any, 500, 4000, 1200, 2000])
}

fn thousandths(random: &mut Generator) -> u16 {
    let any = random.within(1..=1000) as u16;
    random.pick(&[any, any, 1, 1000])
}

fn increase(random: &mut Generator) -> u16 {
    let any = random.within(1..=10_000) as u16;
    random.pick(&[any, any, 1, 10_000])
}

/// States amounts of every size; now and then they total the most allowed.
fn state_amounts(random: &mut Generator, pensions: &mut [PensionFields]) {
    let most = random.pick(&[4, 100, 10_000, 3_000_000, 12_500_000]);
    for pension in pensions.iter_mut() {
        pension.yearly = random.within(1..=most);
    }
    if random.once_in(8) {
        let others: u32 = pensions[1..].iter().map(|pension| pension.yearly).sum();
        pensions[0].yearly = 50_000_000 - others;
    }
}
