//! Case lines by their fields, good and bad.

use reference::calendar::{days_in_month, Date};

/// The fields of a pension in a case line; they need not keep any rule.
#[derive(Clone, Debug)]
pub struct PensionFields {
    pub kind: u8,
    pub yearly: u32,
    pub start: Date,
    pub end: Date,
    pub lift: u8,
    pub f1: u16,
    pub f2: u16,
    pub f3: u16,
    pub increase: u16,
}

/// The fields of a case line; they need not keep any rule.
#[derive(Clone, Debug)]
pub struct CaseFields {
    pub member: u32,
    pub birth: Date,
    pub commencement: Date,
    pub count: u8,
    pub pensions: Vec<PensionFields>,
    /// Pence already used of the lump sum allowance, if the line states them.
    pub used_allowance: Option<u32>,
    /// Puts a character that is no digit in the place of the first one.
    pub bad_character: bool,
}

impl CaseFields {
    /// The case line, without a newline.
    pub fn line(&self) -> Vec<u8> {
        let mut line = format!(
            "{:08X}{}{}{:02X}",
            self.member,
            date_digits(self.birth),
            date_digits(self.commencement),
            self.count
        );
        for pension in &self.pensions {
            line.push_str(&pension.digits());
        }
        if let Some(used) = self.used_allowance {
            line.push_str(&format!("{used:08X}"));
        }
        let mut line = line.into_bytes();
        if self.bad_character {
            line[0] = b'g';
        }
        line
    }

    /// Sets one of the four dates that a case has with the pension at a place,
    /// counted from 0 in the order of the line.
    pub fn set_date(&mut self, place: usize, field: usize, date: Date) {
        match field {
            0 => self.birth = date,
            1 => self.commencement = date,
            2 => self.pensions[place].start = date,
            3 => self.pensions[place].end = date,
            _ => panic!("no date of a case: {field}"),
        }
    }

    /// Every date of the line, in its order.
    pub fn dates(&self) -> impl Iterator<Item = Date> + '_ {
        let of_pensions = self.pensions.iter().flat_map(|pension| [pension.start, pension.end]);
        [self.birth, self.commencement].into_iter().chain(of_pensions)
    }
}

impl PensionFields {
    fn digits(&self) -> String {
        format!(
            "{:02X}{:08X}{}{}{:02X}{:04X}{:04X}{:04X}{:04X}",
            self.kind,
            self.yearly,
            date_digits(self.start),
            date_digits(self.end),
            self.lift,
            self.f1,
            self.f2,
            self.f3,
            self.increase
        )
    }
}

fn date_digits(date: Date) -> String {
    format!("{:04X}{:02X}{:02X}", date.year, date.month, date.day)
}

/// A good pension of a kind with 30 years of service, for a member born in
/// June 1970. Four of them never reach the lump sum allowance, so that every
/// figure shows whatever the commencement.
pub fn plain_pension(kind: u8) -> PensionFields {
    let terms = match kind {
        1 => [2500, 0, 0, 0],
        2 => [2628, 2280, 872, 1000],
        _ => [0; 4],
    };
    let [f1, f2, f3, increase] = terms;
    PensionFields {
        kind,
        yearly: 1_000_000,
        start: Date::new(1988, 6, 15),
        end: Date::new(2018, 6, 15),
        lift: 0,
        f1,
        f2,
        f3,
        increase,
    }
}

/// A good case of the given kinds: at age 54 with kind 2 (which then allows no
/// kind 3), else at 57. Both ages are in Table 1. The line states no used
/// allowance.
pub fn plain_case(kinds: &[u8]) -> CaseFields {
    let year = if kinds.contains(&2) { 2024 } else { 2027 };
    CaseFields {
        member: 0x00C0_FFEE,
        birth: Date::new(1970, 6, 15),
        commencement: Date::new(year, 6, 15),
        count: kinds.len() as u8,
        pensions: kinds.iter().map(|&kind| plain_pension(kind)).collect(),
        used_allowance: None,
        bad_character: false,
    }
}

/// A good case of somebody with these dates, who was in service from the day after
/// birth on: kind 1 with a stated factor, which no age forbids.
pub fn case_between(birth: Date, commencement: Date) -> CaseFields {
    let mut case = plain_case(&[1]);
    (case.birth, case.commencement) = (birth, commencement);
    (case.pensions[0].start, case.pensions[0].end) = (day_after(birth), commencement);
    case
}

/// A good case that commences in a year, 1918 at the earliest: the calendar has
/// births from 1900 on, and the youngest are 18.
pub fn case_of_year(year: u16) -> CaseFields {
    case_between(Date::new(year - 18, 1, 1), Date::new(year, 7, 1))
}

/// Good cases with a pension of one kind at every place of 1 to 4 pensions,
/// and that place. The other pensions are of kind 1.
pub fn at_every_place(kind: u8) -> impl Iterator<Item = (CaseFields, usize)> {
    (1..=4).flat_map(move |count: usize| {
        (0..count).map(move |place| {
            let mut kinds = vec![1; count];
            kinds[place] = kind;
            (plain_case(&kinds), place)
        })
    })
}

/// A good case in which one change at a place makes any one of refusals 1 to
/// 10 apply, and no other: kind 1 with stated factors, at 900 months.
pub fn breakable_case(count: usize) -> CaseFields {
    let mut case = plain_case(&vec![1; count]);
    case.birth = Date::new(1950, 6, 15);
    case.commencement = Date::new(2025, 6, 15);
    case
}

/// Breaks the rule of one refusal in a [`breakable_case`], at a pension where
/// the rule is one about pensions.
pub fn break_rule(case: &mut CaseFields, refusal: u32, place: usize) {
    let pension = &mut case.pensions[place];
    match refusal {
        1 => case.bad_character = true,
        2 => case.count = case.count % 4 + 1,
        3 => (pension.start.month, pension.start.day) = (2, 30),
        4 => pension.end.year = pension.start.year - 1,
        5 => case.commencement.year += 30,
        6 => pension.kind = 9,
        7 => pension.lift = 2,
        8 => {
            // Keeps a lift flag or factor 1 that broke another rule.
            let terms = plain_pension(2);
            pension.kind = 2;
            (pension.f2, pension.f3, pension.increase) = (terms.f2, terms.f3, terms.increase);
        }
        9 => pension.f1 = 0,
        10 => pension.yearly = 0,
        _ => panic!("no refusal of a case line: {refusal}"),
    }
}

/// A line that breaks the rule of exactly one refusal, 1 to 10.
pub fn refused_line(refusal: u32) -> Vec<u8> {
    let mut case = breakable_case(1);
    break_rule(&mut case, refusal, 0);
    case.line()
}

/// All dates that are a count of complete months after a date, in order: from the
/// day on which the last of them is complete to the day before the next is.
pub fn dates_after(date: Date, months: u32) -> Vec<Date> {
    let (year, month) = month_after(date, months);
    let length = days_in_month(year, month);
    let in_month = (date.day.min(length)..=length).map(|day| Date::new(year, month, day));
    let (year, month) = month_after(date, months + 1);
    let next_complete = date.day.min(days_in_month(year, month));
    let in_next_month = (1..next_complete).map(|day| Date::new(year, month, day));
    in_month.chain(in_next_month).collect()
}

/// All dates that a date is a count of complete months after, in order. The last
/// day of a month is as many after every day of an earlier month.
pub fn dates_before(date: Date, months: u32) -> Vec<Date> {
    let is_last = date.day == days_in_month(date.year, date.month);
    let day = if is_last { 31 } else { date.day };
    let (year, month) = month_before(date, months + 1);
    let in_month_before =
        (day + 1..=days_in_month(year, month)).map(|day| Date::new(year, month, day));
    let (year, month) = month_before(date, months);
    let last = days_in_month(year, month).min(day);
    let in_month = (1..=last).map(|day| Date::new(year, month, day));
    in_month_before.chain(in_month).collect()
}

fn month_after(date: Date, months: u32) -> (u16, u8) {
    year_and_month(months_to(date) + months)
}

fn month_before(date: Date, months: u32) -> (u16, u8) {
    year_and_month(months_to(date) - months)
}

/// The month of a date, counted from January of the year 0.
fn months_to(date: Date) -> u32 {
    12 * u32::from(date.year) + u32::from(date.month) - 1
}

fn year_and_month(months: u32) -> (u16, u8) {
    ((months / 12) as u16, (months % 12) as u8 + 1)
}

pub fn day_after(date: Date) -> Date {
    let Date { year, month, day } = date;
    if day < days_in_month(year, month) {
        Date::new(year, month, day + 1)
    } else if month < 12 {
        Date::new(year, month + 1, 1)
    } else {
        Date::new(year + 1, 1, 1)
    }
}

#[cfg(test)]
mod tests {
    use super::*;

    /// Days in and next to short months, and others.
    const DAYS: [Date; 11] = [
        Date::new(2024, 4, 5),
        Date::new(2024, 2, 28),
        Date::new(2024, 2, 29),
        Date::new(2023, 2, 27),
        Date::new(2023, 2, 28),
        Date::new(2024, 4, 29),
        Date::new(2024, 4, 30),
        Date::new(2024, 3, 30),
        Date::new(2024, 3, 31),
        Date::new(2023, 12, 31),
        Date::new(2025, 1, 1),
    ];

    #[test]
    fn dates_before_and_after() {
        for day in DAYS {
            for months in 0..=1199 {
                let before = dates_before(day, months);
                assert!(before.is_sorted() && before.len() >= 28, "{day:?}, {months}");
                assert!(before.iter().all(|date| date.months_until(day) == months as i32));
                assert!(before.iter().all(|&date| dates_after(date, months).contains(&day)));
            }
        }
    }

    /// The days from a date on, each once: so many months after it, then one
    /// more.
    #[test]
    fn every_day_after_a_date() {
        for day in DAYS {
            let mut next = day;
            for date in (0..=1199).flat_map(|months| dates_after(day, months)) {
                assert_eq!(date, next, "after {day:?}");
                next = day_after(next);
            }
        }
    }

    /// The days up to a date, each once: so many months before it, and before
    /// them those that are one more.
    #[test]
    fn every_day_before_a_date() {
        for day in DAYS {
            let mut next = dates_before(day, 1199)[0];
            for date in (0..=1199).rev().flat_map(|months| dates_before(day, months)) {
                assert_eq!(date, next, "before {day:?}");
                next = day_after(next);
            }
            assert_eq!(next, day_after(day));
        }
    }
}
