//! The refusals and their numbers.

/// Why an input was turned down. The lowest that applies is given.
#[derive(Clone, Copy, Debug, PartialEq, Eq, PartialOrd, Ord)]
#[repr(u8)]
pub enum Refusal {
    /// A character is not 0-9 or A-F.
    Character = 1,
    /// The length fits no case, or the count of pensions disagrees with it.
    Length = 2,
    /// A date is not in the calendar.
    Date = 3,
    /// Not birth < start <= end <= commencement.
    DateOrder = 4,
    /// Age outside 216 to 1,199 months.
    Age = 5,
    /// Unknown kind of pension.
    Kind = 6,
    /// A factor, pension increase or lift flag outside its list.
    Terms = 7,
    /// Kind 2 from 660 months on, or kind 3 below.
    KindAtAge = 8,
    /// A factor to look up at an age that Table 1 is not held for.
    AgeOutsideTable = 9,
    /// A stated pension is 0, or all together are too much.
    StatedPension = 10,
    /// The register breaks its layout or numbering.
    Register = 11,
    /// No room for a register line.
    NoSpace = 12,
    /// The last quote number is used up.
    LastNumber = 13,
    /// No such line in the register.
    Absent = 14,
    /// Trivial commutation has no such scheme, age or pension.
    NotCommutable = 15,
    /// Two registers have unlike lines for a number, or none for one between.
    NotJoinable = 16,
    /// No room for two joined registers.
    TargetTooShort = 17,
}

impl Refusal {
    /// The number of the refusal in the rules document and the change requests.
    pub fn number(self) -> u8 {
        self as u8
    }
}
