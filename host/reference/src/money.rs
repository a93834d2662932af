//! The two units of money. They meet only through a [`Factor`], or the factors of
//! a [trivial commutation].
//!
//! [`Factor`]: crate::factors::Factor
//! [trivial commutation]: crate::trivial_commutation

/// Money paid once, in whole pence.
#[derive(Clone, Copy, Debug, Default, PartialEq, Eq, PartialOrd, Ord)]
pub struct LumpPence(pub u64);

/// Money paid every year, in whole pence.
#[derive(Clone, Copy, Debug, Default, PartialEq, Eq, PartialOrd, Ord)]
pub struct YearlyPence(pub u64);
