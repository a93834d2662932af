//! Reference implementation of the retirement quotation engine for police
//! pensions.
//!
//! It is written from the rules document, the first seven change requests and the
//! tables of the source documents and shares no code with the proved engine, so
//! that the two can be held against each other.
//!
//! Modules use one another in one direction: [`money`], [`factors`],
//! [`calendar`], [`hexadecimal`] and [`refusals`], then [`trivial_commutation`],
//! [`allowance`], [`case_line`], [`split`], [`limit`], [`acceptance`],
//! [`quoting`], [`register`], [`joining`] and [`quotes`], each only some of those
//! before it.

#![forbid(unsafe_code)]

pub mod acceptance;
pub mod allowance;
pub mod calendar;
pub mod case_line;
pub mod factors;
pub mod hexadecimal;
pub mod joining;
pub mod limit;
pub mod money;
pub mod quotes;
pub mod quoting;
pub mod refusals;
pub mod register;
pub mod split;
pub mod trivial_commutation;

pub use quoting::quote;
pub use refusals::Refusal;
pub use split::Quote;
