//! The quote of a case line.

use crate::acceptance;
use crate::refusals::Refusal;
use crate::split::{self, Quote};

/// Quotes one case line, its newline left out.
pub fn quote(line: &[u8]) -> Result<Quote, Refusal> {
    let case = acceptance::accept(line)?;
    Ok(split::quote(&case))
}
