//! The error of a string that cannot be parsed.

use core::error::Error;
use core::fmt;

/// The text is none of those that a value of the type has.
///
/// ```
/// let refused = "2024-02-30".parse::<proved_calendar::Date>().unwrap_err();
/// assert_eq!(refused.to_string(), "no text of a date");
/// ```
#[derive(Clone, Copy, Debug, PartialEq, Eq)]
pub struct ParseError {
    pub(crate) kind: &'static str,
}

impl fmt::Display for ParseError {
    fn fmt(&self, f: &mut fmt::Formatter<'_>) -> fmt::Result {
        write!(f, "no text of a {}", self.kind)
    }
}

impl Error for ParseError {}
