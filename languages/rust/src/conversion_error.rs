//! The error of a conversion from or to a type of another crate.

use core::error::Error;
use core::fmt;

/// The other type has no such value.
///
/// ```
/// use proved_calendar::ConversionError;
/// fn told(refused: ConversionError) -> String {
///     format!("skipped: {refused}")
/// }
/// ```
#[derive(Clone, Copy, Debug, PartialEq, Eq)]
pub struct ConversionError {
    pub(crate) kind: &'static str,
}

impl fmt::Display for ConversionError {
    fn fmt(&self, f: &mut fmt::Formatter<'_>) -> fmt::Result {
        write!(f, "there is no such {}", self.kind)
    }
}

impl Error for ConversionError {}
