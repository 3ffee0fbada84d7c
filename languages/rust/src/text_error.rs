//! The error of a text of the layers, with its place.

use core::error::Error;
use core::fmt;
use core::str::from_utf8;

use crate::layer_calls::*;

/// The number of bytes of the longest sentence on what is wrong with a text.
const SENTENCE_ROOM: usize = 99;

/// What is wrong with a text, and where.
///
/// ```
/// use proved_calendar::Schedule;
/// let wrong = "0 7,25 * * *".parse::<Schedule>().unwrap_err();
/// assert_eq!((wrong.start(), wrong.end()), (4, 6));
/// ```
#[derive(Clone, Copy, Debug, PartialEq, Eq)]
pub struct TextError {
    pub(crate) fault: Fault,
    pub(crate) kind: Kind,
}

/// What the text should have been.
#[derive(Clone, Copy, Debug, PartialEq, Eq)]
pub(crate) enum Kind {
    /// A [`crate::Schedule`].
    Schedule,
    /// A rule.
    #[cfg(feature = "alloc")]
    Rule,
    /// A zone.
    #[cfg(feature = "alloc")]
    Zone,
    /// A pattern, or a text that a pattern reads.
    #[cfg(feature = "alloc")]
    Pattern,
    /// A text with no offset, which a pattern reads.
    #[cfg(feature = "alloc")]
    Offset,
    /// A text of a calendar.
    #[cfg(feature = "alloc")]
    Calendar,
    /// A schedule with seconds.
    #[cfg(feature = "alloc")]
    Timed,
}

impl TextError {
    /// The byte at which the wrong part begins. It is the text's length if something is missing at its end.
    ///
    /// ```
    /// let wrong = "* * * *".parse::<proved_calendar::Schedule>().unwrap_err();
    /// assert_eq!(wrong.start(), 7);
    /// ```
    #[must_use]
    pub const fn start(&self) -> usize {
        self.fault.byte
    }

    /// The byte before which the wrong part ends.
    ///
    /// ```
    /// let wrong = "* * * foo *".parse::<proved_calendar::Schedule>().unwrap_err();
    /// assert_eq!(wrong.end(), 9);
    /// ```
    #[must_use]
    pub const fn end(&self) -> usize {
        self.fault.end
    }

    /// The field of a schedule or the part of a rule that is wrong, from 1; `None` if it is none of them. The fields are minutes, hours,
    /// days, months and weekdays.
    ///
    /// ```
    /// let wrong = "* * * foo *".parse::<proved_calendar::Schedule>().unwrap_err();
    /// assert_eq!(wrong.field(), Some(4));
    /// ```
    #[must_use]
    pub const fn field(&self) -> Option<u32> {
        match self.fault.field {
            0 => None,
            field => Some(field),
        }
    }
}

impl fmt::Display for TextError {
    fn fmt(&self, f: &mut fmt::Formatter<'_>) -> fmt::Result {
        #[cfg(feature = "alloc")]
        if self.kind == Kind::Offset {
            return f.pad("the pattern reads an offset, which parse_zoned keeps");
        }
        // SAFETY: the room has as many bytes as its length says.
        write_sentence(f, |room, count| unsafe {
            match self.kind {
                Kind::Schedule => calendar_schedule_fault_text(&self.fault, room, count),
                #[cfg(feature = "alloc")]
                Kind::Rule => calendar_rule_fault_text(&self.fault, room, count),
                #[cfg(feature = "alloc")]
                Kind::Zone => calendar_zone_fault_text(&self.fault, room, count),
                #[cfg(feature = "alloc")]
                Kind::Pattern | Kind::Offset => {
                    calendar_pattern_fault_text(&self.fault, room, count)
                }
                #[cfg(feature = "alloc")]
                Kind::Calendar => calendar_text_fault_text(&self.fault, room, count),
                #[cfg(feature = "alloc")]
                Kind::Timed => calendar_timed_schedule_fault_text(&self.fault, room, count),
            }
        })
    }
}

/// Prints the sentence that a call writes into a room, of which it takes the first byte and the length.
pub(crate) fn write_sentence(
    f: &mut fmt::Formatter<'_>,
    tell: impl FnOnce(*mut u8, usize) -> i32,
) -> fmt::Result {
    let mut text = [0; SENTENCE_ROOM];
    let length = tell(text.as_mut_ptr(), text.len());
    f.pad(from_utf8(text.get(..length as usize).unwrap_or_default()).unwrap_or_default())
}

impl Error for TextError {}
