//! Patterns of texts, as of `strftime`.

use alloc::string::String;
use core::fmt;
use core::str::{from_utf8, FromStr};

use crate::calls::Moment;
use crate::layer_calls::*;
use crate::text_error::{Kind, TextError};
use crate::{Date, DateTime};

/// The number of bytes of the longest text that a pattern writes.
const LONGEST: usize = 1_000;

/// A pattern by which dates and date-times are written and read, such as `%d.%m.%Y`.
///
/// Its specifiers are those of chrono's `format`, with English names. What is no specifier stands in the text as it is. It prints as the
/// text that it was read from. It needs the feature `alloc`.
///
/// ```
/// use proved_calendar::{Date, Pattern};
/// let pattern: Pattern = "%d.%m.%Y".parse().unwrap();
/// let leap_day = Date::from_ymd(2024, 2, 29).unwrap();
/// assert_eq!(pattern.format_date(leap_day).unwrap(), "29.02.2024");
/// assert_eq!(pattern.parse_date("29.2.2024"), Ok(leap_day));
/// ```
#[derive(Clone, Debug, PartialEq, Eq, Hash)]
pub struct Pattern {
    text: String,
}

impl Pattern {
    /// The text of a date. `None` if the pattern has a specifier of the time or of an offset, or if the text is longer than 1,000 bytes.
    ///
    /// ```
    /// use proved_calendar::{Date, Pattern};
    /// let leap_day = Date::from_ymd(2024, 2, 29).unwrap();
    /// let [long, clock] = ["%A %-e %B", "%H:%M"].map(|it| it.parse::<Pattern>().unwrap());
    /// assert_eq!(long.format_date(leap_day).unwrap(), "Thursday 29 February");
    /// assert_eq!(clock.format_date(leap_day), None);
    /// ```
    #[must_use]
    pub fn format_date(&self, date: Date) -> Option<String> {
        let (pattern, length) = (self.text.as_ptr(), self.text.len());
        let (mut out, number) = ([0; LONGEST], date.number());
        // SAFETY: the pattern has as many bytes as its length says, and so has the room.
        let count =
            unsafe { calendar_format_date(pattern, length, number, out.as_mut_ptr(), LONGEST) };
        written(&out, count)
    }

    /// The text of a date-time. `None` if the pattern has a specifier of an offset, or if the text is longer than 1,000 bytes.
    ///
    /// ```
    /// use proved_calendar::{DateTime, Pattern};
    /// let pattern: Pattern = "%-I:%M %p on %A".parse().unwrap();
    /// let meeting: DateTime = "2024-02-29T13:30:00".parse().unwrap();
    /// assert_eq!(pattern.format_date_time(meeting).unwrap(), "1:30 PM on Thursday");
    /// ```
    #[must_use]
    pub fn format_date_time(&self, date_time: DateTime) -> Option<String> {
        let (pattern, length) = (self.text.as_ptr(), self.text.len());
        let (mut out, moment) = ([0; LONGEST], date_time.moment());
        // SAFETY: the pattern has as many bytes as its length says, and so has the room.
        let count = unsafe {
            calendar_format_date_time(pattern, length, moment, out.as_mut_ptr(), LONGEST)
        };
        written(&out, count)
    }

    /// The date that a text is of. The error has the place in the text.
    ///
    /// ```
    /// use proved_calendar::{Date, Pattern};
    /// let pattern: Pattern = "%d %b %Y".parse().unwrap();
    /// assert_eq!(pattern.parse_date("29 feb 2024"), Ok(Date::from_ymd(2024, 2, 29).unwrap()));
    /// let wrong = pattern.parse_date("32 feb 2024").unwrap_err();
    /// assert_eq!(wrong.to_string(), "byte 0: the field has no such value");
    /// ```
    pub fn parse_date(&self, text: &str) -> Result<Date, TextError> {
        let (pattern, length) = (self.text.as_ptr(), self.text.len());
        let (bytes, count, mut fault) = (text.as_ptr(), text.len(), Fault::NONE);
        // SAFETY: the pattern and the text have as many bytes as their lengths say.
        let number = unsafe { calendar_parse_date(pattern, length, bytes, count, &mut fault) };
        Date::from_number(number).ok_or(error(fault))
    }

    /// The date-time that a text is of. The error has the place in the text. A pattern with an offset is refused: [`Pattern::parse_zoned`]
    /// keeps it.
    ///
    /// ```
    /// use proved_calendar::Pattern;
    /// let pattern: Pattern = "%d.%m.%Y %R".parse().unwrap();
    /// let meeting = pattern.parse_date_time("29.2.2024 13:30").unwrap();
    /// assert_eq!(meeting.to_string(), "2024-02-29T13:30:00");
    /// ```
    pub fn parse_date_time(&self, text: &str) -> Result<DateTime, TextError> {
        let (pattern, length) = (self.text.as_ptr(), self.text.len());
        let (bytes, count, mut fault) = (text.as_ptr(), text.len(), Fault::NONE);
        if self.has_offset() {
            return Err(TextError {
                fault: Fault {
                    end: count,
                    ..fault
                },
                kind: Kind::Offset,
            });
        }
        // SAFETY: the pattern and the text have as many bytes as their lengths say.
        let moment = unsafe { calendar_parse_date_time(pattern, length, bytes, count, &mut fault) };
        DateTime::found(moment).ok_or(error(fault))
    }

    /// The local date-time that a text is of, and how many seconds its clock is ahead of UTC. The error has the place in the text.
    ///
    /// The pattern has an offset, or `%s`, whose seconds are of UTC.
    ///
    /// ```
    /// use proved_calendar::Pattern;
    /// let pattern: Pattern = "%F %R %z".parse().unwrap();
    /// let (local, offset) = pattern.parse_zoned("2024-02-29 13:30 +0530").unwrap();
    /// assert_eq!((local.to_string(), offset), ("2024-02-29T13:30:00".into(), 19_800));
    /// assert!(pattern.parse_date_time("2024-02-29 13:30 +0530").is_err());
    /// ```
    pub fn parse_zoned(&self, text: &str) -> Result<(DateTime, i32), TextError> {
        let (pattern, length) = (self.text.as_ptr(), self.text.len());
        let (bytes, count, mut fault) = (text.as_ptr(), text.len(), Fault::NONE);
        // SAFETY: the pattern and the text have as many bytes as their lengths say.
        let zoned = unsafe { calendar_parse_zoned(pattern, length, bytes, count, &mut fault) };
        let Zoned {
            seconds,
            nanos,
            offset,
        } = zoned;
        let local = DateTime::found(Moment { seconds, nanos }).ok_or(error(fault))?;
        Ok((local, offset))
    }

    /// Whether its texts have an offset from UTC, as by `%z` or `%+`.
    ///
    /// ```
    /// use proved_calendar::Pattern;
    /// let [local, zoned] = ["%F %R", "%F %R %z"].map(|it| it.parse::<Pattern>().unwrap());
    /// assert_eq!([local.has_offset(), zoned.has_offset()], [false, true]);
    /// ```
    #[must_use]
    pub fn has_offset(&self) -> bool {
        // SAFETY: the pattern has as many bytes as its length says.
        unsafe { calendar_pattern_names_offset(self.text.as_ptr(), self.text.len()) }
    }

    /// The text that it was read from.
    ///
    /// ```
    /// let pattern: proved_calendar::Pattern = "%d.%m.%Y".parse().unwrap();
    /// assert_eq!(pattern.as_str(), "%d.%m.%Y");
    /// ```
    #[must_use]
    pub fn as_str(&self) -> &str {
        &self.text
    }
}

impl FromStr for Pattern {
    type Err = TextError;

    /// ```
    /// use proved_calendar::Pattern;
    /// let wrong = "%Y-%Q".parse::<Pattern>().unwrap_err();
    /// assert_eq!(wrong.to_string(), "byte 3: an unknown specifier");
    /// ```
    fn from_str(text: &str) -> Result<Pattern, TextError> {
        let mut fault = Fault::NONE;
        // SAFETY: the text has as many bytes as its length says.
        if unsafe { calendar_pattern_check(text.as_ptr(), text.len(), &mut fault) } {
            Ok(Pattern { text: text.into() })
        } else {
            Err(error(fault))
        }
    }
}

impl fmt::Display for Pattern {
    fn fmt(&self, f: &mut fmt::Formatter<'_>) -> fmt::Result {
        f.pad(&self.text)
    }
}

/// The text of so many bytes that the library wrote; `None` if it wrote none.
fn written(out: &[u8], count: i32) -> Option<String> {
    let bytes = out.get(..usize::try_from(count).ok()?)?;
    from_utf8(bytes).ok().map(String::from)
}

/// What is wrong with a pattern, or with a text that it reads.
fn error(fault: Fault) -> TextError {
    TextError {
        fault,
        kind: Kind::Pattern,
    }
}
