//! Texts of calendars in a zone.

use alloc::string::String;
use alloc::vec::Vec;
use core::iter::FusedIterator;

use crate::layer_calls::*;
use crate::text_error::{Kind, TextError};
use crate::zone::{Zone, ZonedDateTime};
use crate::DateTime;

/// So many instants are found at once, at most.
const AT_ONCE: usize = 64;

/// The instants of the text of a calendar (RFC 5545) in a zone. It needs the feature `alloc`.
///
/// The text has DTSTART, a local time, and RRULE, RDATE and EXDATE, in lines that may be folded. Where the clock skips a time, the
/// offset before the gap counts, and where it shows one twice, the first counts.
///
/// ```
/// use proved_calendar::{CalendarText, Zone};
/// let berlin: Zone = "CET-1CEST,M3.5.0,M10.5.0/3".parse().unwrap();
/// let text = "DTSTART;TZID=Europe/Berlin:20240330T023000\nRRULE:FREQ=DAILY\n";
/// let daily = CalendarText::new(text, &berlin).unwrap();
/// let start = berlin.of_local("2024-03-30T12:00:00".parse().unwrap()).unwrap();
/// assert_eq!(daily.next_after(start.utc()).unwrap().to_string(), "2024-03-31T03:30:00+02:00");
/// ```
#[derive(Clone, Debug, PartialEq, Eq)]
pub struct CalendarText<'z> {
    text: String,
    zone: &'z Zone,
}

impl<'z> CalendarText<'z> {
    /// Reads a text, whose local times are in `zone`. The caller finds it by [`zone_name`](CalendarText::zone_name).
    ///
    /// ```
    /// use proved_calendar::{CalendarText, Zone};
    /// let utc: Zone = "UTC0".parse().unwrap();
    /// let wrong = CalendarText::new("DTSTART:20240131T0900", &utc).unwrap_err();
    /// assert_eq!(wrong.start(), 8);
    /// ```
    pub fn new(text: &str, zone: &'z Zone) -> Result<CalendarText<'z>, TextError> {
        let (mut fault, place) = (Fault::NONE, zone.as_bytes());
        // SAFETY: so many bytes lie there.
        let is_read = unsafe {
            calendar_text_check(
                text.as_ptr(),
                text.len(),
                place.as_ptr(),
                place.len(),
                &mut fault,
            )
        };
        if is_read {
            Ok(CalendarText {
                text: String::from(text),
                zone,
            })
        } else {
            Err(TextError {
                fault,
                kind: Kind::Calendar,
            })
        }
    }

    /// The name of the zone in which a text has its local times; `None` if it names none, or cannot be read.
    ///
    /// ```
    /// use proved_calendar::CalendarText;
    /// let name = CalendarText::zone_name("DTSTART;TZID=Europe/Berlin:20240330T023000");
    /// assert_eq!(name.as_deref(), Some("Europe/Berlin"));
    /// ```
    #[must_use]
    pub fn zone_name(text: &str) -> Option<String> {
        let mut name = [0; 1000];
        // SAFETY: so many bytes lie there.
        let length =
            unsafe { calendar_text_zone(text.as_ptr(), text.len(), name.as_mut_ptr(), name.len()) };
        let bytes = name.get(..usize::try_from(length).ok()?)?;
        core::str::from_utf8(bytes).ok().map(String::from)
    }

    /// The first instant after `start`, which is in UTC; `None` if there is none.
    ///
    /// ```
    /// use proved_calendar::{CalendarText, DateTime, Zone};
    /// let utc: Zone = "UTC0".parse().unwrap();
    /// let once = CalendarText::new("DTSTART:20240131T090000", &utc).unwrap();
    /// assert_eq!(once.next_after("2024-01-31T09:00:00".parse().unwrap()), None);
    /// ```
    #[must_use]
    pub fn next_after(&self, start: DateTime) -> Option<ZonedDateTime<'z>> {
        let place = self.zone.as_bytes();
        // SAFETY: so many bytes lie there.
        let found = unsafe {
            calendar_text_next(
                self.text.as_ptr(),
                self.text.len(),
                place.as_ptr(),
                place.len(),
                start.moment(),
            )
        };
        self.zone.at(DateTime::found(found)?)
    }

    /// The last instant before `start`, which is in UTC; `None` if there is none.
    ///
    /// ```
    /// use proved_calendar::{CalendarText, Zone};
    /// let utc: Zone = "UTC0".parse().unwrap();
    /// let yearly = CalendarText::new("DTSTART:20240131T090000\nRRULE:FREQ=YEARLY", &utc).unwrap();
    /// let last = yearly.prev_before("2030-01-01T00:00:00".parse().unwrap());
    /// assert_eq!(last.unwrap().to_string(), "2029-01-31T09:00:00+00:00");
    /// ```
    #[must_use]
    pub fn prev_before(&self, start: DateTime) -> Option<ZonedDateTime<'z>> {
        let place = self.zone.as_bytes();
        // SAFETY: so many bytes lie there.
        let found = unsafe {
            calendar_text_prev(
                self.text.as_ptr(),
                self.text.len(),
                place.as_ptr(),
                place.len(),
                start.moment(),
            )
        };
        self.zone.at(DateTime::found(found)?)
    }

    /// Whether there is an instant at `moment`, which is in UTC.
    ///
    /// ```
    /// use proved_calendar::{CalendarText, Zone};
    /// let utc: Zone = "UTC0".parse().unwrap();
    /// let once = CalendarText::new("DTSTART:20240131T090000", &utc).unwrap();
    /// assert!(once.is_instance("2024-01-31T09:00:00".parse().unwrap()));
    /// ```
    #[must_use]
    pub fn is_instance(&self, moment: DateTime) -> bool {
        let place = self.zone.as_bytes();
        // SAFETY: so many bytes lie there.
        unsafe {
            calendar_text_is_instance(
                self.text.as_ptr(),
                self.text.len(),
                place.as_ptr(),
                place.len(),
                moment.moment(),
            )
        }
    }

    /// The instants after `start`, which is in UTC, in order.
    ///
    /// ```
    /// use proved_calendar::{CalendarText, DateTime, Zone};
    /// let utc: Zone = "UTC0".parse().unwrap();
    /// let twice = CalendarText::new("DTSTART:20240131T090000\nRRULE:FREQ=DAILY;COUNT=2", &utc).unwrap();
    /// assert_eq!(twice.after("2024-01-01T00:00:00".parse::<DateTime>().unwrap()).count(), 2);
    /// ```
    pub fn after(&self, start: DateTime) -> impl FusedIterator<Item = ZonedDateTime<'z>> + '_ {
        let mut last = Some(start);
        core::iter::from_fn(move || {
            let found = self.next_after(last?);
            last = found.map(|it| it.utc());
            found
        })
        .fuse()
    }

    /// The instants after `start`, up to `until`, which counts. Both are in UTC.
    ///
    /// ```
    /// use proved_calendar::{CalendarText, Zone};
    /// let utc: Zone = "UTC0".parse().unwrap();
    /// let daily = CalendarText::new("DTSTART:20240131T090000\nRRULE:FREQ=DAILY", &utc).unwrap();
    /// let days = daily.between("2024-02-01T09:00:00".parse().unwrap(), "2024-03-01T09:00:00".parse().unwrap());
    /// assert_eq!(days.len(), 29);
    /// ```
    #[must_use]
    pub fn between(&self, start: DateTime, until: DateTime) -> Vec<ZonedDateTime<'z>> {
        let (place, mut found) = (self.zone.as_bytes(), Vec::new());
        let mut out = [start.moment(); AT_ONCE];
        loop {
            let last = out[AT_ONCE - 1];
            // SAFETY: so many bytes lie there, and so many moments.
            let count = unsafe {
                calendar_text_instances(
                    self.text.as_ptr(),
                    self.text.len(),
                    place.as_ptr(),
                    place.len(),
                    last,
                    until.moment(),
                    out.as_mut_ptr(),
                    out.len(),
                )
            };
            let written = out.iter().take(count);
            found.extend(written.filter_map(|&it| self.zone.at(DateTime::found(it)?)));
            if count < AT_ONCE {
                return found;
            }
        }
    }
}
