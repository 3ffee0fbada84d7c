//! Time zones.

use alloc::vec::Vec;
use core::fmt;
use core::str::FromStr;

use crate::calls::{Moment, NONE};
use crate::layer_calls::*;
use crate::text_error::{Kind, TextError};
use crate::{DateTime, Schedule};

/// What a TZif file begins with, and the number of the fault of bytes that do not.
const MAGIC: &[u8] = b"TZif";
const NO_HEADER: u32 = 1;

/// A time zone: the bytes of a TZif file, or the text of a POSIX rule, which is parsed.
///
/// It needs the feature `alloc`. With `std`, [`Zone::named`] reads a zone of the machine. Each call reads the bytes, which takes 1 to 4
/// microseconds for the files of Berlin and New York. An offset holds up to [`Zone::holds_until`], so keep it until then.
///
/// ```
/// use proved_calendar::{DateTime, LocalOffsets, Zone};
/// let berlin: Zone = "CET-1CEST,M3.5.0,M10.5.0/3".parse().unwrap();
/// let utc: DateTime = "2024-07-01T10:00:00".parse().unwrap();
/// assert_eq!(berlin.at(utc).unwrap().to_string(), "2024-07-01T12:00:00+02:00");
/// let skipped: DateTime = "2024-03-31T02:30:00".parse().unwrap();
/// assert_eq!(berlin.offsets_of_local(skipped), LocalOffsets::None);
/// ```
#[derive(Clone, PartialEq, Eq, Hash)]
pub struct Zone {
    bytes: Vec<u8>,
}

/// The offsets of a local time, in seconds ahead of UTC.
///
/// ```
/// use proved_calendar::LocalOffsets;
/// assert_eq!(LocalOffsets::Two(7_200, 3_600).earliest(), Some(7_200));
/// ```
#[derive(Clone, Copy, Debug, PartialEq, Eq, Hash)]
pub enum LocalOffsets {
    /// The clock is set ahead past the local time, and never shows it.
    None,
    /// The clock shows it once.
    One(i32),
    /// The clock is set back, and shows it twice: the offsets at the earlier and at the later instant.
    Two(i32, i32),
}

impl LocalOffsets {
    /// The only offset; `None` if there is none, or if there are two.
    ///
    /// ```
    /// assert_eq!(proved_calendar::LocalOffsets::Two(7_200, 3_600).single(), None);
    /// ```
    #[must_use]
    pub const fn single(self) -> Option<i32> {
        match self {
            LocalOffsets::One(only) => Some(only),
            _ => None,
        }
    }

    /// The offset at the only instant, or at the earlier one.
    ///
    /// ```
    /// assert_eq!(proved_calendar::LocalOffsets::None.earliest(), None);
    /// ```
    #[must_use]
    pub const fn earliest(self) -> Option<i32> {
        match self {
            LocalOffsets::None => None,
            LocalOffsets::One(only) => Some(only),
            LocalOffsets::Two(earlier, _) => Some(earlier),
        }
    }

    /// The offset at the only instant, or at the later one.
    ///
    /// ```
    /// assert_eq!(proved_calendar::LocalOffsets::Two(7_200, 3_600).latest(), Some(3_600));
    /// ```
    #[must_use]
    pub const fn latest(self) -> Option<i32> {
        match self {
            LocalOffsets::None => None,
            LocalOffsets::One(only) => Some(only),
            LocalOffsets::Two(_, later) => Some(later),
        }
    }
}

impl Zone {
    /// The zone that the bytes of a TZif file hold, such as those of `/usr/share/zoneinfo/Europe/Berlin`. It has at most 512 rows.
    /// The text of a rule is no such file: parse it.
    ///
    /// ```
    /// let wrong = proved_calendar::Zone::from_tzif(*b"TZif").unwrap_err();
    /// assert_eq!(wrong.to_string(), "the file is cut off");
    /// ```
    ///
    /// # Errors
    ///
    /// The error says why the bytes hold no zone.
    pub fn from_tzif(bytes: impl Into<Vec<u8>>) -> Result<Zone, TextError> {
        let bytes = bytes.into();
        if bytes.starts_with(MAGIC) {
            Zone::checked(bytes)
        } else {
            Err(TextError {
                fault: Fault {
                    code: NO_HEADER,
                    end: bytes.len(),
                    ..Fault::NONE
                },
                kind: Kind::Zone,
            })
        }
    }

    /// The zone of a name, such as `Europe/Berlin`, from the machine's files: those of the folder `TZDIR`, or else of `/usr/share/zoneinfo`.
    /// It needs the feature `std`.
    ///
    /// ```
    /// # use proved_calendar::Zone;
    /// assert!(Zone::named("../passwd").is_err());
    /// ```
    ///
    /// # Errors
    ///
    /// The error is that of the file, or says why it holds no zone.
    #[cfg(feature = "std")]
    pub fn named(name: &str) -> std::io::Result<Zone> {
        use std::io::{Error, ErrorKind};
        let is_part = |part: &str| {
            !part.is_empty()
                && part
                    .bytes()
                    .all(|it| it.is_ascii_alphanumeric() || b"-+_".contains(&it))
        };
        if !name.split('/').all(is_part) {
            return Err(Error::new(
                ErrorKind::InvalidInput,
                "no time zone has such a name",
            ));
        }
        let folder = std::env::var_os("TZDIR").unwrap_or_else(|| "/usr/share/zoneinfo".into());
        let bytes = std::fs::read(std::path::Path::new(&folder).join(name))?;
        Zone::from_tzif(bytes).map_err(|it| Error::new(ErrorKind::InvalidData, it))
    }

    /// The zone of bytes, if they are one.
    fn checked(bytes: Vec<u8>) -> Result<Zone, TextError> {
        let mut fault = Fault::NONE;
        // SAFETY: so many bytes lie there.
        let is_zone = unsafe { calendar_zone_check(bytes.as_ptr(), bytes.len(), &mut fault) };
        if is_zone {
            Ok(Zone { bytes })
        } else {
            Err(TextError {
                fault,
                kind: Kind::Zone,
            })
        }
    }

    /// The bytes of the file or of the text.
    ///
    /// ```
    /// let zone: proved_calendar::Zone = "HST10".parse().unwrap();
    /// assert_eq!(zone.as_bytes(), b"HST10");
    /// ```
    #[must_use]
    pub fn as_bytes(&self) -> &[u8] {
        &self.bytes
    }

    /// How many seconds the clock is ahead of UTC at a second since 1970.
    ///
    /// ```
    /// let zone: proved_calendar::Zone = "HST10".parse().unwrap();
    /// assert_eq!(zone.offset_at(0), -36_000);
    /// ```
    #[must_use]
    pub fn offset_at(&self, second: i64) -> i32 {
        // SAFETY: so many bytes lie there.
        let offset =
            unsafe { calendar_zone_offset_at(self.bytes.as_ptr(), self.bytes.len(), second) };
        assert_ne!(offset, NONE, "the bytes were checked");
        offset
    }

    /// A later second, up to which the clock keeps its offset at `second`: the next change, or `i64::MAX` if there is none.
    ///
    /// ```
    /// let zone: proved_calendar::Zone = "CET-1CEST,M3.5.0,M10.5.0/3".parse().unwrap();
    /// assert_eq!(zone.holds_until(1_711_846_800), 1_729_990_800);
    /// ```
    #[must_use]
    pub fn holds_until(&self, second: i64) -> i64 {
        // SAFETY: so many bytes lie there.
        unsafe { calendar_zone_holds_until(self.bytes.as_ptr(), self.bytes.len(), second) }
    }

    /// The offsets at all instants at which the clock shows a local date-time.
    ///
    /// ```
    /// use proved_calendar::{DateTime, LocalOffsets, Zone};
    /// let zone: Zone = "CET-1CEST,M3.5.0,M10.5.0/3".parse().unwrap();
    /// let twice: DateTime = "2024-10-27T02:30:00".parse().unwrap();
    /// assert_eq!(zone.offsets_of_local(twice), LocalOffsets::Two(7_200, 3_600));
    /// ```
    #[must_use]
    pub fn offsets_of_local(&self, local: DateTime) -> LocalOffsets {
        let (bytes, length) = (self.bytes.as_ptr(), self.bytes.len());
        // SAFETY: so many bytes lie there.
        let found = unsafe { calendar_zone_offsets_of_local(bytes, length, local.seconds()) };
        match found.count {
            0 => LocalOffsets::None,
            1 => LocalOffsets::One(found.earlier),
            _ => LocalOffsets::Two(found.earlier, found.later),
        }
    }

    /// The instant at which UTC shows `utc`, with what the clock shows there; `None` if the clock shows no date.
    ///
    /// ```
    /// use proved_calendar::{DateTime, Zone};
    /// let zone: Zone = "HST10".parse().unwrap();
    /// let utc: DateTime = "2024-03-01T09:00:00".parse().unwrap();
    /// assert_eq!(zone.at(utc).unwrap().local().to_string(), "2024-02-29T23:00:00");
    /// ```
    #[must_use]
    pub fn at(&self, utc: DateTime) -> Option<ZonedDateTime<'_>> {
        let offset = self.offset_at(utc.seconds());
        let local = DateTime::from_seconds(utc.seconds() + i64::from(offset), utc.nanos())?;
        Some(ZonedDateTime {
            zone: self,
            utc,
            local,
            offset,
        })
    }

    /// The only instant at which the clock shows a local date-time; `None` if there is none, or if there are two.
    ///
    /// ```
    /// use proved_calendar::{DateTime, Zone};
    /// let zone: Zone = "CET-1CEST,M3.5.0,M10.5.0/3".parse().unwrap();
    /// let local: DateTime = "2024-07-01T12:00:00".parse().unwrap();
    /// assert_eq!(zone.of_local(local).unwrap().utc().to_string(), "2024-07-01T10:00:00");
    /// assert_eq!(zone.of_local("2024-10-27T02:30:00".parse().unwrap()), None);
    /// ```
    #[must_use]
    pub fn of_local(&self, local: DateTime) -> Option<ZonedDateTime<'_>> {
        self.with_offset(local, self.offsets_of_local(local).single()?)
    }

    /// The earliest instant at which the clock shows a local date-time, and the latest; `None` if the clock skips it.
    ///
    /// ```
    /// use proved_calendar::{DateTime, Zone};
    /// let zone: Zone = "CET-1CEST,M3.5.0,M10.5.0/3".parse().unwrap();
    /// let [first, last] = zone.ends_of_local("2024-10-27T02:30:00".parse().unwrap()).unwrap();
    /// assert_eq!([first.utc().hour(), last.utc().hour()], [0, 1]);
    /// ```
    #[must_use]
    pub fn ends_of_local(&self, local: DateTime) -> Option<[ZonedDateTime<'_>; 2]> {
        let offsets = self.offsets_of_local(local);
        Some([
            self.with_offset(local, offsets.earliest()?)?,
            self.with_offset(local, offsets.latest()?)?,
        ])
    }

    /// The instant of a local date-time by its offset.
    fn with_offset(&self, local: DateTime, offset: i32) -> Option<ZonedDateTime<'_>> {
        let utc = DateTime::from_seconds(local.seconds() - i64::from(offset), local.nanos())?;
        Some(ZonedDateTime {
            zone: self,
            utc,
            local,
            offset,
        })
    }
}

impl FromStr for Zone {
    type Err = TextError;

    /// ```
    /// let wrong = "EST5EDT".parse::<proved_calendar::Zone>().unwrap_err();
    /// assert_eq!((wrong.to_string().as_str(), wrong.start()), ("the days of daylight time are missing", 7));
    /// ```
    fn from_str(text: &str) -> Result<Zone, TextError> {
        Zone::checked(text.as_bytes().to_vec())
    }
}

impl fmt::Debug for Zone {
    fn fmt(&self, f: &mut fmt::Formatter<'_>) -> fmt::Result {
        write!(f, "Zone(\"{}\")", self.bytes.escape_ascii())
    }
}

/// An instant in a [`Zone`], which prints as the local date and time with the offset.
///
/// Two are equal if they are the same instant in the same zone.
///
/// ```
/// use proved_calendar::{DateTime, Zone};
/// let new_york: Zone = "EST5EDT,M3.2.0,M11.1.0".parse().unwrap();
/// let noon: DateTime = "2024-03-10T12:00:00".parse().unwrap();
/// assert_eq!(new_york.of_local(noon).unwrap().to_string(), "2024-03-10T12:00:00-04:00");
/// ```
#[derive(Clone, Copy, Debug, PartialEq, Eq, Hash)]
pub struct ZonedDateTime<'z> {
    zone: &'z Zone,
    utc: DateTime,
    local: DateTime,
    offset: i32,
}

impl<'z> ZonedDateTime<'z> {
    /// The zone.
    ///
    /// ```
    /// # let zone: proved_calendar::Zone = "HST10".parse().unwrap();
    /// # let utc: proved_calendar::DateTime = "2024-03-01T09:00:00".parse().unwrap();
    /// assert_eq!(zone.at(utc).unwrap().zone(), &zone);
    /// ```
    #[must_use]
    pub const fn zone(&self) -> &'z Zone {
        self.zone
    }

    /// What UTC shows.
    ///
    /// ```
    /// # let zone: proved_calendar::Zone = "HST10".parse().unwrap();
    /// # let utc: proved_calendar::DateTime = "2024-03-01T09:00:00".parse().unwrap();
    /// assert_eq!(zone.at(utc).unwrap().utc(), utc);
    /// ```
    #[must_use]
    pub const fn utc(&self) -> DateTime {
        self.utc
    }

    /// What the zone's clock shows.
    ///
    /// ```
    /// # let zone: proved_calendar::Zone = "HST10".parse().unwrap();
    /// # let utc: proved_calendar::DateTime = "2024-03-01T09:00:00".parse().unwrap();
    /// assert_eq!(zone.at(utc).unwrap().local().hour(), 23);
    /// ```
    #[must_use]
    pub const fn local(&self) -> DateTime {
        self.local
    }

    /// How many seconds the clock is ahead of UTC.
    ///
    /// ```
    /// # let zone: proved_calendar::Zone = "HST10".parse().unwrap();
    /// # let utc: proved_calendar::DateTime = "2024-03-01T09:00:00".parse().unwrap();
    /// assert_eq!(zone.at(utc).unwrap().offset(), -36_000);
    /// ```
    #[must_use]
    pub const fn offset(&self) -> i32 {
        self.offset
    }

    /// The same instant in another zone; `None` if its clock shows no date.
    ///
    /// ```
    /// use proved_calendar::{DateTime, Zone};
    /// let [tokyo, honolulu] = ["JST-9", "HST10"].map(|it| it.parse::<Zone>().unwrap());
    /// let start: DateTime = "2024-03-01T21:00:00".parse().unwrap();
    /// let there = tokyo.of_local(start).unwrap().in_zone(&honolulu).unwrap();
    /// assert_eq!(there.to_string(), "2024-03-01T02:00:00-10:00");
    /// ```
    #[must_use]
    pub fn in_zone<'y>(&self, zone: &'y Zone) -> Option<ZonedDateTime<'y>> {
        zone.at(self.utc)
    }
}

impl fmt::Display for ZonedDateTime<'_> {
    fn fmt(&self, f: &mut fmt::Formatter<'_>) -> fmt::Result {
        let sign = if self.offset < 0 { '-' } else { '+' };
        let ahead = self.offset.unsigned_abs();
        let (hours, minutes, seconds) = (ahead / 3_600, ahead / 60 % 60, ahead % 60);
        write!(f, "{}{sign}{hours:02}:{minutes:02}", self.local)?;
        match seconds {
            0 => Ok(()),
            _ => write!(f, ":{seconds:02}"),
        }
    }
}

impl Schedule {
    /// The first instant after `start` at which the schedule fires in a zone; `None` if there is none. It needs the feature `alloc`.
    ///
    /// A time that the clock skips fires as the gap ends, and one that it shows twice fires once. But a schedule whose minutes or
    /// hours begin with `*` goes by what the clock shows. So do Vixie's cron and cronie.
    ///
    /// ```
    /// use proved_calendar::{DateTime, Schedule, Zone};
    /// let berlin: Zone = "CET-1CEST,M3.5.0,M10.5.0/3".parse().unwrap();
    /// let nightly: Schedule = "30 2 * * *".parse().unwrap();
    /// let start = berlin.of_local("2024-03-30T12:00:00".parse::<DateTime>().unwrap()).unwrap();
    /// assert_eq!(nightly.next_in_zone(start).unwrap().to_string(), "2024-03-31T03:00:00+02:00");
    /// ```
    #[must_use]
    pub fn next_in_zone<'z>(&self, start: ZonedDateTime<'z>) -> Option<ZonedDateTime<'z>> {
        let (bytes, length) = (start.zone.bytes.as_ptr(), start.zone.bytes.len());
        let moment: Moment = start.utc.moment();
        // SAFETY: so many bytes lie there.
        let found = unsafe { calendar_zone_schedule_next(self.sets(), bytes, length, moment) };
        start.zone.at(DateTime::found(found)?)
    }

    /// The last instant before `start` at which the schedule fires in a zone; `None` if there is none. It needs the feature `alloc`.
    ///
    /// ```
    /// use proved_calendar::{DateTime, Schedule, Zone};
    /// let berlin: Zone = "CET-1CEST,M3.5.0,M10.5.0/3".parse().unwrap();
    /// let nightly: Schedule = "30 2 * * *".parse().unwrap();
    /// let start = berlin.of_local("2024-03-31T12:00:00".parse::<DateTime>().unwrap()).unwrap();
    /// assert_eq!(nightly.prev_in_zone(start).unwrap().to_string(), "2024-03-31T03:00:00+02:00");
    /// ```
    #[must_use]
    pub fn prev_in_zone<'z>(&self, start: ZonedDateTime<'z>) -> Option<ZonedDateTime<'z>> {
        let (bytes, length) = (start.zone.bytes.as_ptr(), start.zone.bytes.len());
        let moment: Moment = start.utc.moment();
        // SAFETY: so many bytes lie there.
        let found = unsafe { calendar_zone_schedule_prev(self.sets(), bytes, length, moment) };
        start.zone.at(DateTime::found(found)?)
    }

    /// The instants after `start` at which the schedule fires in a zone, in order. It needs the feature `alloc`.
    ///
    /// ```
    /// use proved_calendar::{DateTime, Schedule, Zone};
    /// let berlin: Zone = "CET-1CEST,M3.5.0,M10.5.0/3".parse().unwrap();
    /// let nightly: Schedule = "30 2 * * *".parse().unwrap();
    /// let start = berlin.of_local("2024-10-26T12:00:00".parse::<DateTime>().unwrap()).unwrap();
    /// let nights: Vec<String> = nightly.after_in_zone(start).take(2).map(|it| it.to_string()).collect();
    /// assert_eq!(nights, ["2024-10-27T02:30:00+02:00", "2024-10-28T02:30:00+01:00"]);
    /// ```
    pub fn after_in_zone<'z>(
        &self,
        start: ZonedDateTime<'z>,
    ) -> impl Iterator<Item = ZonedDateTime<'z>> + 'z {
        let schedule = *self;
        core::iter::successors(schedule.next_in_zone(start), move |last| {
            schedule.next_in_zone(*last)
        })
    }
}
