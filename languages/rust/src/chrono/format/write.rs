//! Writes the items of a pattern.

use core::borrow::Borrow;
use core::fmt::{self, Write};

use super::{Fixed, InternalKind, Item, Numeric, Pad};
use crate::chrono::month::NAMES;
use crate::chrono::{Datelike, FixedOffset, NaiveDate, NaiveTime, Offset, Timelike};

/// The nanoseconds of a second.
const NANOS: u32 = 1_000_000_000;

/// The room for the name of a zone, in bytes.
const NAME_ROOM: usize = 64;

/// The room for a text that is made at once, in bytes.
const TEXT_ROOM: usize = 128;

/// A text of at most `N` bytes.
#[derive(Clone, Copy, Debug)]
struct Text<const N: usize> {
    bytes: [u8; N],
    length: usize,
}

impl<const N: usize> Text<N> {
    /// No text.
    const EMPTY: Text<N> = Text {
        bytes: [0; N],
        length: 0,
    };

    fn text(&self) -> &str {
        core::str::from_utf8(&self.bytes[..self.length]).unwrap_or_default()
    }
}

impl<const N: usize> Write for Text<N> {
    fn write_str(&mut self, text: &str) -> fmt::Result {
        let end = self.length + text.len();
        let room = self.bytes.get_mut(self.length..end).ok_or(fmt::Error)?;
        room.copy_from_slice(text.as_bytes());
        self.length = end;
        Ok(())
    }
}

/// The name of a zone, if it has room.
type Name = Option<Text<NAME_ROOM>>;

/// The text of an offset.
fn name_of(offset: &impl fmt::Display) -> Name {
    let mut name = Text::EMPTY;
    write!(name, "{offset}").ok()?;
    Some(name)
}

/// A text by a pattern, which is made when it is printed. It has an error then if the pattern is wrong, or asks for what
/// the value has not, such as the hour of a date.
///
/// ```
/// use proved_calendar::chrono::NaiveDate;
/// let date = NaiveDate::from_ymd_opt(2024, 2, 29).unwrap();
/// assert_eq!(format!("{:>12}", date.format("%d/%m/%y")), "    29/02/24");
/// ```
#[derive(Clone, Debug)]
pub struct DelayedFormat<I> {
    date: Option<NaiveDate>,
    time: Option<NaiveTime>,
    offset: Option<(Name, FixedOffset)>,
    items: I,
}

impl<I> DelayedFormat<I> {
    /// The text of a date and a time, each if there is one.
    #[must_use]
    pub fn new(date: Option<NaiveDate>, time: Option<NaiveTime>, items: I) -> DelayedFormat<I> {
        DelayedFormat {
            date,
            time,
            offset: None,
            items,
        }
    }

    /// The same with an offset, whose text is the name of the zone. `%Z` writes at most 64 bytes of name.
    #[must_use]
    pub fn new_with_offset<Off: Offset + fmt::Display>(
        date: Option<NaiveDate>,
        time: Option<NaiveTime>,
        offset: &Off,
        items: I,
    ) -> DelayedFormat<I> {
        let offset = Some((name_of(offset), offset.fix()));
        DelayedFormat {
            date,
            time,
            offset,
            items,
        }
    }
}

impl<'a, I: Iterator<Item = B> + Clone, B: Borrow<Item<'a>>> DelayedFormat<I> {
    /// Writes all items.
    fn write(&self, w: &mut dyn Write) -> fmt::Result {
        self.items
            .clone()
            .try_for_each(|item| self.write_item(w, item.borrow()))
    }
}

impl<I> DelayedFormat<I> {
    fn date(&self) -> Result<NaiveDate, fmt::Error> {
        self.date.ok_or(fmt::Error)
    }

    fn time(&self) -> Result<NaiveTime, fmt::Error> {
        self.time.ok_or(fmt::Error)
    }

    fn offset(&self) -> Result<i32, fmt::Error> {
        let (_, offset) = self.offset.ok_or(fmt::Error)?;
        Ok(offset.local_minus_utc())
    }

    /// Writes one item.
    fn write_item(&self, w: &mut dyn Write, item: &Item<'_>) -> fmt::Result {
        match item {
            Item::Literal(text) | Item::Space(text) => w.write_str(text),
            #[cfg(feature = "alloc")]
            Item::OwnedLiteral(text) | Item::OwnedSpace(text) => w.write_str(text),
            Item::Numeric(number, pad) => self.write_number(w, number, *pad),
            Item::Fixed(fixed) => self.write_fixed(w, fixed),
            Item::Error => Err(fmt::Error),
        }
    }

    /// Writes a number.
    fn write_number(&self, w: &mut dyn Write, number: &Numeric, pad: Pad) -> fmt::Result {
        let (value, width) = match number {
            Numeric::Year => return write_padded_year(w, self.date()?.year(), pad),
            Numeric::IsoYear => return write_padded_year(w, self.date()?.iso_week().year(), pad),
            Numeric::Hour
            | Numeric::Hour12
            | Numeric::Minute
            | Numeric::Second
            | Numeric::Nanosecond => clock_number(self.time()?, number),
            Numeric::Timestamp => (self.stamp()?, 1),
            _ => date_number(self.date()?, number),
        };
        write_padded(w, value, width, pad)
    }

    /// The seconds since 1970-01-01T00:00:00 in UTC.
    fn stamp(&self) -> Result<i64, fmt::Error> {
        let local = self.date()?.and_time(self.time()?).timestamp();
        Ok(local - i64::from(self.offset().unwrap_or(0)))
    }

    /// Writes a part that has rules of its own.
    fn write_fixed(&self, w: &mut dyn Write, fixed: &Fixed) -> fmt::Result {
        match fixed {
            Fixed::ShortMonthName => w.write_str(&NAMES[self.date()?.month0() as usize][..3]),
            Fixed::LongMonthName => w.write_str(NAMES[self.date()?.month0() as usize]),
            Fixed::ShortWeekdayName => w.write_str(&self.date()?.weekday().name()[..3]),
            Fixed::LongWeekdayName => w.write_str(self.date()?.weekday().name()),
            Fixed::LowerAmPm => w.write_str(if self.time()?.hour12().0 { "pm" } else { "am" }),
            Fixed::UpperAmPm => w.write_str(if self.time()?.hour12().0 { "PM" } else { "AM" }),
            Fixed::Nanosecond => write_fraction(w, self.time()?, None),
            Fixed::Nanosecond3 => write_fraction(w, self.time()?, Some(3)),
            Fixed::Nanosecond6 => write_fraction(w, self.time()?, Some(6)),
            Fixed::Nanosecond9 => write_fraction(w, self.time()?, Some(9)),
            Fixed::RFC2822 => self.write_rfc2822(w),
            Fixed::RFC3339 => {
                write!(w, "{:?}", self.date()?.and_time(self.time()?))?;
                write_offset(w, self.offset()?, ":")
            }
            Fixed::Internal(it) => match it.kind {
                InternalKind::Digits(digits) => write_digits(w, self.time()?, usize::from(digits)),
                InternalKind::TimezoneOffsetPermissive => Err(fmt::Error),
            },
            _ => self.write_zone(w, fixed),
        }
    }

    /// Writes the name of the zone or the offset.
    fn write_zone(&self, w: &mut dyn Write, fixed: &Fixed) -> fmt::Result {
        let offset = self.offset()?;
        let is_zulu = matches!(fixed, Fixed::TimezoneOffsetColonZ | Fixed::TimezoneOffsetZ);
        match fixed {
            Fixed::TimezoneName => {
                let name = self.offset.as_ref().and_then(|(name, _)| name.as_ref());
                w.write_str(name.ok_or(fmt::Error)?.text())
            }
            _ if is_zulu && offset == 0 => w.write_str("Z"),
            Fixed::TimezoneOffset | Fixed::TimezoneOffsetZ => write_offset(w, offset, ""),
            Fixed::TimezoneOffsetDoubleColon => {
                write_offset(w, offset, ":")?;
                write!(w, ":{:02}", offset.abs() % 60)
            }
            Fixed::TimezoneOffsetTripleColon => {
                write!(w, "{}{:02}", sign(offset), offset.abs() / 3_600)
            }
            _ => write_offset(w, offset, ":"),
        }
    }

    /// Writes a text of RFC 2822, which has the years from 0 to 9999.
    fn write_rfc2822(&self, w: &mut dyn Write) -> fmt::Result {
        let (date, time) = (self.date()?, self.time()?);
        if !(0..=9_999).contains(&date.year()) {
            return Err(fmt::Error);
        }
        let (weekday, month) = (date.weekday(), &NAMES[date.month0() as usize][..3]);
        write!(
            w,
            "{weekday}, {:02} {month} {:04} ",
            date.day(),
            date.year()
        )?;
        write!(
            w,
            "{:02}:{:02}:{:02} ",
            time.hour(),
            time.minute(),
            shown_second(time)
        )?;
        write_offset(w, self.offset()?, "")
    }
}

/// Writes a number with so many digits at least.
fn write_padded(w: &mut dyn Write, value: i64, width: usize, pad: Pad) -> fmt::Result {
    match (value, width, pad) {
        // (the common cases, for speed)
        (10..=99, 2, _) => w.write_str(pair(value)),
        (0..=9, 2, Pad::Zero) => w.write_str(pair(value)),
        (_, _, Pad::None) => write!(w, "{value}"),
        (_, _, Pad::Zero) => write!(w, "{value:0width$}"),
        (_, _, Pad::Space) => write!(w, "{value:>width$}"),
    }
}

/// The numbers from 00 to 99, one behind the other.
const PAIRS: &str = "\
    00010203040506070809101112131415161718192021222324252627282930313233343536373839\
    40414243444546474849505152535455565758596061626364656667686970717273747576777879\
    8081828384858687888990919293949596979899";

/// The two digits of a number from 0 to 99.
fn pair(number: i64) -> &'static str {
    let at = 2 * number as usize;
    &PAIRS[at..at + 2]
}

/// The second, which is 60 in a leap second that ends a minute.
fn shown_second(time: NaiveTime) -> u32 {
    time.second() + time.nanosecond() / NANOS
}

/// A number of a time of day, and its digits.
fn clock_number(time: NaiveTime, number: &Numeric) -> (i64, usize) {
    match number {
        Numeric::Hour => (i64::from(time.hour()), 2),
        Numeric::Hour12 => (i64::from(time.hour12().1), 2),
        Numeric::Minute => (i64::from(time.minute()), 2),
        Numeric::Second => (i64::from(shown_second(time)), 2),
        _ => (i64::from(time.nanosecond() % NANOS), 9),
    }
}

/// A number of a date, and its digits.
fn date_number(date: NaiveDate, number: &Numeric) -> (i64, usize) {
    let (year, iso_week) = (date.year(), date.iso_week());
    let iso_year = iso_week.year();
    let (value, width) = match number {
        Numeric::YearDiv100 => (year.div_euclid(100), 2),
        Numeric::YearMod100 => (year.rem_euclid(100), 2),
        Numeric::IsoYearDiv100 => (iso_year.div_euclid(100), 2),
        Numeric::IsoYearMod100 => (iso_year.rem_euclid(100), 2),
        Numeric::Quarter => (date.quarter() as i32, 1),
        Numeric::Month => (date.month() as i32, 2),
        Numeric::Day => (date.day() as i32, 2),
        Numeric::WeekFromSun => (weeks(date, date.weekday().num_days_from_sunday()), 2),
        Numeric::WeekFromMon => (weeks(date, date.weekday().num_days_from_monday()), 2),
        Numeric::IsoWeek => (iso_week.week() as i32, 2),
        Numeric::NumDaysFromSun => (date.weekday().num_days_from_sunday() as i32, 1),
        Numeric::WeekdayFromMon => (date.weekday().number_from_monday() as i32, 1),
        _ => (date.ordinal() as i32, 3),
    };
    (i64::from(value), width)
}

/// How many weeks of the year have begun, if so many days of the week are past.
pub(super) fn weeks(date: NaiveDate, passed: u32) -> i32 {
    (date.ordinal0() + 7 - passed) as i32 / 7
}

/// Writes a year with four digits, and with a sign below 0 and above 9999.
pub(crate) fn write_year(w: &mut dyn Write, year: i32) -> fmt::Result {
    write_padded_year(w, year, Pad::Zero)
}

/// The same with some padding.
fn write_padded_year(w: &mut dyn Write, year: i32, pad: Pad) -> fmt::Result {
    match ((0..=9_999).contains(&year), pad) {
        (true, Pad::Zero) => {
            w.write_str(pair(i64::from(year / 100)))?;
            w.write_str(pair(i64::from(year % 100)))
        }
        (true, Pad::None) => write!(w, "{year}"),
        (true, Pad::Space) => write!(w, "{year:>4}"),
        (false, Pad::None) => write!(w, "{year:+}"),
        (false, Pad::Zero) => write!(w, "{year:+05}"),
        (false, Pad::Space) => write!(w, "{year:>+5}"),
    }
}

/// Writes a point and so many digits of the fraction, or the fewest of three, six and nine that hold it.
fn write_fraction(w: &mut dyn Write, time: NaiveTime, digits: Option<usize>) -> fmt::Result {
    let nanos = time.nanosecond() % NANOS;
    let digits = match (digits, nanos) {
        (Some(digits), _) => digits,
        (None, 0) => return Ok(()),
        (None, it) if it % 1_000_000 == 0 => 3,
        (None, it) if it % 1_000 == 0 => 6,
        (None, _) => 9,
    };
    w.write_str(".")?;
    write_digits(w, time, digits)
}

/// Writes so many digits of the fraction.
fn write_digits(w: &mut dyn Write, time: NaiveTime, digits: usize) -> fmt::Result {
    let unit = 10_u32.pow(9 - digits as u32);
    write!(w, "{:0digits$}", time.nanosecond() % NANOS / unit)
}

fn sign(offset: i32) -> char {
    if offset < 0 {
        '-'
    } else {
        '+'
    }
}

/// Writes the hours and minutes of an offset, with something between.
fn write_offset(w: &mut dyn Write, offset: i32, between: &str) -> fmt::Result {
    let minutes = offset.abs() / 60;
    write!(
        w,
        "{}{:02}{between}{:02}",
        sign(offset),
        minutes / 60,
        minutes % 60
    )
}

/// Counts characters, and writes no more than so many of them.
struct Limited<'a, 'b> {
    to: Option<&'a mut fmt::Formatter<'b>>,
    left: usize,
    count: usize,
}

impl Write for Limited<'_, '_> {
    fn write_str(&mut self, text: &str) -> fmt::Result {
        let end = text
            .char_indices()
            .nth(self.left)
            .map_or(text.len(), |(at, _)| at);
        let count = text[..end].chars().count();
        (self.left, self.count) = (self.left - count, self.count + count);
        match &mut self.to {
            Some(to) => to.write_str(&text[..end]),
            None => Ok(()),
        }
    }
}

impl<'a, I: Iterator<Item = B> + Clone, B: Borrow<Item<'a>>> DelayedFormat<I> {
    /// Writes a text that has no room, with its padding.
    fn write_long(&self, f: &mut fmt::Formatter<'_>) -> fmt::Result {
        let (width, left) = (f.width().unwrap_or(0), f.precision().unwrap_or(usize::MAX));
        // (so that nothing is written of a wrong pattern, and the padding is known)
        let mut counted = Limited {
            to: None,
            left,
            count: 0,
        };
        self.write(&mut counted)?;
        let padding = width.saturating_sub(counted.count);
        let before = match f.align() {
            None | Some(fmt::Alignment::Left) => 0,
            Some(fmt::Alignment::Center) => padding / 2,
            Some(fmt::Alignment::Right) => padding,
        };
        let fill = f.fill();
        (0..before).try_for_each(|_| f.write_char(fill))?;
        self.write(&mut Limited {
            to: Some(f),
            left,
            count: 0,
        })?;
        (before..padding).try_for_each(|_| f.write_char(fill))
    }
}

impl<'a, I: Iterator<Item = B> + Clone, B: Borrow<Item<'a>>> fmt::Display for DelayedFormat<I> {
    fn fmt(&self, f: &mut fmt::Formatter<'_>) -> fmt::Result {
        let mut text = Text::<TEXT_ROOM>::EMPTY;
        match self.write(&mut text) {
            Ok(()) => f.pad(text.text()),
            Err(fmt::Error) => self.write_long(f),
        }
    }
}

/// The text as a `String`. It panics where the text has an error.
#[cfg(feature = "alloc")]
pub(crate) fn text_of(text: impl fmt::Display) -> alloc::string::String {
    alloc::string::ToString::to_string(&text)
}
