//! Open days of the years of which holidays are known.

use core::error::Error;
use core::fmt;
use core::ops::RangeInclusive;

use crate::columns::DayNumbers;
use crate::layer_calls::*;
use crate::{BusinessCalendar, Date, KnownCalendar, Roll, WeekdaySet};

/// The last year of the calendar.
const LAST_YEAR: i32 = 262_142;

/// A calendar of open days whose holidays are known of some years alone.
///
/// An answer that looks at a day of another year is a [`YearsError`].
///
/// ```
/// use proved_calendar::{Date, KnownCalendar, Weekday, WeekdaySet};
/// let mut out = [Date::MIN; 100];
/// let weekend = WeekdaySet::from([Weekday::Sat, Weekday::Sun]);
/// let target = KnownCalendar::Target.within(2024..=2026, weekend, &mut out).unwrap();
/// let wednesday = Date::from_ymd(2026, 12, 30).unwrap();
/// assert_eq!(target.add_open_days(wednesday, 1).unwrap().to_string(), "2026-12-31");
/// assert!(target.add_open_days(wednesday, 2).is_err()); // (1 January 2027 is a holiday)
/// ```
#[derive(Clone, Copy, Debug, PartialEq, Eq, Hash)]
pub struct BoundedCalendar<'a> {
    calendar: BusinessCalendar<'a>,
    years: Years,
}

/// The first and the last year.
#[derive(Clone, Copy, Debug, PartialEq, Eq, Hash)]
struct Years {
    first: i32,
    last: i32,
}

impl<'a> BoundedCalendar<'a> {
    /// The calendar whose holidays are all of some years.
    ///
    /// ```
    /// use proved_calendar::{BoundedCalendar, BusinessCalendar, Date, WeekdaySet};
    /// let calendar = BusinessCalendar::new(WeekdaySet::default(), &[]).unwrap();
    /// assert!(BoundedCalendar::new(calendar, 1970..=1970).is_open(Date::UNIX_EPOCH).unwrap());
    /// ```
    #[must_use]
    pub const fn new(
        calendar: BusinessCalendar<'a>,
        years: RangeInclusive<i32>,
    ) -> BoundedCalendar<'a> {
        let (first, last) = (*years.start(), *years.end());
        let years = Years { first, last };
        BoundedCalendar { calendar, years }
    }

    /// The calendar without its years.
    ///
    /// ```
    /// use proved_calendar::{BoundedCalendar, BusinessCalendar, WeekdaySet};
    /// let calendar = BusinessCalendar::new(WeekdaySet::default(), &[]).unwrap();
    /// assert_eq!(BoundedCalendar::new(calendar, 2024..=2026).calendar(), calendar);
    /// ```
    #[must_use]
    pub const fn calendar(&self) -> BusinessCalendar<'a> {
        self.calendar
    }

    /// The years of which the holidays are known.
    ///
    /// ```
    /// use proved_calendar::{BoundedCalendar, BusinessCalendar, WeekdaySet};
    /// let calendar = BusinessCalendar::new(WeekdaySet::default(), &[]).unwrap();
    /// assert_eq!(BoundedCalendar::new(calendar, 2024..=2026).years(), 2024..=2026);
    /// ```
    #[must_use]
    pub const fn years(&self) -> RangeInclusive<i32> {
        self.years.first..=self.years.last
    }

    /// The error of an answer that looks at another year.
    const fn error(&self) -> YearsError {
        YearsError { years: self.years }
    }

    /// Fails unless the answers look at the years alone.
    pub(crate) fn refuse_unless(&self, is_known: bool) -> Result<(), YearsError> {
        if is_known { Ok(()) } else { Err(self.error()) }
    }

    /// Whether a date is open: neither on the weekend nor a holiday.
    ///
    /// ```
    /// use proved_calendar::{BoundedCalendar, BusinessCalendar, Date, WeekdaySet};
    /// let calendar = BusinessCalendar::new(WeekdaySet::default(), &[]).unwrap();
    /// assert!(BoundedCalendar::new(calendar, 2024..=2026).is_open(Date::UNIX_EPOCH).is_err());
    /// ```
    pub fn is_open(&self, date: Date) -> Result<bool, YearsError> {
        let days = self.calendar.holidays().day_numbers();
        // SAFETY: the slice has as many elements as its length says.
        let open = unsafe {
            calendar_is_open_day_within(
                self.calendar.weekend().members,
                days.as_ptr(),
                days.len(),
                self.years.first,
                self.years.last,
                date.number(),
            )
        };
        match open {
            0 | 1 => Ok(open == 1),
            _ => Err(self.error()),
        }
    }

    /// The `n`-th open day after a date, as [`BusinessCalendar::add_open_days`] finds it. The date and the answer have to lie in the years.
    ///
    /// ```
    /// use proved_calendar::{BoundedCalendar, BusinessCalendar, Date, WeekdaySet};
    /// let calendar = BusinessCalendar::new(WeekdaySet::default(), &[]).unwrap();
    /// let calendar = BoundedCalendar::new(calendar, 1970..=1970);
    /// assert_eq!(calendar.add_open_days(Date::UNIX_EPOCH, 1).unwrap().day(), 2);
    /// assert!(calendar.add_open_days(Date::UNIX_EPOCH, -1).is_err());
    /// ```
    pub fn add_open_days(&self, date: Date, n: i64) -> Result<Date, YearsError> {
        let days = self.calendar.holidays().day_numbers();
        // SAFETY: the slice has as many elements as its length says.
        let found = unsafe {
            calendar_add_open_days_within(
                self.calendar.weekend().members,
                days.as_ptr(),
                days.len(),
                self.years.first,
                self.years.last,
                date.number(),
                n,
            )
        };
        Date::from_number(found).ok_or(self.error())
    }

    /// How many days are open from one date on and before another; negative if `to` is the earlier. Each of these days has to lie in the
    /// years, so the later date can be the first day after them.
    ///
    /// ```
    /// use proved_calendar::{BoundedCalendar, BusinessCalendar, Date, WeekdaySet};
    /// let calendar = BusinessCalendar::new(WeekdaySet::default(), &[]).unwrap();
    /// let new_year = Date::from_ymd(1971, 1, 1).unwrap();
    /// let calendar = BoundedCalendar::new(calendar, 1970..=1970);
    /// assert_eq!(calendar.open_days(Date::UNIX_EPOCH, new_year), Ok(365));
    /// assert!(calendar.open_days(Date::MIN, new_year).is_err());
    /// ```
    pub fn open_days(&self, from: Date, to: Date) -> Result<i64, YearsError> {
        let days = self.calendar.holidays().day_numbers();
        // SAFETY: the slice has as many elements as its length says.
        let count = unsafe {
            calendar_open_days_between_within(
                self.calendar.weekend().members,
                days.as_ptr(),
                days.len(),
                self.years.first,
                self.years.last,
                from.number(),
                to.number(),
            )
        };
        match count {
            i64::MIN => Err(self.error()),
            _ => Ok(count),
        }
    }

    /// The date that a date goes to by a roll. Both have to lie in the years, and for [`Roll::NearestQuantLib`] also as many days on the
    /// other side of the date.
    ///
    /// ```
    /// use proved_calendar::{BoundedCalendar, BusinessCalendar, Date, Roll, Weekday, WeekdaySet};
    /// let calendar = BusinessCalendar::new(WeekdaySet::from([Weekday::Sat, Weekday::Sun]), &[]).unwrap();
    /// let calendar = BoundedCalendar::new(calendar, 2022..=2022);
    /// let saturday = Date::from_ymd(2022, 12, 31).unwrap();
    /// assert_eq!(calendar.roll(saturday, Roll::Preceding).unwrap().to_string(), "2022-12-30");
    /// assert!(calendar.roll(saturday, Roll::Following).is_err());
    /// ```
    pub fn roll(&self, date: Date, roll: Roll) -> Result<Date, YearsError> {
        let days = self.calendar.holidays().day_numbers();
        // SAFETY: the slice has as many elements as its length says.
        let found = unsafe {
            calendar_roll_within(
                self.calendar.weekend().members,
                days.as_ptr(),
                days.len(),
                self.years.first,
                self.years.last,
                date.number(),
                roll as u32,
            )
        };
        Date::from_number(found).ok_or(self.error())
    }
}

impl KnownCalendar {
    /// The first year of which the holidays are known.
    ///
    /// ```
    /// assert_eq!(proved_calendar::KnownCalendar::Target.first_year(), 1999);
    /// ```
    #[must_use]
    pub fn first_year(self) -> i32 {
        calendar_holidays_first_year(self as u32)
    }

    /// The calendar of some years, whose holidays are written into a slice. `None` if they do not fit, or there is no such year.
    ///
    /// The years begin with [`first_year`](Self::first_year), if that is later.
    ///
    /// ```
    /// use proved_calendar::{Date, KnownCalendar, WeekdaySet};
    /// let mut out = [Date::MIN; 30];
    /// let federal = KnownCalendar::UsFederal.within(2021..=2021, WeekdaySet::default(), &mut out).unwrap();
    /// // (New Year's Day of 2022 was kept on the last day of 2021)
    /// assert!(!federal.is_open(Date::from_ymd(2021, 12, 31).unwrap()).unwrap());
    /// ```
    #[must_use]
    pub fn within(
        self,
        years: RangeInclusive<i32>,
        weekend: WeekdaySet,
        out: &mut [Date],
    ) -> Option<BoundedCalendar<'_>> {
        let (first, last) = (*years.start(), *years.end());
        let end = Date::from_ymd(last, 12, 31)?;
        // (a day of the next year can be kept in the last one)
        let next = last.saturating_add(1).min(LAST_YEAR);
        let found = self.holidays(first..=next, weekend, out)?;
        let count = found.partition_point(|it| *it <= end);
        let calendar = BusinessCalendar::new(weekend, &found[..count]).ok()?;
        let first = first.max(self.first_year());
        Some(BoundedCalendar::new(calendar, first..=last))
    }
}

/// An answer looks at a year of which the holidays are not known.
///
/// ```
/// use proved_calendar::{BoundedCalendar, BusinessCalendar, Date, WeekdaySet};
/// let calendar = BusinessCalendar::new(WeekdaySet::default(), &[]).unwrap();
/// let wrong = BoundedCalendar::new(calendar, 2024..=2026).is_open(Date::MAX).unwrap_err();
/// assert_eq!(wrong.to_string(), "the holidays are known from 2024 to 2026 alone, and another year is looked at");
/// ```
#[derive(Clone, Copy, Debug, PartialEq, Eq)]
pub struct YearsError {
    years: Years,
}

impl YearsError {
    /// The years of which the holidays are known.
    ///
    /// ```
    /// use proved_calendar::{BoundedCalendar, BusinessCalendar, Date, WeekdaySet};
    /// let calendar = BusinessCalendar::new(WeekdaySet::default(), &[]).unwrap();
    /// let wrong = BoundedCalendar::new(calendar, 2024..=2026).is_open(Date::MAX).unwrap_err();
    /// assert_eq!(wrong.years(), 2024..=2026);
    /// ```
    #[must_use]
    pub const fn years(&self) -> RangeInclusive<i32> {
        self.years.first..=self.years.last
    }
}

impl fmt::Display for YearsError {
    fn fmt(&self, f: &mut fmt::Formatter<'_>) -> fmt::Result {
        let Years { first, last } = self.years;
        write!(
            f,
            "the holidays are known from {first} to {last} alone, and another year is looked at"
        )
    }
}

impl Error for YearsError {}
