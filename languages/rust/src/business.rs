//! Open days, and the parts of years that day counts give.

use core::error::Error;
use core::fmt;
use core::ops::RangeInclusive;

use crate::columns::DayNumbers;
use crate::layer_calls::*;
use crate::text_error::write_sentence;
use crate::{Date, WeekdaySet};

/// A calendar of open days: each day but those of a weekend and holidays.
///
/// ```
/// use proved_calendar::{BusinessCalendar, Date, Roll, Weekday, WeekdaySet};
/// // Good Friday and Easter Monday
/// let holidays = [Date::from_ymd(2024, 3, 29).unwrap(), Date::from_ymd(2024, 4, 1).unwrap()];
/// let weekend = WeekdaySet::from([Weekday::Sat, Weekday::Sun]);
/// let calendar = BusinessCalendar::new(weekend, &holidays).unwrap();
/// let thursday = Date::from_ymd(2024, 3, 28).unwrap();
/// assert_eq!(calendar.add_open_days(thursday, 2).unwrap().to_string(), "2024-04-03");
/// assert_eq!(calendar.roll(holidays[1], Roll::Preceding), Some(thursday));
/// ```
#[derive(Clone, Copy, Debug, PartialEq, Eq, Hash)]
pub struct BusinessCalendar<'a> {
    weekend: WeekdaySet,
    holidays: &'a [Date],
}

/// Where a closed date goes (ISDA 2006, section 4.12).
///
/// ```
/// use proved_calendar::Roll;
/// assert_ne!(Roll::Following, Roll::ModifiedFollowing);
/// ```
#[derive(Clone, Copy, Debug, PartialEq, Eq, Hash)]
pub enum Roll {
    /// It stays.
    Unadjusted,
    /// The next open day.
    Following,
    /// The last open day.
    Preceding,
    /// The next open day, unless that is in another month: then the last one.
    ModifiedFollowing,
    /// The last open day, unless that is in another month: then the next one.
    ModifiedPreceding,
    /// The next open day from a Sunday or a Monday, and the last one from any other day.
    NearestIsda,
    /// The nearest open day, and of two the later, as QuantLib has it.
    NearestQuantLib,
}

impl<'a> BusinessCalendar<'a> {
    /// The calendar of a weekend and holidays. The holidays have to rise strictly, none may be on the weekend, and they are at most 1,000.
    ///
    /// ```
    /// use proved_calendar::{BusinessCalendar, Date, WeekdaySet};
    /// let none = WeekdaySet::default();
    /// assert!(BusinessCalendar::new(none, &[Date::MIN, Date::MAX]).is_ok());
    /// assert_eq!(BusinessCalendar::new(none, &[Date::MAX, Date::MIN]).unwrap_err().index(), 1);
    /// ```
    pub fn new(
        weekend: WeekdaySet,
        holidays: &'a [Date],
    ) -> Result<BusinessCalendar<'a>, HolidaysError> {
        let (days, mut fault) = (holidays.day_numbers(), Fault::NONE);
        // SAFETY: the slice has as many elements as its length says.
        let is_right = unsafe {
            calendar_holidays_check(weekend.members, days.as_ptr(), days.len(), &mut fault)
        };
        if is_right {
            Ok(BusinessCalendar { weekend, holidays })
        } else {
            Err(HolidaysError { fault })
        }
    }

    /// The weekend.
    ///
    /// ```
    /// use proved_calendar::{BusinessCalendar, Weekday, WeekdaySet};
    /// let sundays = WeekdaySet::from([Weekday::Sun]);
    /// assert_eq!(BusinessCalendar::new(sundays, &[]).unwrap().weekend(), sundays);
    /// ```
    #[must_use]
    pub const fn weekend(&self) -> WeekdaySet {
        self.weekend
    }

    /// The holidays.
    ///
    /// ```
    /// use proved_calendar::{BusinessCalendar, Date, WeekdaySet};
    /// let calendar = BusinessCalendar::new(WeekdaySet::default(), &[Date::UNIX_EPOCH]).unwrap();
    /// assert_eq!(calendar.holidays(), [Date::UNIX_EPOCH]);
    /// ```
    #[must_use]
    pub const fn holidays(&self) -> &'a [Date] {
        self.holidays
    }

    /// Whether a date is open: neither on the weekend nor a holiday.
    ///
    /// ```
    /// use proved_calendar::{BusinessCalendar, Date, WeekdaySet};
    /// let calendar = BusinessCalendar::new(WeekdaySet::default(), &[Date::UNIX_EPOCH]).unwrap();
    /// assert!(calendar.is_open(Date::MAX) && !calendar.is_open(Date::UNIX_EPOCH));
    /// ```
    #[must_use]
    pub fn is_open(&self, date: Date) -> bool {
        let (weekend, days) = (self.weekend.members, self.holidays.day_numbers());
        // SAFETY: the slice has as many elements as its length says.
        unsafe { calendar_is_open_day(weekend, days.as_ptr(), days.len(), date.number()) }
    }

    /// The `n`-th open day after a date, or the `-n`-th before it if `n` is negative. If `n` is 0, the first open day from the date on.
    /// `None` if the calendar has no such date.
    ///
    /// ```
    /// use proved_calendar::{BusinessCalendar, Date, Weekday, WeekdaySet};
    /// let calendar = BusinessCalendar::new(WeekdaySet::from([Weekday::Sat, Weekday::Sun]), &[]).unwrap();
    /// let saturday = Date::from_ymd(2024, 3, 2).unwrap();
    /// let days = [-1, 0, 1, 5].map(|n| calendar.add_open_days(saturday, n).unwrap().day());
    /// assert_eq!(days, [1, 4, 4, 8]);
    /// ```
    #[must_use]
    pub fn add_open_days(&self, date: Date, n: i64) -> Option<Date> {
        let (weekend, days) = (self.weekend.members, self.holidays.day_numbers());
        // SAFETY: the slice has as many elements as its length says.
        let found =
            unsafe { calendar_add_open_days(weekend, days.as_ptr(), days.len(), date.number(), n) };
        Date::from_number(found)
    }

    /// How many days are open from one date on and before another; negative if `to` is the earlier.
    ///
    /// ```
    /// use proved_calendar::{BusinessCalendar, Date, Weekday, WeekdaySet};
    /// let calendar = BusinessCalendar::new(WeekdaySet::from([Weekday::Sat, Weekday::Sun]), &[]).unwrap();
    /// let [from, to] = [3, 4].map(|month| Date::from_ymd(2024, month, 1).unwrap());
    /// assert_eq!((calendar.open_days(from, to), calendar.open_days(to, from)), (21, -21));
    /// ```
    #[must_use]
    pub fn open_days(&self, from: Date, to: Date) -> i64 {
        let (weekend, days) = (self.weekend.members, self.holidays.day_numbers());
        let (first, last) = (from.number(), to.number());
        // SAFETY: the slice has as many elements as its length says.
        unsafe { calendar_open_days_between(weekend, days.as_ptr(), days.len(), first, last) }
    }

    /// The date that a date goes to by a roll. An open date stays. `None` if there is no such open day.
    ///
    /// ```
    /// use proved_calendar::{BusinessCalendar, Date, Roll, Weekday, WeekdaySet};
    /// let calendar = BusinessCalendar::new(WeekdaySet::from([Weekday::Sat, Weekday::Sun]), &[]).unwrap();
    /// let sunday = Date::from_ymd(2024, 3, 31).unwrap();
    /// let rolled = calendar.roll(sunday, Roll::ModifiedFollowing).unwrap();
    /// assert_eq!(rolled.to_string(), "2024-03-29");
    /// ```
    #[must_use]
    pub fn roll(&self, date: Date, roll: Roll) -> Option<Date> {
        let (weekend, days) = (self.weekend.members, self.holidays.day_numbers());
        // SAFETY: the slice has as many elements as its length says.
        let found = unsafe {
            calendar_roll(
                weekend,
                days.as_ptr(),
                days.len(),
                date.number(),
                roll as u32,
            )
        };
        Date::from_number(found)
    }
}

/// Why holidays are not those of a calendar.
///
/// ```
/// use proved_calendar::{BusinessCalendar, Date, Weekday, WeekdaySet};
/// let saturday = Date::from_ymd(2024, 3, 2).unwrap();
/// let wrong = BusinessCalendar::new(WeekdaySet::from([Weekday::Sat]), &[saturday]).unwrap_err();
/// assert_eq!(wrong.to_string(), "holiday 0 is on the weekend");
/// ```
#[derive(Clone, Copy, Debug, PartialEq, Eq)]
pub struct HolidaysError {
    fault: Fault,
}

impl HolidaysError {
    /// The place of the first wrong holiday in the slice, from 0.
    ///
    /// ```
    /// use proved_calendar::{BusinessCalendar, Date, WeekdaySet};
    /// let twice = [Date::UNIX_EPOCH; 2];
    /// assert_eq!(BusinessCalendar::new(WeekdaySet::default(), &twice).unwrap_err().index(), 1);
    /// ```
    #[must_use]
    pub const fn index(&self) -> usize {
        self.fault.byte
    }
}

impl fmt::Display for HolidaysError {
    fn fmt(&self, f: &mut fmt::Formatter<'_>) -> fmt::Result {
        // SAFETY: the room has as many bytes as its length says.
        write_sentence(f, |room, count| unsafe {
            calendar_holidays_fault_text(&self.fault, room, count)
        })
    }
}

impl Error for HolidaysError {}

/// A calendar whose holidays are known.
///
/// ```
/// use proved_calendar::{Date, KnownCalendar, Weekday, WeekdaySet};
/// let mut out = [Date::MIN; 20];
/// let weekend = WeekdaySet::from([Weekday::Sat, Weekday::Sun]);
/// let holidays = KnownCalendar::Target.holidays(2024..=2024, weekend, &mut out).unwrap();
/// assert_eq!(holidays[1].to_string(), "2024-03-29");
/// ```
#[derive(Clone, Copy, Debug, PartialEq, Eq, Hash)]
pub enum KnownCalendar {
    /// The federal holidays of the United States.
    UsFederal,
    /// The closed days of TARGET, the euro's payment system.
    Target,
    /// The bank holidays of England and Wales.
    EnglandAndWales,
    /// The closed days of the Fedwire services.
    Fedwire,
    /// The closed days of the New York Stock Exchange.
    Nyse,
    /// The holidays that all states of Germany have.
    Germany,
    /// The legal holidays of France.
    France,
    /// The days on which banks in Japan are closed, with the computed days of the equinoxes up to 2099.
    Japan,
}

impl KnownCalendar {
    /// The holidays of some years, but for those on the weekend, which are written into a slice. `None` if they do not fit, or the
    /// calendar does not have the years. New Year's Day can be kept in the year before, so ask for one year more.
    /// [`within`](Self::within) makes a calendar of them that knows its years.
    ///
    /// There are none before the rules begin: in 1971 (`UsFederal`, `Fedwire`), 1978 (`EnglandAndWales`), 1982 (`France`), 1995
    /// (`Germany`), 1998 (`Nyse`), 1999 (`Target`) and 2007 (`Japan`).
    ///
    /// ```
    /// use proved_calendar::{Date, KnownCalendar, WeekdaySet};
    /// let mut out = [Date::MIN; 20];
    /// let days = KnownCalendar::UsFederal.holidays(2024..=2024, WeekdaySet::default(), &mut out);
    /// assert_eq!(days.unwrap().len(), 11);
    /// let days = KnownCalendar::UsFederal.holidays(1900..=1970, WeekdaySet::default(), &mut out);
    /// assert!(days.unwrap().is_empty());
    /// ```
    #[must_use]
    pub fn holidays(
        self,
        years: RangeInclusive<i32>,
        weekend: WeekdaySet,
        out: &mut [Date],
    ) -> Option<&[Date]> {
        let (first, last, room) = (*years.start(), *years.end(), out.len());
        let to: *mut i32 = out.as_mut_ptr().cast();
        // SAFETY: in memory a date is its day number, the library writes those of dates alone, and at most so many.
        let count =
            unsafe { calendar_holidays_of(self as u32, first, last, weekend.members, to, room) };
        out.get(..usize::try_from(count).ok()?)
    }
}

/// Easter Sunday of a year, as the Gregorian churches have it; `None` if the calendar has no such year.
///
/// ```
/// assert_eq!(proved_calendar::easter(2024).unwrap().to_string(), "2024-03-31");
/// ```
#[must_use]
pub fn easter(year: i32) -> Option<Date> {
    Date::from_number(calendar_easter(year))
}

/// How the part of a year from one date to another is counted (ISDA 2006, section 4.16).
///
/// ```
/// use proved_calendar::{Date, DayCount};
/// let [from, to] = [1, 3].map(|month| Date::from_ymd(2024, month, 31).unwrap());
/// assert_eq!(DayCount::Thirty360.fraction(from, to).value(), 60.0 / 360.0);
/// ```
#[derive(Clone, Copy, Debug, PartialEq, Eq, Hash)]
pub enum DayCount {
    /// Actual/Actual (ISDA): days of leap years over 366, others over 365.
    ActualActualIsda,
    /// Actual/360.
    Actual360,
    /// Actual/365 (Fixed).
    Actual365Fixed,
    /// 30/360 (Bond Basis).
    Thirty360,
    /// 30E/360 (Eurobond Basis).
    ThirtyE360,
}

impl DayCount {
    /// The part of a year from one date to another; negative if `to` is the earlier.
    ///
    /// ```
    /// use proved_calendar::{Date, DayCount};
    /// let [from, to] = [1, 31].map(|day| Date::from_ymd(2024, 3, day).unwrap());
    /// assert_eq!(DayCount::Actual360.fraction(from, to).numerator, 30);
    /// ```
    #[must_use]
    pub fn fraction(self, from: Date, to: Date) -> Fraction {
        let found = calendar_day_count(self as u32, from.number(), to.number());
        Fraction {
            numerator: found.numerator,
            denominator: found.denominator,
        }
    }
}

/// An exact fraction, which is not reduced.
///
/// ```
/// let half = proved_calendar::Fraction { numerator: 180, denominator: 360 };
/// assert_eq!(half.value(), 0.5);
/// ```
#[derive(Clone, Copy, Debug, PartialEq, Eq, Hash)]
pub struct Fraction {
    /// The number above the line.
    pub numerator: i64,
    /// The number below the line, which is above 0.
    pub denominator: i64,
}

impl Fraction {
    /// The nearest number with a binary point.
    ///
    /// ```
    /// let third = proved_calendar::Fraction { numerator: 120, denominator: 360 };
    /// assert_eq!(third.value(), 1.0 / 3.0);
    /// ```
    #[must_use]
    pub fn value(self) -> f64 {
        self.numerator as f64 / self.denominator as f64
    }
}
