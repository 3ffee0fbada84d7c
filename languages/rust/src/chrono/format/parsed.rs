//! The fields of a text, and the values that they give.

use core::ops::RangeInclusive;

use super::write::weeks;
use super::{parse, parse_and_remainder, ParseResult, StrftimeItems};
use super::{IMPOSSIBLE, NOT_ENOUGH, OUT_OF_RANGE};
use crate::chrono::{
    DateTime, Datelike, FixedOffset, MappedLocalTime, NaiveDate, NaiveDateTime, NaiveTime,
};
use crate::chrono::{Offset, TimeDelta, TimeZone, Timelike, Weekday};

/// The fields that were read of a text. A `set_` call is refused for a number out of range, and for one that differs from
/// what was set before. A `to_` call makes a value of the fields, all of which have to fit it.
///
/// ```
/// use proved_calendar::chrono::format::Parsed;
/// let mut fields = Parsed::new();
/// fields.set_year(2024).unwrap();
/// fields.set_ordinal(60).unwrap();
/// assert_eq!(fields.to_naive_date().unwrap().to_string(), "2024-02-29");
/// assert!(fields.set_year(2025).is_err());
/// ```
#[derive(Clone, Debug, Default, PartialEq, Eq)]
#[non_exhaustive]
pub struct Parsed {
    /// The year.
    pub year: Option<i32>,
    /// The year without its last two digits, which is not negative.
    pub year_div_100: Option<i32>,
    /// The last two digits of the year. Alone, 70 to 99 are of 1970 to 1999, and 0 to 69 of 2000 to 2069.
    pub year_mod_100: Option<i32>,
    /// The ISO year.
    pub isoyear: Option<i32>,
    /// The ISO year without its last two digits, which is not negative.
    pub isoyear_div_100: Option<i32>,
    /// The last two digits of the ISO year.
    pub isoyear_mod_100: Option<i32>,
    /// The quarter, from 1 to 4.
    pub quarter: Option<u32>,
    /// The month, from 1.
    pub month: Option<u32>,
    /// The week, where week 1 begins with the first Sunday of the year.
    pub week_from_sun: Option<u32>,
    /// The week, where week 1 begins with the first Monday of the year.
    pub week_from_mon: Option<u32>,
    /// The ISO week.
    pub isoweek: Option<u32>,
    /// The weekday.
    pub weekday: Option<Weekday>,
    /// The day of the year, from 1.
    pub ordinal: Option<u32>,
    /// The day of the month, from 1.
    pub day: Option<u32>,
    /// 0 in the morning and 1 in the afternoon.
    pub hour_div_12: Option<u32>,
    /// The hour, from 0 to 11.
    pub hour_mod_12: Option<u32>,
    /// The minute.
    pub minute: Option<u32>,
    /// The second, which is 60 in a leap second.
    pub second: Option<u32>,
    /// The nanoseconds past the second.
    pub nanosecond: Option<u32>,
    /// The seconds since 1970-01-01T00:00:00 in UTC. In a leap second they may be those of the next second.
    pub timestamp: Option<i64>,
    /// The seconds by which the local clock is ahead of UTC.
    pub offset: Option<i32>,
}

/// Puts a value into a field; refused if another one is there.
fn set<T: Copy + PartialEq>(field: &mut Option<T>, value: T) -> ParseResult<()> {
    if *field.get_or_insert(value) == value {
        Ok(())
    } else {
        Err(IMPOSSIBLE)
    }
}

/// The number in the type of a field, if it lies in the range.
fn within<T: TryFrom<i64>>(value: i64, range: RangeInclusive<i64>) -> ParseResult<T> {
    if !range.contains(&value) {
        return Err(OUT_OF_RANGE);
    }
    T::try_from(value).map_err(|_| OUT_OF_RANGE)
}

/// Calls that set one field each, to a number in a range.
macro_rules! setters {
    ($($name:ident $field:ident $range:expr, $about:literal;)*) => {$(
        #[doc = concat!("Sets ", $about, ".")]
        ///
        /// # Errors
        ///
        /// If it is out of range, or another one is set.
        pub fn $name(&mut self, value: i64) -> ParseResult<()> {
            set(&mut self.$field, within(value, $range)?)
        }
    )*};
}

/// The numbers that a field of 32 bits holds from 0 on.
const WHOLE: RangeInclusive<i64> = 0..=u32::MAX as i64;

/// All numbers that a field with a sign holds.
const SIGNED: RangeInclusive<i64> = i64::MIN..=i64::MAX;

impl Parsed {
    /// No fields.
    #[must_use]
    pub fn new() -> Parsed {
        Parsed::default()
    }

    /// The fields of a whole text by a pattern.
    pub(crate) fn of(text: &str, pattern: &str) -> ParseResult<Parsed> {
        let mut fields = Parsed::new();
        parse(&mut fields, text, StrftimeItems::new(pattern))?;
        Ok(fields)
    }

    /// The fields of the beginning of a text by a pattern, and the rest.
    pub(crate) fn of_beginning<'a>(text: &'a str, pattern: &str) -> ParseResult<(Parsed, &'a str)> {
        let mut fields = Parsed::new();
        let rest = parse_and_remainder(&mut fields, text, StrftimeItems::new(pattern))?;
        Ok((fields, rest))
    }

    setters! {
        set_year year SIGNED, "the year";
        set_year_div_100 year_div_100 WHOLE, "the year without its last two digits";
        set_year_mod_100 year_mod_100 WHOLE, "the last two digits of the year";
        set_isoyear isoyear SIGNED, "the ISO year";
        set_isoyear_div_100 isoyear_div_100 WHOLE, "the ISO year without its last two digits";
        set_isoyear_mod_100 isoyear_mod_100 WHOLE, "the last two digits of the ISO year";
        set_quarter quarter 1..=4, "the quarter";
        set_month month WHOLE, "the month";
        set_week_from_sun week_from_sun WHOLE, "the week from the first Sunday";
        set_week_from_mon week_from_mon WHOLE, "the week from the first Monday";
        set_isoweek isoweek WHOLE, "the ISO week";
        set_ordinal ordinal WHOLE, "the day of the year";
        set_day day WHOLE, "the day of the month";
        set_minute minute WHOLE, "the minute";
        set_second second WHOLE, "the second";
        set_nanosecond nanosecond WHOLE, "the nanoseconds";
        set_timestamp timestamp SIGNED, "the seconds since 1970";
        set_offset offset SIGNED, "the offset in seconds";
    }

    /// Sets the weekday.
    ///
    /// # Errors
    ///
    /// If another one is set.
    pub fn set_weekday(&mut self, value: Weekday) -> ParseResult<()> {
        set(&mut self.weekday, value)
    }

    /// Sets whether it is the afternoon.
    ///
    /// # Errors
    ///
    /// If the other is set.
    pub fn set_ampm(&mut self, value: bool) -> ParseResult<()> {
        set(&mut self.hour_div_12, u32::from(value))
    }

    /// Sets the hour from 1 to 12.
    ///
    /// # Errors
    ///
    /// If it is out of range, or another one is set.
    pub fn set_hour12(&mut self, value: i64) -> ParseResult<()> {
        let hour: u32 = within(value, 1..=12)?;
        set(&mut self.hour_mod_12, hour % 12)
    }

    /// Sets the hour from 0 to 23.
    ///
    /// # Errors
    ///
    /// If it is out of range, or another one is set.
    pub fn set_hour(&mut self, value: i64) -> ParseResult<()> {
        let hour: u32 = within(value, WHOLE)?;
        set(&mut self.hour_div_12, hour / 12)?;
        set(&mut self.hour_mod_12, hour % 12)
    }

    /// The date of the fields: by month and day, by the day of the year, or by a week and a weekday.
    ///
    /// # Errors
    ///
    /// If the fields do not give a date, contradict one another or are out of range.
    pub fn to_naive_date(&self) -> ParseResult<NaiveDate> {
        let year = whole_year(self.year, self.year_div_100, self.year_mod_100)?;
        let isoyear = whole_year(self.isoyear, self.isoyear_div_100, self.isoyear_mod_100)?;
        let date = if let (Some(year), Some(month), Some(day)) = (year, self.month, self.day) {
            NaiveDate::from_ymd_opt(year, month, day)
        } else if let (Some(year), Some(ordinal)) = (year, self.ordinal) {
            NaiveDate::from_yo_opt(year, ordinal)
        } else {
            self.date_of_week(year, isoyear)?
        };
        let date = date.ok_or(OUT_OF_RANGE)?;
        if self.fits(date) {
            Ok(date)
        } else {
            Err(IMPOSSIBLE)
        }
    }

    /// The date by a week and a weekday, if it exists.
    fn date_of_week(
        &self,
        year: Option<i32>,
        isoyear: Option<i32>,
    ) -> ParseResult<Option<NaiveDate>> {
        let weekday = self.weekday.ok_or(NOT_ENOUGH)?;
        let of_year = |week: Option<u32>, start| Some(day_of_week(year?, week?, start, weekday));
        let of_isoyear = || Some(NaiveDate::from_isoywd_opt(isoyear?, self.isoweek?, weekday));
        of_year(self.week_from_sun, Weekday::Sun)
            .or_else(|| of_year(self.week_from_mon, Weekday::Mon))
            .or_else(of_isoyear)
            .ok_or(NOT_ENOUGH)
    }

    /// Whether all fields of a date are those of this one.
    fn fits(&self, date: NaiveDate) -> bool {
        // (only the fields that are set are asked of the date)
        fn is<T: PartialEq>(field: Option<T>, value: impl FnOnce() -> T) -> bool {
            field.is_none_or(|it| it == value())
        }
        let is_set = self
            .isoyear
            .or(self.isoyear_div_100)
            .or(self.isoyear_mod_100)
            .is_some();
        fits_year(date.year(), self.year, self.year_div_100, self.year_mod_100)
            && (!is_set || self.fits_isoyear(date))
            && is(self.quarter, || date.quarter())
            && is(self.month, || date.month())
            && is(self.day, || date.day())
            && is(self.ordinal, || date.ordinal())
            && is(self.weekday, || date.weekday())
            && is(self.isoweek, || date.iso_week().week())
            && is(self.week_from_sun, || {
                weeks(date, date.weekday().num_days_from_sunday()) as u32
            })
            && is(self.week_from_mon, || {
                weeks(date, date.weekday().num_days_from_monday()) as u32
            })
    }

    /// Whether all parts of the ISO year are those of a date.
    fn fits_isoyear(&self, date: NaiveDate) -> bool {
        let year = date.iso_week().year();
        fits_year(
            year,
            self.isoyear,
            self.isoyear_div_100,
            self.isoyear_mod_100,
        )
    }

    /// The time of the fields. The second and the nanoseconds are 0 if they are missing.
    ///
    /// # Errors
    ///
    /// If the hour or the minute is missing, or a field is out of range.
    pub fn to_naive_time(&self) -> ParseResult<NaiveTime> {
        let at_most = |field: Option<u32>, most| match field {
            None => Err(NOT_ENOUGH),
            Some(it) if it <= most => Ok(it),
            Some(_) => Err(OUT_OF_RANGE),
        };
        let hour = at_most(self.hour_div_12, 1)? * 12 + at_most(self.hour_mod_12, 11)?;
        let minute = at_most(self.minute, 59)?;
        let second = at_most(self.second.or(Some(0)), 60)?;
        if self.second.is_none() && self.nanosecond.is_some() {
            return Err(NOT_ENOUGH);
        }
        let nanos = at_most(self.nanosecond.or(Some(0)), 999_999_999)?;
        let leap = second / 60;
        NaiveTime::from_hms_nano_opt(hour, minute, second - leap, nanos + leap * 1_000_000_000)
            .ok_or(OUT_OF_RANGE)
    }

    /// The date-time of the fields on a clock that is ahead of UTC by so many seconds. The field `offset` counts for nothing.
    ///
    /// # Errors
    ///
    /// If the fields do not give a date-time, contradict one another or are out of range.
    pub fn to_naive_datetime_with_offset(&self, offset: i32) -> ParseResult<NaiveDateTime> {
        let (date, time) = (self.to_naive_date(), self.to_naive_time());
        if let (Ok(date), Ok(time)) = (date, time) {
            let moment = date.and_time(time);
            let stamp = moment.timestamp() - i64::from(offset);
            let is_leap = moment.nanosecond() >= 1_000_000_000;
            let fits = |it| it == stamp || is_leap && it == stamp + 1;
            return if self.timestamp.is_none_or(fits) {
                Ok(moment)
            } else {
                Err(IMPOSSIBLE)
            };
        }
        let Some(stamp) = self.timestamp else {
            return Err(date.err().or(time.err()).unwrap_or(NOT_ENOUGH));
        };
        for refused in [OUT_OF_RANGE, IMPOSSIBLE] {
            if date == Err(refused) || time == Err(refused) {
                return Err(refused);
            }
        }
        self.at_stamp(stamp.checked_add(i64::from(offset)).ok_or(OUT_OF_RANGE)?)
    }

    /// The date-time at a local number of seconds since 1970, with the nanoseconds of the fields, all of which have to fit.
    fn at_stamp(&self, stamp: i64) -> ParseResult<NaiveDateTime> {
        let mut moment = NaiveDateTime::from_timestamp_opt(stamp, 0).ok_or(OUT_OF_RANGE)?;
        let mut fields = self.clone();
        if fields.second == Some(60) {
            match moment.second() {
                59 => {}
                0 => {
                    moment = moment
                        .checked_sub_signed(TimeDelta::seconds(1))
                        .ok_or(OUT_OF_RANGE)?
                }
                _ => return Err(IMPOSSIBLE),
            }
        } else {
            fields.set_second(i64::from(moment.second()))?;
        }
        fields.set_year(i64::from(moment.year()))?;
        fields.set_ordinal(i64::from(moment.ordinal()))?;
        fields.set_hour(i64::from(moment.hour()))?;
        fields.set_minute(i64::from(moment.minute()))?;
        Ok(fields.to_naive_date()?.and_time(fields.to_naive_time()?))
    }

    /// The offset.
    ///
    /// # Errors
    ///
    /// If it is missing, or a day or more.
    pub fn to_fixed_offset(&self) -> ParseResult<FixedOffset> {
        FixedOffset::east_opt(self.offset.ok_or(NOT_ENOUGH)?).ok_or(OUT_OF_RANGE)
    }

    /// The instant of the fields, with their offset.
    ///
    /// # Errors
    ///
    /// If the fields do not give an instant, contradict one another or are out of range.
    pub fn to_datetime(&self) -> ParseResult<DateTime<FixedOffset>> {
        let local = self.to_naive_datetime_with_offset(self.offset.ok_or(NOT_ENOUGH)?)?;
        let offset = self.to_fixed_offset()?;
        offset
            .from_local_datetime(&local)
            .single()
            .ok_or(IMPOSSIBLE)
    }

    /// The instant of the fields in a zone. If they have an offset, it has to be the zone's.
    ///
    /// # Errors
    ///
    /// If the fields do not give one instant, contradict one another or are out of range.
    pub fn to_datetime_with_timezone<Tz: TimeZone>(&self, zone: &Tz) -> ParseResult<DateTime<Tz>> {
        let mut offset = 0;
        if let Some(stamp) = self.timestamp {
            let nanos = self.nanosecond.unwrap_or(0);
            let utc = NaiveDateTime::from_timestamp_opt(stamp, nanos).ok_or(OUT_OF_RANGE)?;
            offset = zone.offset_from_utc_datetime(&utc).fix().local_minus_utc();
        }
        let local = self.to_naive_datetime_with_offset(offset)?;
        let fits = |it: &DateTime<Tz>| {
            self.offset
                .is_none_or(|wanted| it.offset().fix().local_minus_utc() == wanted)
        };
        match zone.from_local_datetime(&local) {
            MappedLocalTime::Single(it) if fits(&it) => Ok(it),
            MappedLocalTime::Ambiguous(one, other) => match (fits(&one), fits(&other)) {
                (true, true) => Err(NOT_ENOUGH),
                (true, false) => Ok(one),
                (false, true) => Ok(other),
                (false, false) => Err(IMPOSSIBLE),
            },
            _ => Err(IMPOSSIBLE),
        }
    }
}

/// The year of its parts, if they give one.
fn whole_year(
    year: Option<i32>,
    hundreds: Option<i32>,
    rest: Option<i32>,
) -> ParseResult<Option<i32>> {
    if let Some(it) = rest {
        within::<i32>(i64::from(it), 0..=99)?;
    }
    match (year, hundreds, rest) {
        (Some(year), ..) if fits_year(year, None, hundreds, rest) => Ok(Some(year)),
        (Some(year), ..) if year < 0 => Err(OUT_OF_RANGE),
        (Some(_), ..) => Err(IMPOSSIBLE),
        (None, Some(hundreds), Some(rest)) => {
            let year = hundreds
                .checked_mul(100)
                .and_then(|it| it.checked_add(rest));
            year.map(Some).ok_or(OUT_OF_RANGE)
        }
        (None, None, Some(rest)) => Ok(Some(rest + if rest < 70 { 2_000 } else { 1_900 })),
        (None, Some(_), None) => Err(NOT_ENOUGH),
        (None, None, None) => Ok(None),
    }
}

/// Whether all parts are those of a year. One below 0 has no hundreds and no rest.
fn fits_year(value: i32, year: Option<i32>, hundreds: Option<i32>, rest: Option<i32>) -> bool {
    year.is_none_or(|it| it == value)
        && hundreds.is_none_or(|it| value >= 0 && it == value / 100)
        && rest.is_none_or(|it| value >= 0 && it == value % 100)
}

/// The day with a weekday in a week of a year, where week 1 begins with the first `start` of the year. `None` if it is not
/// in the year.
fn day_of_week(year: i32, week: u32, start: Weekday, weekday: Weekday) -> Option<NaiveDate> {
    if week > 53 {
        return None;
    }
    let first = NaiveDate::from_yo_opt(year, 1)?;
    let before = i64::from(start.days_since(first.weekday()));
    let days = before + (i64::from(week) - 1) * 7 + i64::from(weekday.days_since(start));
    first.moved(days).filter(|it| it.year() == year)
}
