//! Columns of dates: one operation for every element of a slice.
//!
//! A column of dates is a slice of [`Date`]s or of day numbers, in which [`NO_DATE`] and any other number out of range
//! stand for no date. Results are written into slices of the caller: nothing is allocated.
//!
//! An element that is no date has no fields. [`NO_DATE`] then stands for its year, date or distance, 0 for its other
//! fields, and `i64::MIN` for its days since 1970.
//!
//! ```
//! use proved_calendar::{columns, Date};
//! let dates = [Date::from_ymd(2024, 1, 31).unwrap(), Date::MAX];
//! let mut moved = [0; 2];
//! columns::add_months(&dates, 1, &mut moved);
//! assert_eq!(Date::from_number(moved[0]), Date::from_ymd(2024, 2, 29));
//! assert_eq!(moved[1], columns::NO_DATE);
//! ```
//!
//! Functions such as [`add_open_days_within`] take a [`BoundedCalendar`](crate::BoundedCalendar). They return its error if the answer for one
//! of the dates looks at a year of which the holidays are not known.
//!
//! # Panics
//!
//! Each function panics if its slices have different lengths, as `copy_from_slice` does.

pub use crate::bounded_columns::{
    add_open_days_within, is_open_day_within, open_days_between_within, roll_within,
};
use crate::calls::*;
use crate::layer_calls::*;
use crate::{BusinessCalendar, Date, Roll, WeekdaySet};

/// A number that no date has.
///
/// ```
/// use proved_calendar::{columns, Date};
/// assert_eq!(Date::from_number(columns::NO_DATE), None);
/// ```
pub const NO_DATE: i32 = NONE;

/// A column of dates.
///
/// ```
/// use proved_calendar::{columns::DayNumbers, Date};
/// assert_eq!([Date::UNIX_EPOCH].day_numbers(), [719_163]);
/// ```
pub trait DayNumbers {
    /// The day numbers of the dates.
    fn day_numbers(&self) -> &[i32];
}

impl DayNumbers for [i32] {
    fn day_numbers(&self) -> &[i32] {
        self
    }
}

impl DayNumbers for [Date] {
    fn day_numbers(&self) -> &[i32] {
        // SAFETY: in memory a date is its day number.
        unsafe { core::slice::from_raw_parts(self.as_ptr().cast(), self.len()) }
    }
}

impl<const N: usize> DayNumbers for [i32; N] {
    fn day_numbers(&self) -> &[i32] {
        self
    }
}

impl<const N: usize> DayNumbers for [Date; N] {
    fn day_numbers(&self) -> &[i32] {
        self.as_slice().day_numbers()
    }
}

/// The same column as dates, if each number is one of a date.
///
/// ```
/// use proved_calendar::{columns, Date};
/// assert_eq!(columns::dates(&[719_163]), Some([Date::UNIX_EPOCH].as_slice()));
/// assert_eq!(columns::dates(&[1, columns::NO_DATE]), None);
/// ```
#[must_use]
pub fn dates(numbers: &[i32]) -> Option<&[Date]> {
    if count_dates(numbers) < numbers.len() {
        return None;
    }
    // SAFETY: each number is one of a date, which is that number in memory.
    Some(unsafe { core::slice::from_raw_parts(numbers.as_ptr().cast(), numbers.len()) })
}

/// How many elements are dates.
///
/// ```
/// use proved_calendar::columns;
/// assert_eq!(columns::count_dates(&[1, columns::NO_DATE, 2]), 2);
/// ```
#[must_use]
pub fn count_dates(dates: &(impl DayNumbers + ?Sized)) -> usize {
    let dates = dates.day_numbers();
    // SAFETY: so many numbers lie in the slice.
    unsafe { calendar_column_count_dates(dates.as_ptr(), dates.len()) }
}

/// Panics if a function of the library has said that the lengths differ.
#[track_caller]
pub(crate) fn check(is_written: bool) {
    assert!(is_written, "the columns have different lengths");
}

/// Functions from a column of dates to other columns.
macro_rules! of_dates {
    ($($(#[$about:meta])* $name:ident by $call:ident ($($out:ident: $kind:ty),*);)*) => {$(
        $(#[$about])*
        #[track_caller]
        pub fn $name(dates: &(impl DayNumbers + ?Sized) $(, $out: &mut [$kind])*) {
            let dates = dates.day_numbers();
            // SAFETY: so many elements lie in each slice, and a slice that is written overlaps no other.
            check(unsafe { $call(dates.as_ptr(), dates.len() $(, $out.as_mut_ptr(), $out.len())*) });
        }
    )*};
}

of_dates! {
    /// Writes the weekdays, from 1 for Monday to 7.
    ///
    /// ```
    /// use proved_calendar::{columns, Date};
    /// let mut weekdays = [0; 1];
    /// columns::weekdays(&[Date::UNIX_EPOCH], &mut weekdays);
    /// assert_eq!(weekdays, [4]);
    /// ```
    weekdays by calendar_column_weekdays(weekdays: u8);

    /// Writes the years.
    ///
    /// ```
    /// use proved_calendar::{columns, Date};
    /// let mut years = [0; 1];
    /// columns::years(&[Date::UNIX_EPOCH], &mut years);
    /// assert_eq!(years, [1970]);
    /// ```
    years by calendar_column_years(years: i32);

    /// Writes the days of the year, from 1.
    ///
    /// ```
    /// use proved_calendar::{columns, Date};
    /// let mut ordinals = [0; 1];
    /// columns::ordinals(&[Date::MAX], &mut ordinals);
    /// assert_eq!(ordinals, [365]);
    /// ```
    ordinals by calendar_column_ordinals(ordinals: u16);

    /// Writes the years, the months and the days of the month.
    ///
    /// ```
    /// use proved_calendar::{columns, Date};
    /// let (mut years, mut months, mut days) = ([0; 1], [0; 1], [0; 1]);
    /// columns::split(&[Date::UNIX_EPOCH], &mut years, &mut months, &mut days);
    /// assert_eq!((years, months, days), ([1970], [1], [1]));
    /// ```
    split by calendar_column_split(years: i32, months: u8, days: u8);

    /// Writes the ISO years and weeks.
    ///
    /// ```
    /// use proved_calendar::{columns, Date};
    /// let (mut years, mut weeks) = ([0; 1], [0; 1]);
    /// columns::iso_weeks(&[Date::from_ymd(2024, 12, 30).unwrap()], &mut years, &mut weeks);
    /// assert_eq!((years, weeks), ([2025], [1]));
    /// ```
    iso_weeks by calendar_column_iso_weeks(years: i32, weeks: u8);

    /// Writes the days from 1 January 1970 to each date.
    ///
    /// ```
    /// use proved_calendar::{columns, Date};
    /// let mut days = [0; 1];
    /// columns::to_unix_days(&[Date::UNIX_EPOCH], &mut days);
    /// assert_eq!(days, [0]);
    /// ```
    to_unix_days by calendar_column_to_unix_days(days: i64);
}

/// Writes the date of each year, month and day.
///
/// ```
/// use proved_calendar::columns;
/// let mut dates = [0; 2];
/// columns::join(&[1970, 2023], &[1, 2], &[1, 29], &mut dates);
/// assert_eq!(dates, [719_163, columns::NO_DATE]);
/// ```
#[track_caller]
pub fn join(years: &[i32], months: &[u8], days: &[u8], dates: &mut [i32]) {
    // SAFETY: so many elements lie in each slice, and the one that is written overlaps no other.
    check(unsafe {
        calendar_column_join(
            years.as_ptr(),
            years.len(),
            months.as_ptr(),
            months.len(),
            days.as_ptr(),
            days.len(),
            dates.as_mut_ptr(),
            dates.len(),
        )
    });
}

/// Functions from a column of dates and a number to dates.
macro_rules! by_number {
    ($($(#[$about:meta])* $name:ident by $call:ident ($number:ident: $kind:ty = $taken:expr);)*) => {$(
        $(#[$about])*
        #[track_caller]
        pub fn $name(dates: &(impl DayNumbers + ?Sized), $number: $kind, found: &mut [i32]) {
            let dates = dates.day_numbers();
            // SAFETY: so many elements lie in each slice, and the one that is written does not overlap the other.
            check(unsafe { $call(dates.as_ptr(), dates.len(), $taken, found.as_mut_ptr(), found.len()) });
        }
    )*};
}

by_number! {
    /// Writes the date so many days after each, or before it if the days are negative.
    ///
    /// ```
    /// use proved_calendar::{columns, Date};
    /// let mut moved = [0; 2];
    /// columns::add_days(&[Date::UNIX_EPOCH, Date::MAX], 1, &mut moved);
    /// assert_eq!(moved, [719_164, columns::NO_DATE]);
    /// ```
    add_days by calendar_column_add_days(days: i32 = days);

    /// Writes the date so many months after each, or before it if they are negative, or the last day of a shorter month.
    ///
    /// ```
    /// use proved_calendar::{columns, Date};
    /// let mut moved = [0];
    /// columns::add_months(&[Date::from_ymd(2024, 3, 31).unwrap()], -1, &mut moved);
    /// assert_eq!(Date::from_number(moved[0]), Date::from_ymd(2024, 2, 29));
    /// ```
    add_months by calendar_column_add_months(months: i32 = months);

    /// Writes the first date from each on whose weekday is in the set. That date may be the same.
    ///
    /// ```
    /// use proved_calendar::{columns, Date, Weekday};
    /// let mut found = [0];
    /// columns::first_on(&[Date::UNIX_EPOCH], [Weekday::Mon].into(), &mut found);
    /// assert_eq!(found, [719_167]);
    /// ```
    first_on by calendar_column_first_on(weekdays: WeekdaySet = weekdays.members);
}

/// Functions from a column of dates and another column to numbers.
macro_rules! by_column {
    ($($(#[$about:meta])* $name:ident by $call:ident ($other:ident: $kind:ty = $taken:expr, $out:ident);)*) => {$(
        $(#[$about])*
        #[track_caller]
        pub fn $name(dates: &(impl DayNumbers + ?Sized), $other: $kind, $out: &mut [i32]) {
            let (dates, other): (&[i32], &[i32]) = (dates.day_numbers(), $taken);
            // SAFETY: so many elements lie in each slice, and the one that is written overlaps no other.
            check(unsafe {
                $call(dates.as_ptr(), dates.len(), other.as_ptr(), other.len(), $out.as_mut_ptr(), $out.len())
            });
        }
    )*};
}

by_column! {
    /// Writes the date that lies after each by its own number of days.
    ///
    /// ```
    /// use proved_calendar::{columns, Date};
    /// let mut moved = [0];
    /// columns::add_days_each(&[Date::UNIX_EPOCH], &[-719_162], &mut moved);
    /// assert_eq!(moved, [1]);
    /// ```
    add_days_each by calendar_column_add_days_each(days: &[i32] = days, moved);

    /// Writes the days from each date of `bases` to the date at the same place.
    ///
    /// ```
    /// use proved_calendar::{columns, Date};
    /// let mut days = [0];
    /// columns::days_between(&[Date::MAX], &[Date::MIN], &mut days);
    /// assert_eq!(days, [191_491_528]);
    /// ```
    days_between by calendar_column_days_between(bases: &(impl DayNumbers + ?Sized) = bases.day_numbers(), days);
}

/// Makes each date the one so many days after it.
///
/// ```
/// let mut dates = [719_163];
/// proved_calendar::columns::add_days_in_place(&mut dates, 1);
/// assert_eq!(dates, [719_164]);
/// ```
pub fn add_days_in_place(dates: &mut [i32], days: i32) {
    // SAFETY: so many numbers lie in the slice.
    unsafe { calendar_column_add_days_in_place(dates.as_mut_ptr(), dates.len(), days) }
}

/// Makes each date the one that lies after it by its own number of days.
///
/// ```
/// let mut dates = [719_163];
/// proved_calendar::columns::add_days_each_in_place(&mut dates, &[1]);
/// assert_eq!(dates, [719_164]);
/// ```
#[track_caller]
pub fn add_days_each_in_place(dates: &mut [i32], days: &[i32]) {
    // SAFETY: so many numbers lie in each slice, and they do not overlap.
    check(unsafe {
        calendar_column_add_days_each_in_place(
            dates.as_mut_ptr(),
            dates.len(),
            days.as_ptr(),
            days.len(),
        )
    });
}

/// Makes each date the one so many months after it, or the last day of a shorter month.
///
/// ```
/// let mut dates = [719_163];
/// proved_calendar::columns::add_months_in_place(&mut dates, 12);
/// assert_eq!(dates, [719_163 + 365]);
/// ```
pub fn add_months_in_place(dates: &mut [i32], months: i32) {
    // SAFETY: so many numbers lie in the slice.
    unsafe { calendar_column_add_months_in_place(dates.as_mut_ptr(), dates.len(), months) }
}

/// Writes the date of each number of days since 1 January 1970.
///
/// ```
/// let mut dates = [0];
/// proved_calendar::columns::from_unix_days(&[1], &mut dates);
/// assert_eq!(dates, [719_164]);
/// ```
#[track_caller]
pub fn from_unix_days(days: &[i64], dates: &mut [i32]) {
    // SAFETY: so many numbers lie in each slice, and they do not overlap.
    check(unsafe {
        calendar_column_from_unix_days(days.as_ptr(), days.len(), dates.as_mut_ptr(), dates.len())
    });
}

/// Writes the text of each date with a year from 0 to 9999, such as `2024-02-29`, and zeros for any other element.
///
/// ```
/// use proved_calendar::{columns, Date};
/// let mut texts = [[0; 10]; 2];
/// columns::write_dates(&[Date::UNIX_EPOCH, Date::MAX], &mut texts);
/// assert_eq!(texts, [*b"1970-01-01", [0; 10]]);
/// ```
#[track_caller]
pub fn write_dates(dates: &(impl DayNumbers + ?Sized), texts: &mut [[u8; 10]]) {
    let dates = dates.day_numbers();
    // SAFETY: so many elements lie in each slice, and they do not overlap.
    check(unsafe {
        calendar_column_write_dates(
            dates.as_ptr(),
            dates.len(),
            texts.as_mut_ptr().cast(),
            texts.len(),
        )
    });
}

/// Writes the date whose text each element is, as [`write_dates`] writes it.
///
/// ```
/// use proved_calendar::columns;
/// let mut dates = [0; 2];
/// columns::read_dates(&[*b"1970-01-01", *b"1970-02-30"], &mut dates);
/// assert_eq!(dates, [719_163, columns::NO_DATE]);
/// ```
#[track_caller]
pub fn read_dates(texts: &[[u8; 10]], dates: &mut [i32]) {
    // SAFETY: so many elements lie in each slice, and they do not overlap.
    check(unsafe {
        calendar_column_read_dates(
            texts.as_ptr().cast(),
            texts.len(),
            dates.as_mut_ptr(),
            dates.len(),
        )
    });
}

/// Writes whether each date is open, and `false` for no date.
///
/// ```
/// use proved_calendar::{columns, BusinessCalendar, Date, Weekday, WeekdaySet};
/// let calendar = BusinessCalendar::new(WeekdaySet::from([Weekday::Thu]), &[]).unwrap();
/// let mut marks = [true; 2];
/// columns::is_open_day(&calendar, &[Date::UNIX_EPOCH, Date::MAX], &mut marks);
/// assert_eq!(marks, [false, true]);
/// ```
#[track_caller]
pub fn is_open_day(
    calendar: &BusinessCalendar<'_>,
    dates: &(impl DayNumbers + ?Sized),
    marks: &mut [bool],
) {
    let (weekend, holidays) = parts(calendar);
    let (dates, to) = (dates.day_numbers(), marks.as_mut_ptr().cast());
    // SAFETY: so many elements lie in each slice, and the one that is written overlaps no other. It gets 0 and 1 alone.
    check(unsafe {
        calendar_column_is_open_day(
            weekend,
            holidays.as_ptr(),
            holidays.len(),
            dates.as_ptr(),
            dates.len(),
            to,
            marks.len(),
        )
    });
}

/// Writes the `n`-th open day after each date, as [`BusinessCalendar::add_open_days`] finds it.
///
/// ```
/// use proved_calendar::{columns, BusinessCalendar, Date, WeekdaySet};
/// let calendar = BusinessCalendar::new(WeekdaySet::default(), &[]).unwrap();
/// let mut moved = [0; 2];
/// columns::add_open_days(&calendar, &[Date::UNIX_EPOCH, Date::MAX], 2, &mut moved);
/// assert_eq!(moved, [719_165, columns::NO_DATE]);
/// ```
#[track_caller]
pub fn add_open_days(
    calendar: &BusinessCalendar<'_>,
    dates: &(impl DayNumbers + ?Sized),
    n: i64,
    moved: &mut [i32],
) {
    let (weekend, holidays) = parts(calendar);
    let dates = dates.day_numbers();
    // SAFETY: so many elements lie in each slice, and the one that is written overlaps no other.
    check(unsafe {
        calendar_column_add_open_days(
            weekend,
            holidays.as_ptr(),
            holidays.len(),
            dates.as_ptr(),
            dates.len(),
            n,
            moved.as_mut_ptr(),
            moved.len(),
        )
    });
}

/// Writes how many days are open from each date on and before the other at its place.
///
/// ```
/// use proved_calendar::{columns, BusinessCalendar, Date, WeekdaySet};
/// let calendar = BusinessCalendar::new(WeekdaySet::default(), &[]).unwrap();
/// let mut days = [0; 1];
/// columns::open_days_between(&calendar, &[Date::UNIX_EPOCH], &[719_170], &mut days);
/// assert_eq!(days, [7]);
/// ```
#[track_caller]
pub fn open_days_between(
    calendar: &BusinessCalendar<'_>,
    from: &(impl DayNumbers + ?Sized),
    to: &(impl DayNumbers + ?Sized),
    days: &mut [i64],
) {
    let (weekend, holidays) = parts(calendar);
    let (from, to) = (from.day_numbers(), to.day_numbers());
    // SAFETY: so many elements lie in each slice, and the one that is written overlaps no other.
    check(unsafe {
        calendar_column_open_days_between(
            weekend,
            holidays.as_ptr(),
            holidays.len(),
            from.as_ptr(),
            from.len(),
            to.as_ptr(),
            to.len(),
            days.as_mut_ptr(),
            days.len(),
        )
    });
}

/// Writes the date that each date goes to by a roll.
///
/// ```
/// use proved_calendar::{columns, BusinessCalendar, Date, Roll, Weekday, WeekdaySet};
/// let calendar = BusinessCalendar::new(WeekdaySet::from([Weekday::Thu]), &[]).unwrap();
/// let mut rolled = [0; 1];
/// columns::roll(&calendar, &[Date::UNIX_EPOCH], Roll::Following, &mut rolled);
/// assert_eq!(rolled, [719_164]);
/// ```
#[track_caller]
pub fn roll(
    calendar: &BusinessCalendar<'_>,
    dates: &(impl DayNumbers + ?Sized),
    roll: Roll,
    rolled: &mut [i32],
) {
    let (weekend, holidays) = parts(calendar);
    let dates = dates.day_numbers();
    // SAFETY: so many elements lie in each slice, and the one that is written overlaps no other.
    check(unsafe {
        calendar_column_roll(
            weekend,
            holidays.as_ptr(),
            holidays.len(),
            dates.as_ptr(),
            dates.len(),
            roll as u32,
            rolled.as_mut_ptr(),
            rolled.len(),
        )
    });
}

/// The weekend and the holidays of a calendar as the library takes them.
pub(crate) fn parts<'a>(calendar: &BusinessCalendar<'a>) -> (u8, &'a [i32]) {
    (
        calendar.weekend().members,
        calendar.holidays().day_numbers(),
    )
}

/// Writes the date of each 32-bit number of days since 1 January 1970, as Arrow's date32 has them.
///
/// ```
/// use proved_calendar::columns;
/// let mut dates = [0; 2];
/// columns::from_date32(&[0, i32::MAX], &mut dates);
/// assert_eq!(dates, [719_163, columns::NO_DATE]);
/// ```
#[track_caller]
pub fn from_date32(days: &[i32], dates: &mut [i32]) {
    // SAFETY: so many elements lie in each slice, and the one that is written overlaps no other.
    check(unsafe {
        calendar_column_from_date32(days.as_ptr(), days.len(), dates.as_mut_ptr(), dates.len())
    });
}

/// Writes the days from 1 January 1970 to each date, as Arrow's date32 has them; [`NO_DATE`] for no date.
///
/// ```
/// use proved_calendar::{columns, Date};
/// let mut days = [7; 1];
/// columns::to_date32(&[Date::UNIX_EPOCH], &mut days);
/// assert_eq!(days, [0]);
/// ```
#[track_caller]
pub fn to_date32(dates: &(impl DayNumbers + ?Sized), days: &mut [i32]) {
    let dates = dates.day_numbers();
    // SAFETY: so many elements lie in each slice, and the one that is written overlaps no other.
    check(unsafe {
        calendar_column_to_date32(dates.as_ptr(), dates.len(), days.as_mut_ptr(), days.len())
    });
}
