//! Columns of open days of the years of which holidays are known.

use crate::columns::{check, parts, DayNumbers, NO_DATE};
use crate::layer_calls::*;
use crate::{BoundedCalendar, Date, Roll, YearsError};

/// Whether each date has an answer.
fn all_are_answered(dates: &[i32], answers: &[i32]) -> bool {
    let is_date = |it: i32| Date::from_number(it).is_some();
    let mut pairs = dates.iter().zip(answers);
    pairs.all(|(date, answer)| *answer != NO_DATE || !is_date(*date))
}

/// Writes whether each date is open, and `false` for no date. Each date has to lie in the years.
///
/// After an error, what is written is of no use, here and in the other functions of a [`BoundedCalendar`].
///
/// ```
/// use proved_calendar::{columns, BoundedCalendar, BusinessCalendar, Date, WeekdaySet};
/// let calendar = BusinessCalendar::new(WeekdaySet::default(), &[Date::UNIX_EPOCH]).unwrap();
/// let calendar = BoundedCalendar::new(calendar, 1970..=1970);
/// let mut marks = [true; 2];
/// columns::is_open_day_within(&calendar, &[719_163, columns::NO_DATE], &mut marks).unwrap();
/// assert_eq!(marks, [false, false]);
/// assert!(columns::is_open_day_within(&calendar, &[719_163, 719_162], &mut marks).is_err());
/// ```
#[track_caller]
pub fn is_open_day_within(
    calendar: &BoundedCalendar<'_>,
    dates: &(impl DayNumbers + ?Sized),
    marks: &mut [bool],
) -> Result<(), YearsError> {
    let ((weekend, holidays), years) = (parts(&calendar.calendar()), calendar.years());
    let dates = dates.day_numbers();
    // SAFETY: a `bool` is a byte, and no byte is read as one before each is 0 or 1.
    let bytes =
        unsafe { core::slice::from_raw_parts_mut(marks.as_mut_ptr().cast::<u8>(), marks.len()) };
    // SAFETY: so many elements lie in each slice, and the one that is written overlaps no other.
    check(unsafe {
        calendar_column_is_open_day_within(
            weekend,
            holidays.as_ptr(),
            holidays.len(),
            *years.start(),
            *years.end(),
            dates.as_ptr(),
            dates.len(),
            bytes.as_mut_ptr(),
            bytes.len(),
        )
    });
    // (2 stands for a date of another year)
    let is_known = !bytes.contains(&2);
    bytes.iter_mut().for_each(|it| *it &= 1);
    calendar.refuse_unless(is_known)
}

/// Writes the `n`-th open day after each date, as [`BoundedCalendar::add_open_days`] finds it.
///
/// ```
/// use proved_calendar::{columns, BoundedCalendar, BusinessCalendar, Date, WeekdaySet};
/// let calendar = BusinessCalendar::new(WeekdaySet::default(), &[]).unwrap();
/// let calendar = BoundedCalendar::new(calendar, 1970..=1970);
/// let mut moved = [0; 1];
/// columns::add_open_days_within(&calendar, &[Date::UNIX_EPOCH], 2, &mut moved).unwrap();
/// assert_eq!(moved, [719_165]);
/// assert!(columns::add_open_days_within(&calendar, &[Date::UNIX_EPOCH], -1, &mut moved).is_err());
/// ```
#[track_caller]
pub fn add_open_days_within(
    calendar: &BoundedCalendar<'_>,
    dates: &(impl DayNumbers + ?Sized),
    n: i64,
    moved: &mut [i32],
) -> Result<(), YearsError> {
    let ((weekend, holidays), years) = (parts(&calendar.calendar()), calendar.years());
    let dates = dates.day_numbers();
    // SAFETY: so many elements lie in each slice, and the one that is written overlaps no other.
    check(unsafe {
        calendar_column_add_open_days_within(
            weekend,
            holidays.as_ptr(),
            holidays.len(),
            *years.start(),
            *years.end(),
            dates.as_ptr(),
            dates.len(),
            n,
            moved.as_mut_ptr(),
            moved.len(),
        )
    });
    calendar.refuse_unless(all_are_answered(dates, moved))
}

/// Writes how many days are open from each date on and before the other at its place, as [`BoundedCalendar::open_days`] counts them.
///
/// ```
/// use proved_calendar::{columns, BoundedCalendar, BusinessCalendar, Date, WeekdaySet};
/// let calendar = BusinessCalendar::new(WeekdaySet::default(), &[]).unwrap();
/// let calendar = BoundedCalendar::new(calendar, 1970..=1970);
/// let mut days = [0; 1];
/// columns::open_days_between_within(&calendar, &[Date::UNIX_EPOCH], &[719_170], &mut days).unwrap();
/// assert_eq!(days, [7]);
/// assert!(columns::open_days_between_within(&calendar, &[Date::UNIX_EPOCH], &[1], &mut days).is_err());
/// ```
#[track_caller]
pub fn open_days_between_within(
    calendar: &BoundedCalendar<'_>,
    from: &(impl DayNumbers + ?Sized),
    to: &(impl DayNumbers + ?Sized),
    days: &mut [i64],
) -> Result<(), YearsError> {
    let ((weekend, holidays), years) = (parts(&calendar.calendar()), calendar.years());
    let (from, to) = (from.day_numbers(), to.day_numbers());
    // SAFETY: so many elements lie in each slice, and the one that is written overlaps no other.
    check(unsafe {
        calendar_column_open_days_between_within(
            weekend,
            holidays.as_ptr(),
            holidays.len(),
            *years.start(),
            *years.end(),
            from.as_ptr(),
            from.len(),
            to.as_ptr(),
            to.len(),
            days.as_mut_ptr(),
            days.len(),
        )
    });
    let is_date = |it: i32| Date::from_number(it).is_some();
    let mut rows = from.iter().zip(to).zip(days.iter());
    let is_known =
        rows.all(|((from, to), days)| *days != i64::MIN || !is_date(*from) || !is_date(*to));
    calendar.refuse_unless(is_known)
}

/// Writes the date that each date goes to by a roll, as [`BoundedCalendar::roll`] finds it.
///
/// ```
/// use proved_calendar::{columns, BoundedCalendar, BusinessCalendar, Date, Roll, Weekday, WeekdaySet};
/// let calendar = BusinessCalendar::new(WeekdaySet::from([Weekday::Thu]), &[]).unwrap();
/// let calendar = BoundedCalendar::new(calendar, 1970..=1970);
/// let mut rolled = [0; 1];
/// columns::roll_within(&calendar, &[Date::UNIX_EPOCH], Roll::Following, &mut rolled).unwrap();
/// assert_eq!(rolled, [719_164]);
/// assert!(columns::roll_within(&calendar, &[Date::UNIX_EPOCH], Roll::Preceding, &mut rolled).is_err());
/// ```
#[track_caller]
pub fn roll_within(
    calendar: &BoundedCalendar<'_>,
    dates: &(impl DayNumbers + ?Sized),
    roll: Roll,
    rolled: &mut [i32],
) -> Result<(), YearsError> {
    let ((weekend, holidays), years) = (parts(&calendar.calendar()), calendar.years());
    let dates = dates.day_numbers();
    // SAFETY: so many elements lie in each slice, and the one that is written overlaps no other.
    check(unsafe {
        calendar_column_roll_within(
            weekend,
            holidays.as_ptr(),
            holidays.len(),
            *years.start(),
            *years.end(),
            dates.as_ptr(),
            dates.len(),
            roll as u32,
            rolled.as_mut_ptr(),
            rolled.len(),
        )
    });
    calendar.refuse_unless(all_are_answered(dates, rolled))
}
