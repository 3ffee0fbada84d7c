//! The functions of `calendar.h`.

/// `CALENDAR_NONE`.
pub(crate) const NONE: i32 = i32::MIN;

/// `CALENDAR_MIN`.
pub(crate) const MIN: i32 = -95_746_129;

/// `CALENDAR_MAX`.
pub(crate) const MAX: i32 = 95_745_399;

/// `CALENDAR_UNIX_EPOCH`.
pub(crate) const UNIX_EPOCH: i32 = 719_163;

/// `CALENDAR_NO_NANOS`.
pub(crate) const NO_NANOS: u32 = u32::MAX;

/// `calendar_date_time`.
#[repr(C)]
#[derive(Clone, Copy, Debug, PartialEq, Eq, PartialOrd, Ord, Hash)]
pub(crate) struct Moment {
    pub(crate) seconds: i64,
    pub(crate) nanos: u32,
}

/// `calendar_duration`.
#[repr(C)]
#[derive(Clone, Copy, Debug, PartialEq, Eq, PartialOrd, Ord, Hash)]
pub(crate) struct Span {
    pub(crate) seconds: i64,
    pub(crate) nanos: u32,
}

/// `calendar_ymd`.
#[repr(C)]
#[derive(Clone, Copy, Debug, PartialEq, Eq, PartialOrd, Ord, Hash)]
pub(crate) struct Ymd {
    pub(crate) year: i32,
    pub(crate) month: u8,
    pub(crate) day: u8,
}

// A function is safe if it takes no pointer: it answers for all arguments of its types. Of one that takes a pointer, so
// many bytes have to lie there as the next argument says.
unsafe extern "C" {
    pub(crate) safe fn calendar_from_ymd(year: i32, month: u32, day: u32) -> i32;
    pub(crate) safe fn calendar_from_yo(year: i32, ordinal: u32) -> i32;
    pub(crate) safe fn calendar_from_isoywd(year: i32, week: u32, weekday: u32) -> i32;
    pub(crate) safe fn calendar_from_weekday_of_month(
        year: i32,
        month: u32,
        weekday: u32,
        n: u32,
    ) -> i32;
    pub(crate) safe fn calendar_year(date: i32) -> i32;
    pub(crate) safe fn calendar_month(date: i32) -> i32;
    pub(crate) safe fn calendar_day(date: i32) -> i32;
    pub(crate) safe fn calendar_ordinal(date: i32) -> i32;
    pub(crate) safe fn calendar_weekday(date: i32) -> i32;
    pub(crate) safe fn calendar_iso_year(date: i32) -> i32;
    pub(crate) safe fn calendar_iso_week(date: i32) -> i32;
    pub(crate) safe fn calendar_is_leap_year(year: i32) -> bool;
    pub(crate) safe fn calendar_days_in_month(year: i32, month: u32) -> i32;
    pub(crate) safe fn calendar_add_days(date: i32, days: i64) -> i32;
    pub(crate) safe fn calendar_add_months(date: i32, months: i64) -> i32;
    pub(crate) safe fn calendar_every_months(start: i32, months: i32, index: u32) -> i32;
    pub(crate) safe fn calendar_years_since(date: i32, base: i32) -> i32;
    pub(crate) safe fn calendar_week_first_day(date: i32, start: u32) -> i32;
    pub(crate) safe fn calendar_first_on(date: i32, weekdays: u8) -> i32;
    pub(crate) safe fn calendar_days_until(weekdays: u8, from: u32) -> i32;
    pub(crate) fn calendar_write_date(date: i32, text: *mut u8, room: usize) -> i32;
    pub(crate) fn calendar_read_date(text: *const u8, length: usize) -> i32;
    pub(crate) safe fn calendar_date_time_new(date: i32, second_of_day: u32, nanos: u32) -> Moment;
    pub(crate) safe fn calendar_date_time_date(moment: Moment) -> i32;
    pub(crate) safe fn calendar_date_time_second_of_day(moment: Moment) -> i32;
    pub(crate) safe fn calendar_date_time_add(moment: Moment, by: Span) -> Moment;
    pub(crate) safe fn calendar_date_time_since(moment: Moment, base: Moment) -> Span;
    pub(crate) fn calendar_write_date_time(moment: Moment, text: *mut u8, room: usize) -> i32;
    pub(crate) fn calendar_read_date_time(text: *const u8, length: usize) -> Moment;
    pub(crate) safe fn calendar_split(date: i32) -> Ymd;
    pub(crate) fn calendar_column_weekdays(
        dates: *const i32,
        dates_length: usize,
        weekdays: *mut u8,
        weekdays_length: usize,
    ) -> bool;
    pub(crate) fn calendar_column_years(
        dates: *const i32,
        dates_length: usize,
        years: *mut i32,
        years_length: usize,
    ) -> bool;
    pub(crate) fn calendar_column_ordinals(
        dates: *const i32,
        dates_length: usize,
        ordinals: *mut u16,
        ordinals_length: usize,
    ) -> bool;
    pub(crate) fn calendar_column_split(
        dates: *const i32,
        dates_length: usize,
        years: *mut i32,
        years_length: usize,
        months: *mut u8,
        months_length: usize,
        days: *mut u8,
        days_length: usize,
    ) -> bool;
    pub(crate) fn calendar_column_iso_weeks(
        dates: *const i32,
        dates_length: usize,
        years: *mut i32,
        years_length: usize,
        weeks: *mut u8,
        weeks_length: usize,
    ) -> bool;
    pub(crate) fn calendar_column_join(
        years: *const i32,
        years_length: usize,
        months: *const u8,
        months_length: usize,
        days: *const u8,
        days_length: usize,
        dates: *mut i32,
        dates_length: usize,
    ) -> bool;
    pub(crate) fn calendar_column_add_days(
        dates: *const i32,
        dates_length: usize,
        days: i32,
        moved: *mut i32,
        moved_length: usize,
    ) -> bool;
    pub(crate) fn calendar_column_add_days_in_place(
        dates: *mut i32,
        dates_length: usize,
        days: i32,
    );
    pub(crate) fn calendar_column_add_days_each(
        dates: *const i32,
        dates_length: usize,
        days: *const i32,
        days_length: usize,
        moved: *mut i32,
        moved_length: usize,
    ) -> bool;
    pub(crate) fn calendar_column_add_days_each_in_place(
        dates: *mut i32,
        dates_length: usize,
        days: *const i32,
        days_length: usize,
    ) -> bool;
    pub(crate) fn calendar_column_add_months(
        dates: *const i32,
        dates_length: usize,
        months: i32,
        moved: *mut i32,
        moved_length: usize,
    ) -> bool;
    pub(crate) fn calendar_column_add_months_in_place(
        dates: *mut i32,
        dates_length: usize,
        months: i32,
    );
    pub(crate) fn calendar_column_days_between(
        dates: *const i32,
        dates_length: usize,
        bases: *const i32,
        bases_length: usize,
        days: *mut i32,
        days_length: usize,
    ) -> bool;
    pub(crate) fn calendar_column_first_on(
        dates: *const i32,
        dates_length: usize,
        weekdays: u8,
        found: *mut i32,
        found_length: usize,
    ) -> bool;
    pub(crate) fn calendar_column_from_unix_days(
        days: *const i64,
        days_length: usize,
        dates: *mut i32,
        dates_length: usize,
    ) -> bool;
    pub(crate) fn calendar_column_to_unix_days(
        dates: *const i32,
        dates_length: usize,
        days: *mut i64,
        days_length: usize,
    ) -> bool;
    pub(crate) fn calendar_column_write_dates(
        dates: *const i32,
        dates_length: usize,
        texts: *mut u8,
        texts_length: usize,
    ) -> bool;
    pub(crate) fn calendar_column_read_dates(
        texts: *const u8,
        texts_length: usize,
        dates: *mut i32,
        dates_length: usize,
    ) -> bool;
    pub(crate) fn calendar_column_count_dates(dates: *const i32, dates_length: usize) -> usize;
}
