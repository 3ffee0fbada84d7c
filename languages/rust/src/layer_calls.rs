//! The functions of `calendar_layers.h`.

use crate::calls::Moment;

/// `calendar_fault`.
#[repr(C)]
#[derive(Clone, Copy, Debug, PartialEq, Eq, Hash)]
pub(crate) struct Fault {
    pub(crate) code: u32,
    pub(crate) field: u32,
    pub(crate) byte: usize,
    pub(crate) end: usize,
}

impl Fault {
    /// Nothing is wrong.
    pub(crate) const NONE: Fault = Fault {
        code: 0,
        field: 0,
        byte: 0,
        end: 0,
    };
}

/// `calendar_schedule`: its ten sets, in their order.
#[repr(C)]
#[derive(Clone, Copy, Debug, PartialEq, Eq, Hash)]
pub(crate) struct Sets(pub(crate) [u64; 10]);

/// `calendar_fraction`.
#[repr(C)]
#[derive(Clone, Copy, Debug, PartialEq, Eq, Hash)]
pub(crate) struct Quotient {
    pub(crate) numerator: i64,
    pub(crate) denominator: i64,
}

/// `calendar_offsets`.
#[cfg(feature = "alloc")]
#[repr(C)]
#[derive(Clone, Copy, Debug, PartialEq, Eq, Hash)]
pub(crate) struct Offsets {
    pub(crate) count: u32,
    pub(crate) earlier: i32,
    pub(crate) later: i32,
}

/// `calendar_zoned`.
#[cfg_attr(not(feature = "alloc"), allow(dead_code))]
#[repr(C)]
#[derive(Clone, Copy, Debug, PartialEq, Eq, Hash)]
pub(crate) struct Zoned {
    pub(crate) seconds: i64,
    pub(crate) nanos: u32,
    pub(crate) offset: i32,
}

// As in `calls`: a function is safe if it takes no pointer but references. Of one that takes a pointer, so many elements have to
// lie there as the next argument says.
unsafe extern "C" {
    pub(crate) fn calendar_schedule_read(
        text: *const u8,
        length: usize,
        schedule: &mut Sets,
        fault: &mut Fault,
    ) -> bool;
    pub(crate) fn calendar_schedule_fault_text(fault: &Fault, text: *mut u8, room: usize) -> i32;
    pub(crate) safe fn calendar_schedule_next(schedule: &Sets, start: Moment) -> Moment;
    pub(crate) safe fn calendar_schedule_prev(schedule: &Sets, start: Moment) -> Moment;
    pub(crate) safe fn calendar_schedule_is_due(schedule: &Sets, moment: Moment) -> bool;
    pub(crate) fn calendar_schedule_due(
        schedule: &Sets,
        start: Moment,
        until: Moment,
        out: *mut Moment,
        room: usize,
    ) -> usize;
    pub(crate) fn calendar_is_open_day(
        weekend: u8,
        holidays: *const i32,
        count: usize,
        date: i32,
    ) -> bool;
    pub(crate) fn calendar_add_open_days(
        weekend: u8,
        holidays: *const i32,
        count: usize,
        date: i32,
        n: i64,
    ) -> i32;
    pub(crate) fn calendar_open_days_between(
        weekend: u8,
        holidays: *const i32,
        count: usize,
        from: i32,
        to: i32,
    ) -> i64;
    pub(crate) fn calendar_roll(
        weekend: u8,
        holidays: *const i32,
        count: usize,
        date: i32,
        roll: u32,
    ) -> i32;
    pub(crate) fn calendar_holidays_check(
        weekend: u8,
        holidays: *const i32,
        count: usize,
        fault: &mut Fault,
    ) -> bool;
    pub(crate) fn calendar_holidays_fault_text(fault: &Fault, text: *mut u8, room: usize) -> i32;
    pub(crate) fn calendar_holidays_of(
        which: u32,
        first_year: i32,
        last_year: i32,
        weekend: u8,
        out: *mut i32,
        room: usize,
    ) -> i32;
    pub(crate) safe fn calendar_holidays_first_year(which: u32) -> i32;
    pub(crate) fn calendar_is_open_day_within(
        weekend: u8,
        holidays: *const i32,
        count: usize,
        first_year: i32,
        last_year: i32,
        date: i32,
    ) -> i32;
    pub(crate) fn calendar_add_open_days_within(
        weekend: u8,
        holidays: *const i32,
        count: usize,
        first_year: i32,
        last_year: i32,
        date: i32,
        n: i64,
    ) -> i32;
    pub(crate) fn calendar_open_days_between_within(
        weekend: u8,
        holidays: *const i32,
        count: usize,
        first_year: i32,
        last_year: i32,
        from: i32,
        to: i32,
    ) -> i64;
    pub(crate) fn calendar_roll_within(
        weekend: u8,
        holidays: *const i32,
        count: usize,
        first_year: i32,
        last_year: i32,
        date: i32,
        roll: u32,
    ) -> i32;
    pub(crate) safe fn calendar_easter(year: i32) -> i32;
    pub(crate) fn calendar_column_is_open_day(
        weekend: u8,
        holidays: *const i32,
        count: usize,
        dates: *const i32,
        dates_length: usize,
        marks: *mut u8,
        marks_length: usize,
    ) -> bool;
    pub(crate) fn calendar_column_add_open_days(
        weekend: u8,
        holidays: *const i32,
        count: usize,
        dates: *const i32,
        dates_length: usize,
        n: i64,
        moved: *mut i32,
        moved_length: usize,
    ) -> bool;
    pub(crate) fn calendar_column_open_days_between(
        weekend: u8,
        holidays: *const i32,
        count: usize,
        from: *const i32,
        from_length: usize,
        to: *const i32,
        to_length: usize,
        days: *mut i64,
        days_length: usize,
    ) -> bool;
    pub(crate) fn calendar_column_roll(
        weekend: u8,
        holidays: *const i32,
        count: usize,
        dates: *const i32,
        dates_length: usize,
        roll: u32,
        rolled: *mut i32,
        rolled_length: usize,
    ) -> bool;
    pub(crate) fn calendar_column_is_open_day_within(
        weekend: u8,
        holidays: *const i32,
        count: usize,
        first_year: i32,
        last_year: i32,
        dates: *const i32,
        dates_length: usize,
        marks: *mut u8,
        marks_length: usize,
    ) -> bool;
    pub(crate) fn calendar_column_add_open_days_within(
        weekend: u8,
        holidays: *const i32,
        count: usize,
        first_year: i32,
        last_year: i32,
        dates: *const i32,
        dates_length: usize,
        n: i64,
        moved: *mut i32,
        moved_length: usize,
    ) -> bool;
    pub(crate) fn calendar_column_open_days_between_within(
        weekend: u8,
        holidays: *const i32,
        count: usize,
        first_year: i32,
        last_year: i32,
        from: *const i32,
        from_length: usize,
        to: *const i32,
        to_length: usize,
        days: *mut i64,
        days_length: usize,
    ) -> bool;
    pub(crate) fn calendar_column_roll_within(
        weekend: u8,
        holidays: *const i32,
        count: usize,
        first_year: i32,
        last_year: i32,
        dates: *const i32,
        dates_length: usize,
        roll: u32,
        rolled: *mut i32,
        rolled_length: usize,
    ) -> bool;
    pub(crate) fn calendar_column_from_date32(
        days: *const i32,
        days_length: usize,
        dates: *mut i32,
        dates_length: usize,
    ) -> bool;
    pub(crate) fn calendar_column_to_date32(
        dates: *const i32,
        dates_length: usize,
        days: *mut i32,
        days_length: usize,
    ) -> bool;
    pub(crate) safe fn calendar_day_count(kind: u32, from: i32, to: i32) -> Quotient;
}

// What only types with texts and lists call.
#[cfg(feature = "alloc")]
unsafe extern "C" {
    pub(crate) fn calendar_rule_check(text: *const u8, length: usize, fault: &mut Fault) -> bool;
    pub(crate) fn calendar_rule_fault_text(fault: &Fault, text: *mut u8, room: usize) -> i32;
    pub(crate) fn calendar_rule_next(text: *const u8, length: usize, start: i32, day: i32) -> i32;
    pub(crate) fn calendar_rule_prev(text: *const u8, length: usize, start: i32, day: i32) -> i32;
    pub(crate) fn calendar_rule_is_instance(
        text: *const u8,
        length: usize,
        start: i32,
        day: i32,
    ) -> bool;
    pub(crate) fn calendar_rule_instances(
        text: *const u8,
        length: usize,
        start: i32,
        from: i32,
        until: i32,
        out: *mut i32,
        room: usize,
    ) -> usize;
    pub(crate) fn calendar_pattern_check(
        pattern: *const u8,
        length: usize,
        fault: &mut Fault,
    ) -> bool;
    pub(crate) fn calendar_format_date(
        pattern: *const u8,
        length: usize,
        date: i32,
        text: *mut u8,
        room: usize,
    ) -> i32;
    pub(crate) fn calendar_format_date_time(
        pattern: *const u8,
        length: usize,
        moment: Moment,
        text: *mut u8,
        room: usize,
    ) -> i32;
    pub(crate) fn calendar_parse_date(
        pattern: *const u8,
        length: usize,
        text: *const u8,
        text_length: usize,
        fault: &mut Fault,
    ) -> i32;
    pub(crate) fn calendar_parse_date_time(
        pattern: *const u8,
        length: usize,
        text: *const u8,
        text_length: usize,
        fault: &mut Fault,
    ) -> Moment;
    pub(crate) fn calendar_pattern_names_offset(pattern: *const u8, length: usize) -> bool;
    pub(crate) fn calendar_parse_zoned(
        pattern: *const u8,
        length: usize,
        text: *const u8,
        text_length: usize,
        fault: &mut Fault,
    ) -> Zoned;
    pub(crate) fn calendar_pattern_fault_text(fault: &Fault, text: *mut u8, room: usize) -> i32;
    pub(crate) fn calendar_zone_check(zone: *const u8, length: usize, fault: &mut Fault) -> bool;
    pub(crate) fn calendar_zone_fault_text(fault: &Fault, text: *mut u8, room: usize) -> i32;
    pub(crate) fn calendar_zone_offset_at(zone: *const u8, length: usize, second: i64) -> i32;
    pub(crate) fn calendar_zone_offsets_of_local(
        zone: *const u8,
        length: usize,
        local: i64,
    ) -> Offsets;
    pub(crate) fn calendar_zone_holds_until(zone: *const u8, length: usize, second: i64) -> i64;
    pub(crate) fn calendar_zone_schedule_next(
        schedule: &Sets,
        zone: *const u8,
        length: usize,
        start: Moment,
    ) -> Moment;
    pub(crate) fn calendar_zone_schedule_prev(
        schedule: &Sets,
        zone: *const u8,
        length: usize,
        start: Moment,
    ) -> Moment;
    pub(crate) fn calendar_text_check(
        text: *const u8,
        length: usize,
        zone: *const u8,
        zone_length: usize,
        fault: &mut Fault,
    ) -> bool;
    pub(crate) fn calendar_text_fault_text(fault: &Fault, text: *mut u8, room: usize) -> i32;
    pub(crate) fn calendar_text_zone(
        text: *const u8,
        length: usize,
        name: *mut u8,
        room: usize,
    ) -> i32;
    pub(crate) fn calendar_text_next(
        text: *const u8,
        length: usize,
        zone: *const u8,
        zone_length: usize,
        start: Moment,
    ) -> Moment;
    pub(crate) fn calendar_text_prev(
        text: *const u8,
        length: usize,
        zone: *const u8,
        zone_length: usize,
        start: Moment,
    ) -> Moment;
    pub(crate) fn calendar_text_is_instance(
        text: *const u8,
        length: usize,
        zone: *const u8,
        zone_length: usize,
        moment: Moment,
    ) -> bool;
    pub(crate) fn calendar_text_instances(
        text: *const u8,
        length: usize,
        zone: *const u8,
        zone_length: usize,
        start: Moment,
        until: Moment,
        out: *mut Moment,
        room: usize,
    ) -> usize;
    pub(crate) fn calendar_timed_schedule_check(
        text: *const u8,
        length: usize,
        dialect: u32,
        fault: &mut Fault,
    ) -> bool;
    pub(crate) fn calendar_timed_schedule_fault_text(
        fault: &Fault,
        text: *mut u8,
        room: usize,
    ) -> i32;
    pub(crate) fn calendar_timed_schedule_next(
        text: *const u8,
        length: usize,
        dialect: u32,
        start: Moment,
    ) -> Moment;
    pub(crate) fn calendar_timed_schedule_prev(
        text: *const u8,
        length: usize,
        dialect: u32,
        start: Moment,
    ) -> Moment;
    pub(crate) fn calendar_timed_schedule_is_due(
        text: *const u8,
        length: usize,
        dialect: u32,
        moment: Moment,
    ) -> bool;
}
