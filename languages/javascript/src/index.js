/**
 * The calendar, by functions that are proved: dates, date-times and durations with the names of Temporal, and layers above them.
 */

export { BusinessCalendar, dayCount, easter } from "./business_calendar.js";
export { CalendarText } from "./calendar_text.js";
export * as columns from "./columns.js";
export { Duration } from "./duration.js";
export { Instant } from "./instant.js";
export { version } from "./layers.js";
export { Pattern } from "./pattern.js";
export { daysUntil, isLeapYear, PlainDate } from "./plain_date.js";
export { PlainDateTime } from "./plain_date_time.js";
export { Rule } from "./rule.js";
export { RuleSet } from "./rule_set.js";
export { Schedule } from "./schedule.js";
export { TextError } from "./text_error.js";
export { TimedSchedule } from "./timed_schedule.js";
export { Zone } from "./zone.js";
export { ZonedDateTime } from "./zoned_date_time.js";
