/** Dates. */

import { annotation, ISO8601, refuseArgument, refuseOther, withoutAnnotation } from "./calendar.js";
import { daysOf, Duration, durationOf } from "./duration.js";
import { dateOf, library, NONE, readDate, readDateTime, textOfDate } from "./library.js";
import { clipped, integer, isInt32, isUint32, largestUnitOf, optionsOf, overflowOf, whole } from "./numbers.js";
import { PlainDateTime } from "./plain_date_time.js";
import { dateTimeText, forTemporal } from "./texts.js";

/** Tells the constructor that a number follows, which is that of a date. */
const BY_NUMBER = Symbol("by number");

/** The first and the last year of the calendar. */
const [FIRST_YEAR, LAST_YEAR] = [-262_143, 262_142];

/** The units of differences between dates. */
const UNITS = ["year", "month", "week", "day"];

/** What a text in the words of a language has, unless its options say so. */
const DATE_ALONE = { year: "numeric", month: "numeric", day: "numeric" };

/** The options that ask for parts of a date. */
const DATE_PARTS = ["dateStyle", "weekday", ...Object.keys(DATE_ALONE)];

/** From `M01` to `M12`. */
const MONTH_CODE = /^M(0[1-9]|1[0-2])$/;

/** Refuses a calendar other than ISO 8601's, of which an object names its own as `calendar` or `calendarId`. */
function refuseCalendar({ calendar, calendarId }) {
  for (const name of [calendar, calendarId]) {
    if (name !== undefined) {
      refuseOther(name);
    }
  }
}

/** The month that an object names by its number, by its code or, if they agree, by both. */
function monthOf({ month, monthCode }) {
  if (monthCode === undefined) {
    return integer(month, "month");
  }
  const found = MONTH_CODE.exec(monthCode);
  if (!found) {
    throw new RangeError(`monthCode ${monthCode}: it lies from M01 to M12`);
  }
  const named = Number(found[1]);
  if (month !== undefined && integer(month, "month") !== named) {
    throw new RangeError(`month ${month} and monthCode ${monthCode}: they differ`);
  }
  return named;
}

/** The parts of a value's name, some of them replaced, of which a month may be given by its code. */
export function replaced(value, parts, names) {
  const isObject = parts !== null && typeof parts === "object";
  const given = isObject ? ["monthCode", ...names].filter((it) => parts[it] !== undefined) : [];
  if (given.length === 0 || parts.calendar !== undefined || parts.timeZone !== undefined) {
    throw new TypeError(`what replaces parts is an object with one of ${names.join(", ")}, and with no calendar or time zone`);
  }
  refuseCalendar(parts);
  const kept = names.filter((it) => parts[it] === undefined && (it !== "month" || parts.monthCode === undefined));
  return Object.fromEntries([...kept.map((it) => [it, value[it]]), ...given.map((it) => [it, parts[it]])]);
}

/** The number of the date that a text has, also in front of a clock, which has to show a time. */
function dateInText(text) {
  const moment = readDateTime(dateTimeText(withoutAnnotation(text)));
  return moment === undefined ? NONE : dateOf(moment);
}

/** Why there is no such date. */
function refusal(year, month, day) {
  if (year < FIRST_YEAR || year > LAST_YEAR) {
    return `year ${year}: it lies from ${FIRST_YEAR} to ${LAST_YEAR}`;
  }
  if (month < 1 || month > 12) {
    return `month ${month}: it lies from 1 to 12`;
  }
  const days = library.calendar_days_in_month(year, month);
  return `day ${day} of ${year}-${`${month}`.padStart(2, "0")}: the month has ${days} days`;
}

/** The number of the date with a name. */
function numberOf(year, month, day) {
  const isNamed = isInt32(year) && isUint32(month) && isUint32(day);
  const number = isNamed ? library.calendar_from_ymd(year, month, day) : NONE;
  if (number === NONE) {
    throw new RangeError(refusal(year, month, day));
  }
  return number;
}

/**
 * A date of the proleptic Gregorian calendar, from 1 January of year -262143 to 31 December of year 262142, in which
 * the year before year 1 is year 0 (ISO 8601).
 *
 * Names that `Temporal.PlainDate` has too mean the same here. Dates know no calendar but ISO 8601's.
 */
export class PlainDate {
  #number;

  /**
   * The date of a year, a month from 1 to 12 and a day of it; RangeError if there is none, or if the calendar is not
   * `iso8601`.
   */
  constructor(isoYear, isoMonth, isoDay, calendar) {
    refuseArgument(calendar);
    this.#number =
      isoYear === BY_NUMBER
        ? isoMonth
        : numberOf(integer(isoYear, "year"), integer(isoMonth, "month"), integer(isoDay, "day"));
  }

  /** The date that a function of the library answers; RangeError, which says why, if none. */
  static #found(number, why) {
    if (number === NONE) {
      throw new RangeError(why());
    }
    return new PlainDate(BY_NUMBER, number);
  }

  /** The date of a text such as `2024-02-29`, of an object with year, month and day, of a date or of a date-time. */
  static from(item, options) {
    const overflow = overflowOf(options);
    if (typeof item === "string") {
      // (the form that `toString` writes is the library's own)
      const number = item.length === 10 && item[4] === "-" ? readDate(item) : NONE;
      return PlainDate.#found(number === NONE ? dateInText(item) : number, () => `${JSON.stringify(item)}: no text of a date`);
    }
    if (item instanceof PlainDate) {
      return new PlainDate(BY_NUMBER, item.#number);
    }
    if (item instanceof PlainDateTime) {
      return item.toPlainDate();
    }
    if (item === null || typeof item !== "object") {
      throw new TypeError("a date is made of a text, or of an object with year, month and day");
    }
    refuseCalendar(item);
    for (const part of ["year", "month", "day"]) {
      if (item[part] === undefined && (part !== "month" || item.monthCode === undefined)) {
        throw new TypeError(`the ${part} is missing`);
      }
    }
    const [year, month, day] = [integer(item.year, "year"), monthOf(item), integer(item.day, "day")];
    if (overflow === "reject" || !isInt32(year) || month < 1 || day < 1) {
      return new PlainDate(year, month, day);
    }
    const last = clipped(month, 1, 12);
    return new PlainDate(year, last, clipped(day, 1, Math.max(library.calendar_days_in_month(year, last), 1)));
  }

  /** The date of a day number, in which 1 January of year 1 is 1. */
  static fromDayNumber(number) {
    const days = whole(number, "day number");
    const isDate = isInt32(days) && library.calendar_year(days) !== NONE;
    return PlainDate.#found(isDate ? days : NONE, () => `day number ${days}: no date`);
  }

  /** The date of a year and a day of it from 1 to 366 (ISO 8601 ordinal date). */
  static fromDayOfYear(year, dayOfYear) {
    const [named, day] = [whole(year, "year"), whole(dayOfYear, "day of the year")];
    const number = isInt32(named) && isUint32(day) ? library.calendar_from_yo(named, day) : NONE;
    return PlainDate.#found(number, () => `day ${day} of year ${named}: no date`);
  }

  /** The date of an ISO year, a week of it and a weekday from 1 for Monday to 7 (ISO 8601 week date). */
  static fromWeek(yearOfWeek, weekOfYear, dayOfWeek) {
    const [year, week] = [whole(yearOfWeek, "year"), whole(weekOfYear, "week")];
    const weekday = whole(dayOfWeek, "weekday");
    const isNamed = isInt32(year) && isUint32(week) && isUint32(weekday);
    const number = isNamed ? library.calendar_from_isoywd(year, week, weekday) : NONE;
    return PlainDate.#found(number, () => `weekday ${weekday} of week ${week} of year ${year}: no date`);
  }

  /** The n-th day of a month with a weekday, counted from 1. */
  static fromWeekdayOfMonth(year, month, dayOfWeek, n) {
    const [named, ...others] = [year, month, dayOfWeek, n].map((it) => whole(it, "part"));
    const isNamed = isInt32(named) && others.every(isUint32);
    const number = isNamed ? library.calendar_from_weekday_of_month(named, ...others) : NONE;
    const [numbered, weekday, count] = others;
    return PlainDate.#found(number, () => `weekday ${weekday}, number ${count}, of month ${numbered} of ${named}: no date`);
  }

  /** -1 if the first of two dates is the earlier, 1 if it is the later, 0 if they are the same. */
  static compare(one, other) {
    return Math.sign(PlainDate.from(one).#number - PlainDate.from(other).#number);
  }

  /** The calendar that the names belong to. */
  get calendarId() {
    return ISO8601;
  }

  /** The day number, in which 1 January of year 1 is 1. */
  get dayNumber() {
    return this.#number;
  }

  get year() {
    return library.calendar_year(this.#number);
  }

  /** From 1 for January to 12. */
  get month() {
    return library.calendar_month(this.#number);
  }

  /** From `M01` to `M12`. */
  get monthCode() {
    return `M${`${this.month}`.padStart(2, "0")}`;
  }

  /** The day of the month, from 1. */
  get day() {
    return library.calendar_day(this.#number);
  }

  /** The weekday, from 1 for Monday to 7. */
  get dayOfWeek() {
    return library.calendar_weekday(this.#number);
  }

  /** The day of the year, from 1 to 366. */
  get dayOfYear() {
    return library.calendar_ordinal(this.#number);
  }

  /** The ISO week, from 1 to 53. */
  get weekOfYear() {
    return library.calendar_iso_week(this.#number);
  }

  /** The year of the ISO week: that of its Thursday. */
  get yearOfWeek() {
    return library.calendar_iso_year(this.#number);
  }

  get daysInWeek() {
    return 7;
  }

  get daysInMonth() {
    return library.calendar_days_in_month(this.year, this.month);
  }

  get daysInYear() {
    return this.inLeapYear ? 366 : 365;
  }

  get monthsInYear() {
    return 12;
  }

  get inLeapYear() {
    return library.calendar_is_leap_year(this.year) !== 0;
  }

  /** The date with some of year, month and day replaced. */
  with(parts, options) {
    return PlainDate.from(replaced(this, parts, ["year", "month", "day"]), options);
  }

  /**
   * The date so much later: years and months first, which lead to the last day of a shorter month, then weeks and days.
   */
  add(duration, options) {
    const by = Duration.from(duration);
    const overflow = overflowOf(options);
    const why = () => `${this} moved by ${by} lies beyond the calendar`;
    const [months, days] = [by.totalMonths, daysOf(by)];
    const landed = months === 0 ? this : PlainDate.#found(library.calendar_add_months(this.#number, BigInt(months)), why);
    if (overflow === "reject" && landed.day !== this.day) {
      throw new RangeError(`day ${this.day}: the month has ${landed.daysInMonth} days`);
    }
    return PlainDate.#found(library.calendar_add_days(landed.#number, BigInt(days)), why);
  }

  /** The date so much earlier, as `add` of the duration negated. */
  subtract(duration, options) {
    return this.add(Duration.from(duration).negated(), options);
  }

  /** How far it is to another date, in days, or from a larger unit on (`largestUnit`). */
  until(other, options) {
    const end = PlainDate.from(other);
    const unit = largestUnitOf(options, UNITS, "day");
    const months = unit === "year" || unit === "month" ? this.#monthsUntil(end) : 0;
    const days = end.#number - (months === 0 ? this.#number : library.calendar_add_months(this.#number, BigInt(months)));
    const years = unit === "year" ? Math.trunc(months / 12) : 0;
    const weeks = unit === "week" ? Math.trunc(days / 7) : 0;
    return durationOf(years, months - 12 * years, weeks, days - 7 * weeks, 0, 0, 0, 0, 0, 0);
  }

  /** How far it is from another date, as `until` negated. */
  since(other, options) {
    return this.until(other, options).negated();
  }

  /** The whole months to another date. */
  #monthsUntil(end) {
    const sign = PlainDate.compare(end, this);
    const months = 12 * (end.year - this.year) + end.month - this.month;
    return sign * (this.day - end.day) > 0 ? months - sign : months;
  }

  /** The date `index` times so many months later in one move, so that a 31st comes back after a shorter month. */
  everyMonths(months, index) {
    const [step, count] = [whole(months, "months"), whole(index, "index")];
    const number = isInt32(step) && isUint32(count) ? library.calendar_every_months(this.#number, step, count) : NONE;
    return PlainDate.#found(number, () => `${this} moved by ${count} times ${step} months lies beyond the calendar`);
  }

  /** The whole years since an earlier date; RangeError if it is later. From 29 February they are whole on 1 March. */
  yearsSince(base) {
    const from = PlainDate.from(base);
    const years = library.calendar_years_since(this.#number, from.#number);
    if (years === NONE) {
      throw new RangeError(`${this} comes before ${from}`);
    }
    return years;
  }

  /** The first day of this date's week, where weeks begin on a weekday from 1 for Monday to 7. */
  firstOfWeek(start = 1) {
    const weekday = whole(start, "weekday");
    const number = isUint32(weekday) ? library.calendar_week_first_day(this.#number, weekday) : NONE;
    return PlainDate.#found(number, () => `the week of ${this} from weekday ${weekday}: no date`);
  }

  /** The first date from this one on, itself counted, that falls on one of the weekdays. */
  firstOn(...daysOfWeek) {
    const number = library.calendar_first_on(this.#number, setOf(daysOfWeek));
    return PlainDate.#found(number, () => `no date from ${this} on falls on ${daysOfWeek.join(", ") || "no weekday"}`);
  }

  /** Whether it is the same date. */
  equals(other) {
    return this.#number === PlainDate.from(other).#number;
  }

  /** The date-time at a time of this date, which is midnight if none is given. */
  toPlainDateTime(time) {
    const midnight = PlainDateTime.from(this);
    return time === undefined ? midnight : midnight.with(timeOf(time));
  }

  /**
   * The text of ISO 8601, such as `2024-02-29`; a year below 0 or above 9999 has a sign and six digits. The option
   * `calendarName` asks for the calendar behind it: "always" writes `2024-02-29[u-ca=iso8601]`.
   */
  toString(options) {
    const calendar = annotation(options);
    return forTemporal(textOfDate(this.#number)) + calendar;
  }

  toJSON() {
    return this.toString();
  }

  /** The text in the words of a language, by the host's `Intl.DateTimeFormat`. */
  toLocaleString(locales, options) {
    const asked = optionsOf(options);
    if (asked.timeStyle !== undefined) {
      throw new TypeError("timeStyle: a date has no time");
    }
    const isNamed = DATE_PARTS.some((it) => asked[it] !== undefined);
    return PlainDateTime.from(this).toLocaleString(locales, isNamed ? asked : { ...DATE_ALONE, ...asked });
  }

  /** Dates are compared by `PlainDate.compare`. */
  valueOf() {
    throw new TypeError("dates are compared by PlainDate.compare");
  }

  get [Symbol.toStringTag]() {
    return "PlainDate";
  }

  [Symbol.for("nodejs.util.inspect.custom")]() {
    return `PlainDate ${this}`;
  }
}

/** The parts of a time of day that an object has; TypeError if it has none. */
function timeOf(time) {
  const parts = ["hour", "minute", "second", "millisecond", "microsecond", "nanosecond"];
  const given = time !== null && typeof time === "object" ? parts.filter((it) => time[it] !== undefined) : [];
  if (given.length === 0) {
    throw new TypeError("a time of day is an object with hour, minute or a shorter part");
  }
  return Object.fromEntries(given.map((it) => [it, time[it]]));
}

/** The set of weekdays as the library has it: one binary digit for each. */
export function setOf(daysOfWeek) {
  return daysOfWeek.reduce((set, it) => {
    const weekday = whole(it, "weekday");
    if (weekday < 1 || weekday > 7) {
      throw new RangeError(`weekday ${weekday}: it lies from 1 to 7`);
    }
    return set | (1 << (weekday - 1));
  }, 0);
}

/** Whether a year, which may lie beyond those of dates, has 366 days. */
export function isLeapYear(year) {
  const named = whole(year, "year");
  if (!isInt32(named)) {
    throw new RangeError(`year ${named}: it has more than 32 bits`);
  }
  return library.calendar_is_leap_year(named) !== 0;
}

/** The days from a weekday on to the first of some weekdays, 0 to 6; undefined if there are none of them. */
export function daysUntil(dayOfWeek, ...daysOfWeek) {
  const days = library.calendar_days_until(setOf(daysOfWeek), Math.log2(setOf([dayOfWeek])) + 1);
  return days === NONE ? undefined : days;
}
