/** Dates with a time of day. */

import { annotation, refuseArgument, withoutAnnotation } from "./calendar.js";
import { Duration, secondsOf } from "./duration.js";
import { dateOf, dateTimeAt, distance, moved, NONE, readDateTime, secondOfDayOf, textOfDateTime } from "./library.js";
import { between, clipped, integer, largestUnitOf, optionsOf, overflowOf, refuseRounding, whole } from "./numbers.js";
import { PlainDate, replaced } from "./plain_date.js";
import { incrementOf, modeOf, NANOSECONDS, roundedCount, unitOf } from "./rounding.js";
import { dateTimeText, forTemporal } from "./texts.js";

/** Tells the constructor that the two numbers follow that a date-time is. */
const BY_NUMBERS = Symbol("by numbers");

/** The nanoseconds of a second. */
const SECOND = 1_000_000_000;

/** The parts of a time of day, and the greatest number of each; the second 60 is a leap second. */
const TIME = { hour: 23, minute: 59, second: 60, millisecond: 999, microsecond: 999, nanosecond: 999 };

/** What a text in the words of a language shows, unless its options ask for parts. */
const SHOWN = { year: "numeric", month: "numeric", day: "numeric", hour: "numeric", minute: "numeric", second: "numeric" };

/** The options that ask for parts. */
const SHOWN_PARTS = ["dateStyle", "timeStyle", "weekday", "dayPeriod", "fractionalSecondDigits", ...Object.keys(SHOWN)];

/** The units of differences between date-times. */
const UNITS = ["day", "hour", "minute", "second", "millisecond", "microsecond", "nanosecond"];

/** The two numbers of the date-time at a time of a date. */
function momentAt(date, time) {
  const [hour, minute, second, milli, micro, nano] = Object.keys(TIME).map((it) => between(time[it] ?? 0, it, 0, TIME[it]));
  const nanos = 1_000_000 * milli + 1_000 * micro + nano;
  // (a leap second follows the second 59, and its nanoseconds are counted on from there)
  const leap = second === 60 ? 1 : 0;
  const moment = dateTimeAt(date.dayNumber, 3_600 * hour + 60 * minute + second - leap, nanos + leap * SECOND);
  if (moment === undefined) {
    throw new RangeError(`${date} has no such time`);
  }
  return moment;
}

/** The two numbers that a date-time is: seconds since 1970 as a BigInt, and nanoseconds past them. */
export let momentOf;

/** The date-time of such numbers. */
export let dateTimeOf;

/**
 * A date with a time of day, to the nanosecond, in no time zone.
 *
 * Names that `Temporal.PlainDateTime` has too mean the same here, but that a time may lie in a leap second, the second
 * 60 of a minute, which Temporal does not know. From there a move goes on a line that holds this leap second and no
 * other.
 */
export class PlainDateTime {
  #moment;
  #date;

  static {
    momentOf = (dateTime) => dateTime.#moment;
    dateTimeOf = (moment) => new PlainDateTime(BY_NUMBERS, moment);
  }

  /**
   * The date-time of a date and what a clock shows, 60 being the leap second that follows 59; RangeError if there is
   * none, or if the calendar is not `iso8601`.
   */
  constructor(isoYear, isoMonth, isoDay, hour, minute, second, millisecond, microsecond, nanosecond, calendar) {
    refuseArgument(calendar);
    if (isoYear === BY_NUMBERS) {
      this.#moment = isoMonth;
    } else {
      const time = { hour, minute, second, millisecond, microsecond, nanosecond };
      this.#moment = momentAt(new PlainDate(isoYear, isoMonth, isoDay), time);
    }
  }

  /** The date-time that a function of the library answers; RangeError, which says why, if none. */
  static #found(moment, why) {
    if (moment === undefined) {
      throw new RangeError(why());
    }
    return new PlainDateTime(BY_NUMBERS, moment);
  }

  /**
   * The date-time of a text such as `2024-02-29T12:00:00.5`, of an object with year, month, day and parts of a time, of
   * a date-time, or of a date, whose midnight it is.
   */
  static from(item, options) {
    const isRejected = overflowOf(options) === "reject";
    if (typeof item === "string") {
      return PlainDateTime.#read(item);
    }
    if (item instanceof PlainDateTime) {
      return new PlainDateTime(BY_NUMBERS, item.#moment);
    }
    const date = PlainDate.from(item, options);
    const time = {};
    for (const [part, most] of Object.entries(TIME)) {
      const number = integer(item[part] ?? 0, part);
      const last = part === "second" && number !== 60 ? 59 : most;
      time[part] = isRejected ? number : clipped(number, 0, last);
    }
    return new PlainDateTime(BY_NUMBERS, momentAt(date, time));
  }

  static #read(text) {
    // (the form that `toString` writes is the library's own)
    const moment = (text[4] === "-" ? readDateTime(text) : undefined) ?? readDateTime(dateTimeText(withoutAnnotation(text)));
    return PlainDateTime.#found(moment, () => `${JSON.stringify(text)}: no text of a date-time`);
  }

  /**
   * The date-time with these seconds since 1970-01-01T00:00:00, leap seconds not counted, and nanoseconds past them, of
   * which 1,000,000,000 and more lie in the leap second that follows.
   */
  static fromUnix(seconds, nanoseconds = 0) {
    const counted = between(whole(seconds, "seconds"), "seconds", Number.MIN_SAFE_INTEGER, Number.MAX_SAFE_INTEGER);
    const moment = { seconds: BigInt(counted), nanos: between(whole(nanoseconds, "nanoseconds"), "nanoseconds", 0, 2 * SECOND - 1) };
    const why = () => `${counted} seconds and ${moment.nanos} nanoseconds since 1970: no date-time`;
    return PlainDateTime.#found(dateOf(moment) === NONE ? undefined : moment, why);
  }

  /**
   * -1 if the first of two date-times is the earlier by date and then by time of day, 1 if it is the later, 0 if
   * neither.
   */
  static compare(one, other) {
    const [first, second] = [PlainDateTime.from(one).#moment, PlainDateTime.from(other).#moment];
    const seconds = Number(first.seconds - second.seconds);
    return Math.sign(seconds === 0 ? first.nanos - second.nanos : seconds);
  }

  /** The seconds since 1970-01-01T00:00:00, leap seconds not counted. */
  get unixSeconds() {
    return Number(this.#moment.seconds);
  }

  /** The nanoseconds past them; 1,000,000,000 and more lie in the leap second that follows. */
  get unixNanoseconds() {
    return this.#moment.nanos;
  }

  /** The date. */
  toPlainDate() {
    this.#date ??= PlainDate.fromDayNumber(dateOf(this.#moment));
    return this.#date;
  }

  get #secondOfDay() {
    return secondOfDayOf(this.#moment);
  }

  get hour() {
    return Math.trunc(this.#secondOfDay / 3_600);
  }

  get minute() {
    return Math.trunc(this.#secondOfDay / 60) % 60;
  }

  /** From 0 to 59; 60 in a leap second. */
  get second() {
    return (this.#secondOfDay % 60) + (this.#moment.nanos >= SECOND ? 1 : 0);
  }

  get millisecond() {
    return Math.trunc(this.#moment.nanos / 1_000_000) % 1_000;
  }

  get microsecond() {
    return Math.trunc(this.#moment.nanos / 1_000) % 1_000;
  }

  get nanosecond() {
    return this.#moment.nanos % 1_000;
  }

  /** The date-time with some parts of its name replaced. */
  with(parts, options) {
    return PlainDateTime.from(replaced(this, parts, ["year", "month", "day", ...Object.keys(TIME)]), options);
  }

  /**
   * The date-time so much later: years and months first, which lead to the last day of a shorter month, then all other
   * units.
   */
  add(duration, options) {
    const by = Duration.from(duration);
    const landed = this.#monthsLater(by.totalMonths, options);
    return PlainDateTime.#found(moved(landed, secondsOf(by)), () => `${this} moved by ${by} lies beyond the calendar`);
  }

  #monthsLater(months, options) {
    if (months === 0) {
      overflowOf(options);
      return this.#moment;
    }
    const date = this.toPlainDate().add({ months }, options);
    return dateTimeAt(date.dayNumber, this.#secondOfDay, this.#moment.nanos);
  }

  /** The date-time so much earlier, as `add` of the duration negated. */
  subtract(duration, options) {
    return this.add(Duration.from(duration).negated(), options);
  }

  /**
   * How far it is to another date-time, in days of 24 hours and shorter units, or from a shorter unit on
   * (`largestUnit`).
   */
  until(other, options) {
    return PlainDateTime.from(other).since(this, options);
  }

  /**
   * How far it is from another date-time. A leap second counts if one of both lies in it and has the smaller second of
   * the day.
   */
  since(other, options) {
    const unit = largestUnitOf(options, UNITS, "day");
    const { seconds, nanos } = distance(this.#moment, PlainDateTime.from(other).#moment);
    return Duration.fromNanoseconds(seconds * BigInt(SECOND) + BigInt(nanos), unit);
  }

  /**
   * The date-time at a whole multiple of a unit (`smallestUnit`, `roundingIncrement`), counted from midnight. It is the
   * nearest one, and the later of two that are as near, unless `roundingMode` asks for another. A leap second is
   * rounded as the last nanosecond of the second 59.
   */
  round(options) {
    const given = typeof options === "string" ? { smallestUnit: options } : optionsOf(options ?? null);
    const unit = unitOf(given.smallestUnit, "smallestUnit", Object.keys(NANOSECONDS));
    const increment = incrementOf(given, unit, false);
    const nanos = Math.min(this.#moment.nanos, SECOND - 1);
    const length = increment * NANOSECONDS[unit];
    const ofDay = length * roundedCount(this.#secondOfDay * SECOND + nanos, length, modeOf(given, "halfExpand"));
    const second = Math.floor(ofDay / SECOND);
    const isNextDay = second === 86_400;
    const date = dateOf(this.#moment) + (isNextDay ? 1 : 0);
    const moment = dateTimeAt(date, isNextDay ? 0 : second, ofDay - second * SECOND);
    return PlainDateTime.#found(moment, () => `${this} rounded to the ${unit} lies beyond the calendar`);
  }

  /** Whether it is the same date-time. */
  equals(other) {
    return PlainDateTime.compare(this, other) === 0;
  }

  /** The text of ISO 8601, such as `2024-02-29T12:00:00.5`; a year below 0 or above 9999 has a sign and six digits. */
  toString(options) {
    refuseRounding(options, "texts");
    const calendar = annotation(options);
    return forTemporal(textOfDateTime(this.#moment)) + calendar;
  }

  toJSON() {
    return this.toString();
  }

  /** The text in the words of a language, by the host's `Intl.DateTimeFormat`; a leap second is shown as 59. */
  toLocaleString(locales, options) {
    const milliseconds = 1_000 * this.unixSeconds + Math.min(Math.trunc(this.#moment.nanos / 1_000_000), 999);
    const asked = optionsOf(options);
    const isNamed = SHOWN_PARTS.some((it) => asked[it] !== undefined);
    return new Intl.DateTimeFormat(locales, { ...(isNamed ? {} : SHOWN), ...asked, timeZone: "UTC" }).format(milliseconds);
  }

  /** Date-times are compared by `PlainDateTime.compare`. */
  valueOf() {
    throw new TypeError("date-times are compared by PlainDateTime.compare");
  }

  get [Symbol.toStringTag]() {
    return "PlainDateTime";
  }

  [Symbol.for("nodejs.util.inspect.custom")]() {
    return `PlainDateTime ${this}`;
  }
}

/** What is asked of the date of a date-time. */
const OF_DATE = [
  "calendarId", "year", "month", "monthCode", "day", "dayOfWeek", "dayOfYear", "weekOfYear", "yearOfWeek", "daysInWeek", "daysInMonth",
  "daysInYear", "monthsInYear", "inLeapYear",
];
for (const name of OF_DATE) {
  const get = function () {
    return this.toPlainDate()[name];
  };
  Object.defineProperty(PlainDateTime.prototype, name, { get, configurable: true });
}
