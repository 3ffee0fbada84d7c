/** Instants: points of the line of time, with no calendar and no zone. */

import { zoneInBrackets } from "./calendar.js";
import { Duration } from "./duration.js";
import { FIRST_SECOND, LAST_SECOND } from "./moments.js";
import { integer, largestUnitOf, optionsOf, refuseRounding } from "./numbers.js";
import { PlainDateTime } from "./plain_date_time.js";
import { modeOf, NANOSECONDS, rounded, unitOf } from "./rounding.js";

/** The units of differences between instants, which are those of a clock. */
const UNITS = Object.keys(NANOSECONDS).slice(1);

/** The nanoseconds of a second and of a day. */
const [SECOND, DAY] = [1_000_000_000n, 86_400_000_000_000n];

/** The first and the last nanosecond since 1970 that the calendar has. */
const [FIRST, LAST] = [FIRST_SECOND * SECOND, LAST_SECOND * SECOND + SECOND - 1n];

/** A date-time with an offset behind it, and a name of a zone or other annotations, of which a critical one has to be known. */
const TEXT = /^([^[]*?)(?:([Zz])|([+-])(\d\d)(?::?(\d\d)(?::?(\d\d)(?:[.,](\d{1,9}))?)?)?)((?:\[[^[\]]*\])*)$/;

/** A date-time that shows a leap second, which an instant has as the second 59. */
const LEAP_SECOND = /([Tt ]\d\d(?::\d\d:|\d\d))60((?:[.,]\d*)?)$/;

/** The nanoseconds of an offset's text; undefined if it is none. */
function offsetOf([, , utc, sign, hours, minutes = "0", seconds = "0", fraction = ""]) {
  if (utc) {
    return 0n;
  }
  if (Number(hours) > 23 || Number(minutes) > 59 || Number(seconds) > 59) {
    return undefined;
  }
  const whole = 3_600 * Number(hours) + 60 * Number(minutes) + Number(seconds);
  const nanoseconds = BigInt(whole) * SECOND + BigInt(fraction.padEnd(9, "0"));
  return sign === "-" ? -nanoseconds : nanoseconds;
}

/**
 * An instant, to the nanosecond, counted from 1970-01-01T00:00:00Z without leap seconds.
 *
 * Names that `Temporal.Instant` has too mean the same here. Its range is that of the calendar.
 */
export class Instant {
  #nanoseconds;

  /** The instant with so many nanoseconds since 1970, a BigInt; RangeError beyond the calendar. */
  constructor(epochNanoseconds) {
    if (typeof epochNanoseconds !== "bigint") {
      throw new TypeError(`nanoseconds ${String(epochNanoseconds)}: they are a BigInt`);
    }
    this.#nanoseconds = epochNanoseconds;
    if (this.#nanoseconds < FIRST || this.#nanoseconds > LAST) {
      throw new RangeError(`${this.#nanoseconds} nanoseconds since 1970 lie beyond the calendar`);
    }
  }

  /** The instant of a text with an offset, such as `2024-02-29T12:00:00+01:00`, or of an instant. */
  static from(item) {
    if (item instanceof Instant) {
      return new Instant(item.#nanoseconds);
    }
    if (typeof item !== "string") {
      throw new TypeError("an instant is made of a text");
    }
    const found = TEXT.exec(item);
    const offset = found ? offsetOf(found) : undefined;
    if (offset === undefined || !/[Tt ]/.test(found[1])) {
      throw new RangeError(`${JSON.stringify(item)}: no text of an instant`);
    }
    zoneInBrackets(item, found[8], false);
    const local = PlainDateTime.from(found[1].replace(LEAP_SECOND, "$159$2"));
    return new Instant(nanosecondsOf(local) - offset);
  }

  /** The instant with so many milliseconds since 1970, as `Date.now()` counts them; RangeError for no whole number. */
  static fromEpochMilliseconds(milliseconds) {
    const count = Number(milliseconds);
    if (!Number.isInteger(count)) {
      throw new RangeError(`milliseconds ${String(milliseconds)}: no whole number`);
    }
    return new Instant(BigInt(count) * 1_000_000n);
  }

  /** The instant with so many nanoseconds since 1970, a BigInt. */
  static fromEpochNanoseconds(nanoseconds) {
    return new Instant(nanoseconds);
  }

  /** -1 if the first of two instants is the earlier, 1 if it is the later, 0 if they are the same. */
  static compare(one, other) {
    const apart = Instant.from(one).#nanoseconds - Instant.from(other).#nanoseconds;
    return Number(apart > 0n) - Number(apart < 0n);
  }

  /** The nanoseconds since 1970. */
  get epochNanoseconds() {
    return this.#nanoseconds;
  }

  /** The whole milliseconds since 1970, counted down. */
  get epochMilliseconds() {
    return Number((this.#nanoseconds - (((this.#nanoseconds % 1_000_000n) + 1_000_000n) % 1_000_000n)) / 1_000_000n);
  }

  /** The instant so much later; RangeError for days and longer units, which have no fixed length in a zone. */
  add(duration) {
    const by = Duration.from(duration);
    if ([by.years, by.months, by.weeks, by.days].some((it) => it !== 0)) {
      throw new RangeError(`${by}: an instant moves by hours and shorter units`);
    }
    return new Instant(this.#nanoseconds + by.exactNanoseconds);
  }

  /** The instant so much earlier, as `add` of the duration negated. */
  subtract(duration) {
    return this.add(Duration.from(duration).negated());
  }

  /** How far it is to another instant, in seconds and shorter units, or from a longer unit of a clock on (`largestUnit`). */
  until(other, options) {
    const unit = largestUnitOf(options, UNITS, "second");
    return Duration.fromNanoseconds(Instant.from(other).#nanoseconds - this.#nanoseconds, unit);
  }

  /** How far it is from another instant, as `until` negated. */
  since(other, options) {
    return this.until(other, options).negated();
  }

  /**
   * The instant at a whole multiple of a unit (`smallestUnit`, `roundingIncrement`), which has to divide a day, from a midnight of UTC
   * on. It is the nearest one, and the later of two that are as near, unless `roundingMode` asks for another.
   */
  round(options) {
    const given = typeof options === "string" ? { smallestUnit: options } : optionsOf(options ?? null);
    const unit = unitOf(given.smallestUnit, "smallestUnit", UNITS);
    const increment = integer(given.roundingIncrement ?? 1, "roundingIncrement");
    const length = BigInt(increment) * BigInt(NANOSECONDS[unit]);
    if (increment < 1 || DAY % length !== 0n) {
      throw new RangeError(`roundingIncrement ${increment}: so many ${unit}s do not divide a day`);
    }
    // (counted from the first instant, which lies an even number of days before 1970, so that each mode goes to later instants as it
    // goes away from 0)
    return new Instant(rounded(this.#nanoseconds - FIRST, length, modeOf(given, "halfExpand")) + FIRST);
  }

  /** Whether it is the same instant. */
  equals(other) {
    return Instant.compare(this, other) === 0;
  }

  /** The text of ISO 8601 in UTC, such as `2024-02-29T12:00:00.5Z`. */
  toString(options) {
    refuseRounding(options, "texts");
    if (optionsOf(options).timeZone !== undefined) {
      throw new RangeError("timeZone: ZonedDateTime.from(instant, { timeZone }) has that text");
    }
    return `${dateTimeAt(this.#nanoseconds)}Z`;
  }

  toJSON() {
    return this.toString();
  }

  /** The text in the words of a language, by the host's `Intl.DateTimeFormat`. */
  toLocaleString(locales, options) {
    return new Date(this.epochMilliseconds).toLocaleString(locales, options);
  }

  /** Instants are compared by `Instant.compare`. */
  valueOf() {
    throw new TypeError("instants are compared by Instant.compare");
  }

  get [Symbol.toStringTag]() {
    return "Instant";
  }

  [Symbol.for("nodejs.util.inspect.custom")]() {
    return `Instant ${this}`;
  }
}

/** The nanoseconds since 1970 of a date-time of UTC. */
function nanosecondsOf(dateTime) {
  return BigInt(dateTime.unixSeconds) * SECOND + BigInt(dateTime.unixNanoseconds);
}

/** The date-time of UTC at some nanoseconds since 1970. */
function dateTimeAt(nanoseconds) {
  const rest = ((nanoseconds % SECOND) + SECOND) % SECOND;
  return PlainDateTime.fromUnix(Number((nanoseconds - rest) / SECOND), Number(rest));
}
