/** Durations. */

import { optionsOf, refuseRounding, whole } from "./numbers.js";
import { incrementOf, modeOf, NANOSECONDS, rounded, unitOf } from "./rounding.js";

/** The fields of a duration, from the longest unit on. */
const FIELDS = [
  "years",
  "months",
  "weeks",
  "days",
  "hours",
  "minutes",
  "seconds",
  "milliseconds",
  "microseconds",
  "nanoseconds",
];

/** Where the units begin that have a fixed length. */
const DAYS = FIELDS.indexOf("days");

/** A day and the shorter units, in the singular. */
const EXACT_UNITS = Object.keys(NANOSECONDS);

/** The nanoseconds of a day and of each shorter unit. */
const LENGTHS = Object.values(NANOSECONDS).map(BigInt);

/** Years, months and weeks are fewer than so many. */
const MOST_UNITS = 2 ** 32;

/** Days and shorter units make fewer nanoseconds than this. */
const MOST_NANOSECONDS = 2n ** 53n * 1_000_000_000n;

/** So many days and shorter units of each kind make fewer nanoseconds together, and their seconds are exact Numbers. */
const FEW_UNITS = 2 ** 33;

/** Tells the constructor that all ten fields follow, which are whole numbers. */
const BY_FIELDS = Symbol("by fields");

/** ISO 8601 durations; only seconds have a fraction here. */
const TEXT =
  /^([+-]?)P(?=\d|T\d)(?:(\d+)Y)?(?:(\d+)M)?(?:(\d+)W)?(?:(\d+)D)?(?:T(?=\d)(?:(\d+)H)?(?:(\d+)M)?(?:(\d+)(?:[.,](\d{1,9}))?S)?)?$/i;

/** The Number nearest to a fraction of two whole numbers, of which the second is above 0. */
function nearest(above, below) {
  const size = above < 0n ? -above : above;
  const shift = BigInt(Math.max(0, 66 + below.toString(2).length - size.toString(2).length));
  const scaled = size << shift;
  // (66 digits and one that says whether more follow are rounded as all digits would be)
  const digits = (scaled / below) * 2n + (scaled % below > 0n ? 1n : 0n);
  const number = Number(digits) * 2 ** -(Number(shift) + 1);
  return above < 0n ? -number : number;
}

/** The whole days of a duration's weeks, days and shorter units. */
export let daysOf;

/** The seconds of a duration's weeks, days and shorter units, and the nanoseconds past them, which are not below 0. */
export let secondsOf;

/** The duration of ten whole numbers. */
export let durationOf;

/**
 * A length of time: years, months and weeks, which a calendar measures, and days of 24 hours and shorter units.
 *
 * The fields are whole numbers, kept as they were given, and none is below 0 if another is above.
 */
export class Duration {
  #fields;

  constructor(...fields) {
    this.#fields = fields[0] === BY_FIELDS ? fields[1] : FIELDS.map((field, index) => whole(fields[index] ?? 0, field));
    this.#refuse();
  }

  /** Refuses fields of both signs, and too many units. */
  #refuse() {
    let [isAbove, isBelow, isLong] = [false, false, false];
    for (let index = 0; index < FIELDS.length; index += 1) {
      const number = this.#fields[index];
      isAbove ||= number > 0;
      isBelow ||= number < 0;
      isLong ||= Math.abs(number) >= (index < DAYS ? MOST_UNITS : FEW_UNITS);
    }
    if (isAbove && isBelow) {
      throw new RangeError("one field of the duration is above 0, and another below");
    }
    // (few units of each kind are never too long together, and need no numbers of many digits)
    if (isLong && this.#isTooLong) {
      throw new RangeError("the duration is too long");
    }
  }

  get #isTooLong() {
    const nanoseconds = this.exactNanoseconds;
    const isLong = this.#fields.slice(0, DAYS).some((it) => Math.abs(it) >= MOST_UNITS);
    return isLong || nanoseconds >= MOST_NANOSECONDS || nanoseconds <= -MOST_NANOSECONDS;
  }

  static {
    for (const [index, field] of FIELDS.entries()) {
      const get = function () {
        return this.#fields[index];
      };
      Object.defineProperty(this.prototype, field, { get, configurable: true });
    }
    daysOf = (duration) => duration.#days;
    secondsOf = (duration) => duration.#seconds;
    durationOf = (...fields) => new Duration(BY_FIELDS, fields);
  }

  /** The duration of a text such as `P1DT2H0.5S`, of an object with some of the fields, or of a duration. */
  static from(item) {
    if (item instanceof Duration) {
      return new Duration(BY_FIELDS, item.#fields);
    }
    if (typeof item === "string") {
      return Duration.#read(item);
    }
    const isObject = item !== null && typeof item === "object";
    const fields = [0, 0, 0, 0, 0, 0, 0, 0, 0, 0];
    let count = 0;
    for (let index = 0; isObject && index < FIELDS.length; index += 1) {
      const value = item[FIELDS[index]];
      if (value !== undefined) {
        fields[index] = whole(value, FIELDS[index]);
        count += 1;
      }
    }
    if (count === 0) {
      throw new TypeError("a duration is made of a text, or of an object with fields such as days");
    }
    return new Duration(BY_FIELDS, fields);
  }

  static #read(text) {
    const found = TEXT.exec(text);
    if (!found) {
      throw new RangeError(`${JSON.stringify(text)}: no text of a duration`);
    }
    const [, sign, ...parts] = found;
    const fraction = (parts.pop() ?? "").padEnd(9, "0");
    const thousandths = [fraction.slice(0, 3), fraction.slice(3, 6), fraction.slice(6)];
    const factor = sign === "-" ? -1 : 1;
    return new Duration(...[...parts, ...thousandths].map((it) => factor * Number(it ?? 0)));
  }

  /**
   * So many nanoseconds, in the units from the largest one on, which is a day or shorter. A field is a Number, so that
   * what makes more than 2^53 of one unit is rounded to the nearest that there is.
   */
  static fromNanoseconds(nanoseconds, largestUnit = "day") {
    const first = FIELDS.indexOf(`${largestUnit}s`) - DAYS;
    if (!(first >= 0)) {
      throw new RangeError(`largestUnit ${largestUnit}: day or a shorter unit`);
    }
    const fields = Array(FIELDS.length).fill(0);
    let rest = typeof nanoseconds === "bigint" ? nanoseconds : BigInt(whole(nanoseconds, "nanoseconds"));
    for (let unit = first; unit < LENGTHS.length; unit += 1) {
      fields[DAYS + unit] = Number(rest / LENGTHS[unit]);
      rest %= LENGTHS[unit];
    }
    return new Duration(BY_FIELDS, fields);
  }

  /** Compares the lengths of two durations with no years, months or weeks: -1, 0 or 1. */
  static compare(one, other) {
    const [first, second] = [Duration.from(one), Duration.from(other)];
    if (first.#fields.every((it, index) => it === second.#fields[index])) {
      return 0;
    }
    const difference = first.totalNanoseconds - second.totalNanoseconds;
    return Number(difference > 0n) - Number(difference < 0n);
  }

  /** -1, 0 or 1. */
  get sign() {
    return Math.sign(this.#fields.find((it) => it !== 0) ?? 0);
  }

  /** Whether all fields are 0. */
  get blank() {
    return this.sign === 0;
  }

  /** The same length the other way. */
  negated() {
    return new Duration(BY_FIELDS, this.#fields.map((it) => 0 - it));
  }

  /** The same length forward. */
  abs() {
    return new Duration(BY_FIELDS, this.#fields.map(Math.abs));
  }

  /** The sum, in units from the larger of both largest ones on; RangeError for years, months and weeks. */
  add(other) {
    const added = Duration.from(other);
    const nanoseconds = this.totalNanoseconds + added.totalNanoseconds;
    const largest = FIELDS[Math.min(this.#largest, added.#largest)];
    return Duration.fromNanoseconds(nanoseconds, largest.slice(0, -1));
  }

  /** The difference, as `add` of the other one negated. */
  subtract(other) {
    return this.add(Duration.from(other).negated());
  }

  /** The months of years and months. */
  get totalMonths() {
    return 12 * this.years + this.months;
  }

  /** The nanoseconds of all fields; RangeError if there are years, months or weeks, which have no fixed length. */
  get totalNanoseconds() {
    if (this.#largest < DAYS) {
      throw new RangeError(`${this}: years, months and weeks have no fixed length`);
    }
    return this.exactNanoseconds;
  }

  /** The nanoseconds of days and shorter units. */
  get exactNanoseconds() {
    return LENGTHS.reduce((sum, length, index) => sum + length * BigInt(this.#fields[DAYS + index]), 0n);
  }

  get #isShort() {
    return this.#fields.every((it) => Math.abs(it) < FEW_UNITS);
  }

  get #days() {
    const [, , weeks, days, ...clock] = this.#fields;
    if (clock.every((it) => it === 0)) {
      return 7 * weeks + days;
    }
    return 7 * weeks + Number(this.exactNanoseconds / LENGTHS[0]);
  }

  get #seconds() {
    const [, , weeks, days, hours, minutes, seconds, milliseconds, microseconds, nanoseconds] = this.#fields;
    if (!this.#isShort) {
      const all = this.exactNanoseconds + 7n * LENGTHS[0] * BigInt(weeks);
      const rest = ((all % LENGTHS[3]) + LENGTHS[3]) % LENGTHS[3];
      return { seconds: (all - rest) / LENGTHS[3], nanos: Number(rest) };
    }
    const shorter = 1_000_000 * milliseconds + 1_000 * microseconds + nanoseconds;
    const more = Math.floor(shorter / 1_000_000_000);
    const whole = 86_400 * (7 * weeks + days) + 3_600 * hours + 60 * minutes + seconds + more;
    return { seconds: BigInt(whole), nanos: shorter - 1_000_000_000 * more };
  }

  /**
   * The duration in whole multiples of a unit (`smallestUnit`, `roundingIncrement`), in units from `largestUnit` on.
   *
   * The multiple is the nearest one, and the one farther from 0 of two that are as near, unless `roundingMode` asks for
   * another. RangeError for years, months and weeks.
   */
  round(options) {
    const given = typeof options === "string" ? { smallestUnit: options } : optionsOf(options ?? null);
    if (given.smallestUnit === undefined && given.largestUnit === undefined) {
      throw new RangeError("round: smallestUnit or largestUnit is asked for");
    }
    const nanoseconds = this.totalNanoseconds;
    const smallest = EXACT_UNITS.indexOf(unitOf(given.smallestUnit ?? "nanosecond", "smallestUnit", EXACT_UNITS));
    const usual = Math.min(this.#largest - DAYS, smallest);
    const isUsual = given.largestUnit === undefined || `${given.largestUnit}` === "auto";
    const largest = isUsual ? usual : EXACT_UNITS.indexOf(unitOf(given.largestUnit, "largestUnit", EXACT_UNITS));
    if (largest > smallest) {
      throw new RangeError(`largestUnit ${given.largestUnit}: it is shorter than smallestUnit`);
    }
    const increment = incrementOf(given, EXACT_UNITS[smallest], largest === smallest);
    const length = LENGTHS[smallest] * BigInt(increment);
    return Duration.fromNanoseconds(rounded(nanoseconds, length, modeOf(given, "halfExpand")), EXACT_UNITS[largest]);
  }

  /** How many of a unit (`unit`) the duration is, with a fraction; RangeError for years, months and weeks. */
  total(options) {
    const { unit } = typeof options === "string" ? { unit: options } : optionsOf(options ?? null);
    const index = EXACT_UNITS.indexOf(unitOf(unit, "unit", EXACT_UNITS));
    return nearest(this.totalNanoseconds, LENGTHS[index]);
  }

  /** The first field that is not 0, or else the last. */
  get #largest() {
    const found = this.#fields.findIndex((it) => it !== 0);
    return found < 0 ? FIELDS.length - 1 : found;
  }

  /** The text of ISO 8601, such as `P1DT2H0.5S`; its seconds hold all that is shorter. */
  toString(options) {
    refuseRounding(options, "texts");
    const [years, months, weeks, days, hours, minutes, ...shorter] = this.#fields.map((it) => BigInt(Math.abs(it)));
    const nanoseconds = shorter.reduce((sum, it, index) => sum + it * LENGTHS[index + 3], 0n);
    const fraction = `${nanoseconds % LENGTHS[3]}`.padStart(9, "0").replace(/0+$/, "");
    const seconds = `${nanoseconds / LENGTHS[3]}${fraction && `.${fraction}`}`;
    const part = (number, unit) => (number > 0n ? `${number}${unit}` : "");
    const date = part(years, "Y") + part(months, "M") + part(weeks, "W") + part(days, "D");
    const clock = part(hours, "H") + part(minutes, "M") + (nanoseconds > 0n || this.blank ? `${seconds}S` : "");
    return `${this.sign < 0 ? "-" : ""}P${date}${clock && `T${clock}`}`;
  }

  toJSON() {
    return this.toString();
  }

  /** The text in the words of a language, by the host's `Intl.DurationFormat`; that of ISO 8601 if it has none. */
  toLocaleString(locales, options) {
    return Intl.DurationFormat ? new Intl.DurationFormat(locales, options).format(this) : this.toString();
  }

  /** Durations are compared by `Duration.compare`. */
  valueOf() {
    throw new TypeError("durations are compared by Duration.compare");
  }

  get [Symbol.toStringTag]() {
    return "Duration";
  }

  [Symbol.for("nodejs.util.inspect.custom")]() {
    return `Duration ${this}`;
  }
}
