/** Cron schedules. */

import { AT_ONCE, dueBetween, isDue, nextDue, previousDue, readSchedule } from "./layers.js";
import { LAST_SECOND } from "./moments.js";
import { optionsOf } from "./numbers.js";
import { dateTimeOf, momentOf, PlainDateTime } from "./plain_date_time.js";
import { Zone } from "./zone.js";

/** The nanoseconds of a second. */
const SECOND = 1_000_000_000n;

/** The sets of numbers in the order of the library. */
const SETS = ["minutes", "hours", "days", "months", "weekdays", "daysFromEnd", "nearestWorkdays", "lastWeekdays"];

/** A date-time in a zone; a TypeError for another value. */
function startOf(value) {
  if (Object.prototype.toString.call(value) !== "[object ZonedDateTime]" || !(value.timeZone instanceof Zone)) {
    throw new TypeError("a ZonedDateTime of this package is wanted");
  }
  return value;
}

/** What UTC shows at an instant, as its parts. */
function utcOf({ epochNanoseconds }) {
  const nanos = ((epochNanoseconds % SECOND) + SECOND) % SECOND;
  return { seconds: (epochNanoseconds - nanos) / SECOND, nanos: Number(nanos) };
}

/** The numbers of a set, of which each binary digit says whether a number is listed. */
function numbersOf(view, place) {
  const digits = view.getBigUint64(8 * place, true);
  return Array.from({ length: 64 }, (_, index) => index).filter((it) => (digits >> BigInt(it)) & 1n);
}

/**
 * A cron schedule, such as `30 4 1,15 * fri`: minute, hour, day of the month, month, weekday.
 *
 * It is due at the beginning of minutes. If both days of the month and weekdays are listed, one of them is enough, unless one of the
 * fields begins with `*`.
 */
export class Schedule {
  #text;
  #bytes;

  /** The schedule of a text, such as `30 4 1,15 * fri` or `@daily`; a TextError says what is wrong first, and where. */
  constructor(text) {
    this.#text = `${text}`;
    this.#bytes = readSchedule(this.#text);
  }

  /** The schedule of a text, or of a schedule. */
  static from(item) {
    if (item instanceof Schedule) {
      return new Schedule(item.#text);
    }
    if (typeof item !== "string") {
      throw new TypeError("a schedule is made of a text");
    }
    return new Schedule(item);
  }

  /**
   * What the fields list, each as numbers in order. Weekdays count from 0 for Sunday. `daysFromEnd` has how many days follow (`L-3`),
   * `nthWeekdays` pairs of a weekday and how many-th of the month (`5#2`). By `isEither` a day of the month or a weekday is enough.
   */
  get fields() {
    const view = new DataView(this.#bytes.buffer);
    const sets = Object.fromEntries(SETS.map((name, place) => [name, numbersOf(view, place)]));
    const nthWeekdays = numbersOf(view, 8).map((it) => [it % 7, Math.floor(it / 7) + 1]);
    const marks = numbersOf(view, 9);
    return { ...sets, nthWeekdays, hasLastWorkday: marks.includes(1), isEither: marks.includes(0) };
  }

  /** The first date-time after another at which it is due; undefined if there is none. */
  nextAfter(start) {
    const found = nextDue(this.#bytes, momentOf(PlainDateTime.from(start)));
    return found && dateTimeOf(found);
  }

  /** The last date-time before another at which it is due; undefined if there is none. */
  previousBefore(start) {
    const found = previousDue(this.#bytes, momentOf(PlainDateTime.from(start)));
    return found && dateTimeOf(found);
  }

  /**
   * The first instant after another at which it fires in a zone; undefined if there is none. A time that the clock skips fires as the gap
   * ends, and one that it shows twice fires once. But a schedule whose minutes or hours begin with * goes by what the clock shows.
   */
  nextInZone(start) {
    const found = startOf(start).timeZone.nextDue(this.#bytes, utcOf(start));
    return found && new start.constructor(found.seconds * SECOND, start.timeZone);
  }

  /** The last instant before another at which it fires in a zone; undefined if there is none. */
  previousInZone(start) {
    const found = startOf(start).timeZone.previousDue(this.#bytes, utcOf(start));
    return found && new start.constructor(found.seconds * SECOND, start.timeZone);
  }

  /** The instants after another at which it fires in a zone, in order, up to `until`, which counts, or to the end of the calendar. */
  iterateInZone(start, options) {
    const { until } = optionsOf(options);
    return this.#firingsFrom(startOf(start), until === undefined ? undefined : startOf(until).epochNanoseconds);
  }

  *#firingsFrom(start, last) {
    for (let found = this.nextInZone(start); found && !(last < found.epochNanoseconds); found = this.nextInZone(found)) {
      yield found;
    }
  }

  /** Whether it is due at a date-time. */
  isDue(moment) {
    return isDue(this.#bytes, momentOf(PlainDateTime.from(moment)));
  }

  /** The date-times after another at which it is due, in order, up to `until`, which counts, or to the end of the calendar. */
  iterate(start, options) {
    const { until } = optionsOf(options);
    const last = until === undefined ? { seconds: LAST_SECOND, nanos: 0 } : momentOf(PlainDateTime.from(until));
    return this.#dueFrom(momentOf(PlainDateTime.from(start)), last);
  }

  *#dueFrom(start, last) {
    let found = [start];
    do {
      found = dueBetween(this.#bytes, found.at(-1), last);
      yield* found.map(dateTimeOf);
    } while (found.length === AT_ONCE);
  }

  /** Whether another schedule lists the same. */
  equals(other) {
    const theirs = Schedule.from(other).#bytes;
    return this.#bytes.every((it, index) => it === theirs[index]);
  }

  /** The text that it was read from. */
  toString() {
    return this.#text;
  }

  toJSON() {
    return this.#text;
  }

  get [Symbol.toStringTag]() {
    return "Schedule";
  }

  [Symbol.for("nodejs.util.inspect.custom")]() {
    return `Schedule ${this}`;
  }
}
