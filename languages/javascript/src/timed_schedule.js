/** Cron schedules with seconds and years. */

import { isTimedDue, nextTimed, previousTimed, readTimedSchedule } from "./layers.js";
import { optionsOf } from "./numbers.js";
import { dateTimeOf, momentOf, PlainDateTime } from "./plain_date_time.js";

/** The dialects, in the order of their numbers. */
const DIALECTS = ["crontab", "seconds", "quartz", "robfig"];

/**
 * A cron schedule with seconds, of a dialect.
 *
 * `crontab` has the five fields of a Schedule, and `seconds` has one for seconds in front. `quartz` has weekdays from 1 for Sunday, `?` for
 * one field of days, and years behind. `robfig` has the five fields of Go's robfig/cron.
 */
export class TimedSchedule {
  #text;
  #dialect;
  #bytes;

  /** The schedule of a text; a TextError says what is wrong first, and where. */
  constructor(text, options) {
    const { dialect = "seconds" } = optionsOf(options);
    this.#text = `${text}`;
    this.#dialect = DIALECTS.indexOf(dialect);
    if (this.#dialect < 0) {
      throw new RangeError(`${dialect}: the dialect is crontab, seconds, quartz or robfig`);
    }
    this.#bytes = readTimedSchedule(this.#text, this.#dialect);
  }

  /** Its dialect. */
  get dialect() {
    return DIALECTS[this.#dialect];
  }

  /** The first date-time after another at which it is due; undefined if there is none. */
  nextAfter(start) {
    const found = nextTimed(this.#bytes, this.#dialect, momentOf(PlainDateTime.from(start)));
    return found && dateTimeOf(found);
  }

  /** The last date-time before another at which it is due; undefined if there is none. */
  previousBefore(start) {
    const found = previousTimed(this.#bytes, this.#dialect, momentOf(PlainDateTime.from(start)));
    return found && dateTimeOf(found);
  }

  /** Whether it is due at a date-time. */
  isDue(moment) {
    return isTimedDue(this.#bytes, this.#dialect, momentOf(PlainDateTime.from(moment)));
  }

  /** The date-times after another at which it is due, in order, up to `until`, which counts, or to the end of the calendar. */
  iterate(start, options) {
    const { until } = optionsOf(options);
    return this.#dueFrom(PlainDateTime.from(start), until === undefined ? undefined : PlainDateTime.from(until));
  }

  *#dueFrom(start, until) {
    for (let found = this.nextAfter(start); found && !(until && PlainDateTime.compare(until, found) < 0); found = this.nextAfter(found)) {
      yield found;
    }
  }

  /** The text that it was read from. */
  toString() {
    return this.#text;
  }

  toJSON() {
    return this.#text;
  }

  get [Symbol.toStringTag]() {
    return "TimedSchedule";
  }

  [Symbol.for("nodejs.util.inspect.custom")]() {
    return `TimedSchedule ${this}`;
  }
}
