/** Texts of calendars in a zone. */

import { AT_ONCE, betweenOfCalendar, calendarZone, isOfCalendar, nextOfCalendar, previousOfCalendar, readCalendar } from "./layers.js";
import { optionsOf } from "./numbers.js";
import { bytesOfZone, Zone } from "./zone.js";
import { ZonedDateTime } from "./zoned_date_time.js";

/** The nanoseconds of a second. */
const SECOND = 1_000_000_000n;

/** A day before the last second of the calendar, which the clock of each zone shows as a date. */
const END = { seconds: 8_210_266_790_400n, nanos: 0 };

/** What UTC shows at an instant of a ZonedDateTime or an Instant, as its parts. */
function utcOf({ epochNanoseconds }) {
  if (typeof epochNanoseconds !== "bigint") {
    throw new TypeError("a ZonedDateTime or an Instant is wanted");
  }
  const nanos = ((epochNanoseconds % SECOND) + SECOND) % SECOND;
  return { seconds: (epochNanoseconds - nanos) / SECOND, nanos: Number(nanos) };
}

/**
 * The instants of the text of a calendar (RFC 5545) in a zone.
 *
 * The text has DTSTART, a local time, and RRULE, RDATE and EXDATE, in lines that may be folded. Where the clock skips a time, the
 * offset before the gap counts, and where it shows one twice, the first counts.
 */
export class CalendarText {
  #text;
  #zone;
  #bytes;

  /** The recurrence of a text whose local times are in a zone; a TextError says what is wrong first, and where. */
  constructor(text, timeZone) {
    this.#text = `${text}`;
    this.#zone = Zone.from(timeZone);
    this.#bytes = readCalendar(this.#text, bytesOfZone(this.#zone));
  }

  /** The name of the zone in which a text has its local times; undefined if it names none, or cannot be read. */
  static zoneName(text) {
    return calendarZone(`${text}`);
  }

  /** The zone. */
  get timeZone() {
    return this.#zone;
  }

  #at(found) {
    return found && new ZonedDateTime(found.seconds * SECOND, this.#zone);
  }

  /** The first instant after another; undefined if there is none. */
  nextAfter(start) {
    return this.#at(nextOfCalendar(this.#bytes, bytesOfZone(this.#zone), utcOf(start)));
  }

  /** The last instant before another; undefined if there is none. */
  previousBefore(start) {
    return this.#at(previousOfCalendar(this.#bytes, bytesOfZone(this.#zone), utcOf(start)));
  }

  /** Whether it has an instant. */
  includes(instant) {
    return isOfCalendar(this.#bytes, bytesOfZone(this.#zone), utcOf(instant));
  }

  /** The instants after another, in order, up to `until`, which counts, or to the end of the calendar. */
  iterate(start, options) {
    const { until } = optionsOf(options);
    return this.#from(utcOf(start), until === undefined ? END : utcOf(until));
  }

  *#from(start, until) {
    let found = [start];
    do {
      found = betweenOfCalendar(this.#bytes, bytesOfZone(this.#zone), found.at(-1), until);
      yield* found.map((it) => this.#at(it));
    } while (found.length === AT_ONCE);
  }

  /** The text that it was read from. */
  toString() {
    return this.#text;
  }

  toJSON() {
    return this.#text;
  }

  get [Symbol.toStringTag]() {
    return "CalendarText";
  }

  [Symbol.for("nodejs.util.inspect.custom")]() {
    return `CalendarText ${this}`;
  }
}
