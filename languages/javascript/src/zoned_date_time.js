/** Instants in a zone. */

import { annotation, zoneInBrackets } from "./calendar.js";
import { Duration } from "./duration.js";
import { Instant } from "./instant.js";
import { choiceOf, largestUnitOf, optionsOf, overflowOf, refuseRounding } from "./numbers.js";
import { PlainDate, replaced } from "./plain_date.js";
import { dateTimeOf, momentOf, PlainDateTime } from "./plain_date_time.js";
import { modeOf, NANOSECONDS, rounded, unitOf } from "./rounding.js";
import { Zone } from "./zone.js";

/** The nanoseconds of a second. */
const SECOND = 1_000_000_000n;

/** The seconds of a day. */
const DAY = 86_400n;

/** The units of differences, which are those of a clock. */
const UNITS = ["hour", "minute", "second", "millisecond", "microsecond", "nanosecond"];

/** The parts of a date-time. */
const PARTS = ["year", "month", "day", "hour", "minute", "second", "millisecond", "microsecond", "nanosecond"];

/** A date-time, and behind its time an offset, or a date alone; and behind both names in brackets, or none of them. */
const TEXT = /^(?:([^[Tt ]*[Tt ][^[Tt ]*?)([Zz]|[+-]\d\d(?::?\d\d(?::?\d\d)?)?)?|([^[Tt ]*))((?:\[[^[\]]*\])*)$/;

/** What becomes of a local time that the clock skips or shows twice, and of an offset that is not the zone's. */
const CHOICES = { disambiguation: ["compatible", "earlier", "later", "reject"], offset: ["reject", "use", "ignore", "prefer"] };

/** What a text has of the offset and of the name of the zone; a `!` says that a reader must know the name. */
const SHOWN = { offset: ["auto", "never"], timeZoneName: ["auto", "never", "critical"] };

/** The choice of an option. */
const chosen = (options, name) => choiceOf(options, name, CHOICES[name]);

/** The whole seconds of nanoseconds, counted down, and the rest. */
function split(nanoseconds) {
  const rest = ((nanoseconds % SECOND) + SECOND) % SECOND;
  return { seconds: (nanoseconds - rest) / SECOND, nanos: Number(rest) };
}

/** The text of an offset, such as `+01:00`. */
function offsetText(offset) {
  const ahead = Math.abs(offset);
  const parts = [ahead / 3_600, (ahead / 60) % 60, ahead % 60].map((it) => `${Math.trunc(it)}`.padStart(2, "0"));
  return (offset < 0 ? "-" : "+") + parts.slice(0, ahead % 60 === 0 ? 2 : 3).join(":");
}

/** An offset in whole minutes, of which it is the nearest; in texts it has no seconds. */
const inMinutes = (offset) => Math.sign(offset) * Math.round(Math.abs(offset) / 60) * 60;

/** The seconds of the text of an offset; undefined if it is none. */
function offsetOf(text) {
  const [, sign, hours, minutes = "0", seconds = "0"] = /^([+-])(\d\d)(?::?(\d\d)(?::?(\d\d))?)?$/.exec(text) ?? [];
  if (sign === undefined || Number(hours) > 23 || Number(minutes) > 59 || Number(seconds) > 59) {
    return undefined;
  }
  const ahead = 3_600 * Number(hours) + 60 * Number(minutes) + Number(seconds);
  return sign === "-" ? -ahead : ahead;
}

/** The seconds ahead of UTC of an option or a part `offset`; RangeError if it is none. */
function givenOffset(text) {
  const offset = offsetOf(`${text}`);
  if (offset === undefined) {
    throw new RangeError(`offset ${text}: it is such as +01:00`);
  }
  return offset;
}

/** The text of the rule of a clock that is always so many seconds ahead of UTC, such as `<+0100>-01:00`. */
function ruleOf(offset) {
  return offset === 0 ? "UTC0" : `<${offsetText(offset).replaceAll(":", "")}>${offsetText(-offset)}`;
}

/** A local date-time with a leap second as the second 59. */
function withoutLeap(plain) {
  const { seconds, nanos } = momentOf(plain);
  return { seconds, nanos: nanos < 1_000_000_000 ? nanos : nanos - 1_000_000_000 };
}

/** The nanoseconds since 1970 at which the clock of a zone shows a local moment. */
function instantOf(zone, { seconds, nanos }, disambiguation) {
  const offsets = zone.offsetsOfLocal(seconds);
  const at = (offset) => (seconds - BigInt(offset)) * SECOND + BigInt(nanos);
  if (offsets.length === 1) {
    return at(offsets[0]);
  }
  if (disambiguation === "reject") {
    const why = offsets.length === 0 ? "skips it" : "shows it twice";
    throw new RangeError(`${dateTimeOf({ seconds, nanos })}: the clock of ${zone} ${why}`);
  }
  if (offsets.length === 2) {
    return at(offsets[disambiguation === "later" ? 1 : 0]);
  }
  // The clock is set ahead past it. With the offset from before the time is as far behind the gap, and with that from after before it.
  const [before, after] = [seconds - DAY, seconds + DAY].map((it) => zone.offsetAt(it));
  return at(disambiguation === "earlier" ? after : before);
}

/** The nanoseconds since 1970 of a local moment with an offset beside it, which may be one in whole minutes. */
function instantBy(zone, local, offset, options, isInMinutes = false) {
  const [choice, disambiguation] = [chosen(options, "offset"), chosen(options, "disambiguation")];
  if (offset === undefined || choice === "ignore") {
    return instantOf(zone, local, disambiguation);
  }
  const isThere = (it) => it === offset || (isInMinutes && inMinutes(it) === offset);
  const found = choice === "use" ? offset : zone.offsetsOfLocal(local.seconds).find(isThere);
  if (found !== undefined) {
    return (local.seconds - BigInt(found)) * SECOND + BigInt(local.nanos);
  }
  if (choice === "reject") {
    throw new RangeError(`${dateTimeOf(local)}: the clock of ${zone} is not ${offsetText(offset)} ahead of UTC`);
  }
  return instantOf(zone, local, disambiguation);
}

/** The instant of a local moment on a clock that is so many seconds ahead of UTC, in a zone of this offset. */
export function atOffset(local, offset) {
  const { seconds, nanos } = withoutLeap(dateTimeOf(local));
  return new ZonedDateTime((seconds - BigInt(offset)) * SECOND + BigInt(nanos), new Zone(ruleOf(offset)));
}

/**
 * An instant in a zone.
 *
 * Names that `Temporal.ZonedDateTime` has too mean the same here, but that the zone is a `Zone` and not a name.
 */
export class ZonedDateTime {
  #nanoseconds;
  #zone;
  #offset;
  #plain;

  /** The instant with so many nanoseconds since 1970, a BigInt, in a zone or in that of the text of a rule. */
  constructor(epochNanoseconds, timeZone) {
    this.#nanoseconds = new Instant(epochNanoseconds).epochNanoseconds;
    this.#zone = Zone.from(timeZone);
    const { seconds, nanos } = split(this.#nanoseconds);
    this.#offset = this.#zone.offsetAt(seconds);
    this.#plain = PlainDateTime.fromUnix(Number(seconds) + this.#offset, nanos);
  }

  /**
   * The date-time of a text such as `2024-03-31T12:00+02:00[Europe/Berlin]`, of an object with parts and `timeZone`, of a PlainDateTime, an
   * Instant, or one like it. But for an object, the option `timeZone` has the zone. `disambiguation` says what becomes of a local time that
   * the clock skips or shows twice, `offset` of an offset that is not the zone's.
   */
  static from(item, options) {
    const given = optionsOf(options);
    overflowOf(options);
    Object.keys(CHOICES).forEach((it) => chosen(options, it));
    if (item instanceof ZonedDateTime) {
      return new ZonedDateTime(item.#nanoseconds, given.timeZone ?? item.#zone);
    }
    if (typeof item !== "string" && !(item instanceof PlainDateTime) && !(item instanceof Instant) && item?.timeZone !== undefined) {
      const zone = Zone.from(item.timeZone);
      const offset = item.offset === undefined ? undefined : givenOffset(item.offset);
      return new ZonedDateTime(instantBy(zone, withoutLeap(PlainDateTime.from(item, options)), offset, options), zone);
    }
    if (given.timeZone === undefined) {
      throw new TypeError("the zone is missing: give it as the option timeZone");
    }
    const zone = Zone.from(given.timeZone);
    if (item instanceof Instant) {
      return new ZonedDateTime(item.epochNanoseconds, zone);
    }
    if (typeof item === "string") {
      return ZonedDateTime.#read(item, zone, options);
    }
    return new ZonedDateTime(instantBy(zone, withoutLeap(PlainDateTime.from(item, options)), undefined, options), zone);
  }

  static #read(text, zone, options) {
    const [, ofTime, offset, ofDate, names] = TEXT.exec(text) ?? [];
    const local = ofTime ?? ofDate;
    if (local === undefined) {
      throw new RangeError(`${JSON.stringify(text)}: no text of a date-time`);
    }
    const name = zoneInBrackets(text, names, true);
    if (name !== undefined && name !== zone.name) {
      throw new RangeError(`${JSON.stringify(text)}: its zone is not ${zone}`);
    }
    if (offset === "Z" || offset === "z") {
      return new ZonedDateTime(Instant.from(local + offset).epochNanoseconds, zone);
    }
    const ahead = offset === undefined ? undefined : givenOffset(offset);
    const isInMinutes = /^...:?..$|^...$/.test(offset);
    return new ZonedDateTime(instantBy(zone, withoutLeap(PlainDateTime.from(local)), ahead, options, isInMinutes), zone);
  }

  /** -1 if the first of two is the earlier instant, 1 if it is the later, 0 if they are the same. */
  static compare(one, other) {
    if (![one, other].every((it) => it instanceof ZonedDateTime)) {
      throw new TypeError("ZonedDateTimes are compared, whose zones are known");
    }
    return Instant.compare(one.toInstant(), other.toInstant());
  }

  /** Another date-time, of which a text has this one's zone. */
  #other(item) {
    return item instanceof ZonedDateTime ? item : ZonedDateTime.from(item, { timeZone: this.#zone });
  }

  /** The nanoseconds since 1970. */
  get epochNanoseconds() {
    return this.#nanoseconds;
  }

  /** The whole milliseconds since 1970, counted down. */
  get epochMilliseconds() {
    return this.toInstant().epochMilliseconds;
  }

  /** The zone. */
  get timeZone() {
    return this.#zone;
  }

  /** The name of the zone, or the text of its rule. */
  get timeZoneId() {
    return `${this.#zone}`;
  }

  /** How far the clock is ahead of UTC, such as `+01:00`. */
  get offset() {
    return offsetText(this.#offset);
  }

  /** The same in nanoseconds. */
  get offsetNanoseconds() {
    return this.#offset * Number(SECOND);
  }

  /** How long the day is, in hours. */
  get hoursInDay() {
    return Number(this.#lengthOfDay()) / 3.6e12;
  }

  /** The same in nanoseconds. */
  #lengthOfDay() {
    const next = this.toPlainDate().add({ days: 1 });
    return ZonedDateTime.#startOf(next, this.#zone).#nanoseconds - this.startOfDay().#nanoseconds;
  }

  /** The first instant of a day: the end of a gap that has its midnight. */
  static #startOf(date, zone) {
    const local = momentOf(PlainDateTime.from(date));
    const offsets = zone.offsetsOfLocal(local.seconds);
    if (offsets.length > 0) {
      return new ZonedDateTime((local.seconds - BigInt(offsets[0])) * SECOND, zone);
    }
    // (with the offset from after the gap its midnight lies before the change)
    return new ZonedDateTime(zone.nextChange(local.seconds - BigInt(zone.offsetAt(local.seconds + DAY))) * SECOND, zone);
  }

  /** The instant. */
  toInstant() {
    return new Instant(this.#nanoseconds);
  }

  /** What the clock shows. */
  toPlainDateTime() {
    return this.#plain;
  }

  /** The date that it shows. */
  toPlainDate() {
    return this.#plain.toPlainDate();
  }

  /** The same instant in another zone. */
  withTimeZone(timeZone) {
    return new ZonedDateTime(this.#nanoseconds, timeZone);
  }

  /** The first instant of the day. */
  startOfDay() {
    return ZonedDateTime.#startOf(this.toPlainDate(), this.#zone);
  }

  /** The date-time with some parts of its name replaced. The offset stays if the clock has it there, unless `offset` asks otherwise. */
  with(parts, options) {
    if (parts === null || typeof parts !== "object") {
      throw new TypeError(`what replaces parts is an object with one of ${PARTS.join(", ")} or offset`);
    }
    const { offset, ...others } = parts;
    const plain = offset === undefined || Object.keys(others).length > 0 ? PlainDateTime.from(replaced(this.#plain, others, PARTS), options) : this.#plain;
    const asked = { offset: "prefer", ...optionsOf(options) };
    const ahead = offset === undefined ? this.#offset : givenOffset(offset);
    return new ZonedDateTime(instantBy(this.#zone, withoutLeap(plain), ahead, asked), this.#zone);
  }

  /** The date-time so much later: years to days by what the clock shows, and then hours and shorter units by the line of time. */
  add(duration, options) {
    const by = Duration.from(duration);
    overflowOf(options);
    const { years, months, weeks, days } = by;
    let start = this.#nanoseconds;
    if (years !== 0 || months !== 0 || weeks !== 0 || days !== 0) {
      const landed = this.#plain.add({ years, months, weeks, days }, options);
      start = instantOf(this.#zone, withoutLeap(landed), "compatible");
    }
    return new ZonedDateTime(start + by.exactNanoseconds - BigInt(days) * DAY * SECOND, this.#zone);
  }

  /** The date-time so much earlier, as `add` of the duration negated. */
  subtract(duration, options) {
    return this.add(Duration.from(duration).negated(), options);
  }

  /**
   * The date-time at a whole multiple of a unit, as what the clock shows is rounded (`PlainDateTime.round`). The offset stays if the clock
   * has it there. A day is as long as the zone has it.
   */
  round(options) {
    const given = typeof options === "string" ? { smallestUnit: options } : optionsOf(options ?? null);
    const plain = this.#plain.round(given);
    if (unitOf(given.smallestUnit, "smallestUnit", Object.keys(NANOSECONDS)) !== "day") {
      return new ZonedDateTime(instantBy(this.#zone, momentOf(plain), this.#offset, { offset: "prefer" }), this.#zone);
    }
    const first = this.startOfDay().#nanoseconds;
    const passed = rounded(this.#nanoseconds - first, this.#lengthOfDay(), modeOf(given, "halfExpand"));
    return new ZonedDateTime(first + passed, this.#zone);
  }

  /** How far it is to another, in hours and shorter units, or from a shorter unit of a clock on (`largestUnit`). */
  until(other, options) {
    const unit = largestUnitOf(options, UNITS, "hour");
    return Duration.fromNanoseconds(this.#other(other).#nanoseconds - this.#nanoseconds, unit);
  }

  /** How far it is from another, as `until` negated. */
  since(other, options) {
    return this.until(other, options).negated();
  }

  /** The next change of the offset (`next`); null if there is none. */
  getTimeZoneTransition(direction) {
    const asked = typeof direction === "string" ? direction : optionsOf(direction).direction;
    if (asked !== "next") {
      throw new RangeError(`direction ${asked}: it is "next" here`);
    }
    const at = this.#zone.nextChange(split(this.#nanoseconds).seconds);
    return at === undefined ? null : new ZonedDateTime(at * SECOND, this.#zone);
  }

  /** Whether it is the same instant in the same zone. */
  equals(other) {
    const theirs = this.#other(other);
    return this.#nanoseconds === theirs.#nanoseconds && this.#zone.equals(theirs.#zone);
  }

  /** The text of ISO 8601 with the offset in whole minutes, and the name of the zone in brackets if it has one. */
  toString(options) {
    refuseRounding(options, "texts");
    const [offset, zoneName] = Object.entries(SHOWN).map(([name, choices]) => choiceOf(options, name, choices));
    const calendar = annotation(options);
    const name = zoneName === "never" || this.#zone.name === undefined ? "" : `[${zoneName === "critical" ? "!" : ""}${this.#zone.name}]`;
    return `${this.#plain}${offset === "never" ? "" : offsetText(inMinutes(this.#offset))}${name}${calendar}`;
  }

  toJSON() {
    return this.toString();
  }

  /** The text in the words of a language, as of the PlainDateTime, with the offset behind it. */
  toLocaleString(locales, options) {
    return `${this.#plain.toLocaleString(locales, options)} ${this.offset}`;
  }

  /** Date-times are compared by `ZonedDateTime.compare`. */
  valueOf() {
    throw new TypeError("date-times are compared by ZonedDateTime.compare");
  }

  get [Symbol.toStringTag]() {
    return "ZonedDateTime";
  }

  [Symbol.for("nodejs.util.inspect.custom")]() {
    return `ZonedDateTime ${this}`;
  }
}

/** What is asked of what the clock shows. */
const OF_PLAIN = [
  "calendarId", "year", "month", "monthCode", "day", "dayOfWeek", "dayOfYear", "weekOfYear", "yearOfWeek", "daysInWeek", "daysInMonth",
  "daysInYear", "monthsInYear", "inLeapYear", "hour", "minute", "second", "millisecond", "microsecond", "nanosecond",
];
for (const name of OF_PLAIN) {
  const get = function () {
    return this.toPlainDateTime()[name];
  };
  Object.defineProperty(ZonedDateTime.prototype, name, { get, configurable: true });
}
