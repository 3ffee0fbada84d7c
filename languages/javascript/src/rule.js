/** Recurrence rules over days. */

import { AT_ONCE, checkRule, instancesBetween, isInstance, MOST_AT_ONCE, nextInstance, previousInstance } from "./layers.js";
import { NONE } from "./library.js";
import { optionsOf } from "./numbers.js";
import { PlainDate } from "./plain_date.js";

/** The number of the last date. */
export const LAST = 95_745_399;

/** Whether a rule has COUNT. */
export const hasCount = (rule) => /COUNT=/i.test(`${rule}`);

/** The date of a number that the library answers; undefined if it is none. */
const dateOrNone = (number) => (number === NONE ? undefined : PlainDate.fromDayNumber(number));

/**
 * A recurrence rule of RFC 5545, such as `FREQ=MONTHLY;BYDAY=-1FR`, from a start on. Its instances are days.
 *
 * The start is an instance only if it fits the rule. A monthly rule from the 31st has no instance in shorter months.
 */
export class Rule {
  #text;
  #bytes;
  #start;

  /** The rule of a text from a start on; a TextError says what is wrong with the text first, and where. */
  constructor(text, start) {
    this.#text = `${text}`;
    this.#start = PlainDate.from(start);
    this.#bytes = checkRule(this.#text);
  }

  /** The date that it begins on. */
  get start() {
    return this.#start;
  }

  /** The first instance after a date; undefined if there is none. */
  nextAfter(date) {
    return dateOrNone(nextInstance(this.#bytes, this.#start.dayNumber, PlainDate.from(date).dayNumber));
  }

  /** The last instance before a date; undefined if there is none. */
  previousBefore(date) {
    return dateOrNone(previousInstance(this.#bytes, this.#start.dayNumber, PlainDate.from(date).dayNumber));
  }

  /** Whether a date is an instance. */
  includes(date) {
    return isInstance(this.#bytes, this.#start.dayNumber, PlainDate.from(date).dayNumber);
  }

  /** The instances in order, from a date on and up to another; both count. They are all if no option is given. */
  iterate(options) {
    const { from, until } = optionsOf(options);
    const first = from === undefined ? this.#start.dayNumber : PlainDate.from(from).dayNumber;
    return this.#instances(first, until === undefined ? LAST : PlainDate.from(until).dayNumber);
  }

  [Symbol.iterator]() {
    return this.iterate();
  }

  /**
   * The instances from one day on, up to another. Each call counts a rule with COUNT from its start, and one by one no more than the days of
   * twice 400 years. So each call finds twice as many, and all together count few for each one that they find.
   */
  *#instances(first, last) {
    const greatest = hasCount(this) ? MOST_AT_ONCE : AT_ONCE;
    let [from, most, found] = [first, AT_ONCE, []];
    while (true) {
      found = instancesBetween(this.#bytes, this.#start.dayNumber, from, last, most);
      for (const it of found) {
        yield PlainDate.fromDayNumber(it);
      }
      if (found.length < most) {
        return;
      }
      [from, most] = [found.at(-1) + 1, Math.min(2 * most, greatest)];
    }
  }

  /** The text that it was read from. */
  toString() {
    return this.#text;
  }

  /** The text and the start, which the constructor takes. */
  toJSON() {
    return { text: this.#text, start: this.#start.toJSON() };
  }

  get [Symbol.toStringTag]() {
    return "Rule";
  }

  [Symbol.for("nodejs.util.inspect.custom")]() {
    return `Rule ${this} from ${this.#start}`;
  }
}
