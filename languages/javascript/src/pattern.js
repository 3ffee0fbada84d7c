/** Patterns of texts. */

import { checkPattern, formatDate, formatDateTime, namesOffset, parseDate, parseDateTime, parseZoned } from "./layers.js";
import { PlainDate } from "./plain_date.js";
import { dateTimeOf, momentOf, PlainDateTime } from "./plain_date_time.js";
import { atOffset } from "./zoned_date_time.js";

/** The text of a date or a date-time by the bytes of a pattern; undefined if it has none. */
function written(bytes, value) {
  if (value instanceof PlainDateTime) {
    return formatDateTime(bytes, momentOf(value));
  }
  if (value instanceof PlainDate) {
    return formatDate(bytes, value.dayNumber);
  }
  throw new TypeError("a pattern writes a PlainDate or a PlainDateTime");
}

/**
 * A pattern, such as `%d.%m.%Y`, which writes and reads dates and date-times.
 *
 * Its specifiers are those of chrono's `format`, with English names. What is no specifier is written as it is.
 */
export class Pattern {
  #text;
  #bytes;

  /** The pattern of a text; a TextError says which specifier is wrong first, and where. */
  constructor(text) {
    this.#text = `${text}`;
    this.#bytes = checkPattern(this.#text);
  }

  /**
   * The text of a PlainDate or a PlainDateTime; RangeError if the pattern asks for what the value lacks, or the text has more than
   * 1,000 bytes. A date lacks a time, and both lack an offset.
   */
  format(value) {
    const text = written(this.#bytes, value);
    if (text === undefined) {
      throw new RangeError(`${JSON.stringify(this.#text)}: it asks for what ${value} lacks, or writes more than 1,000 bytes`);
    }
    return text;
  }

  /** The date that a text has; a TextError says what is wrong with the text first, and where. */
  parseDate(text) {
    return PlainDate.fromDayNumber(parseDate(this.#bytes, `${text}`));
  }

  /**
   * The date-time that a text has; a TextError says what is wrong with the text first, and where. RangeError if the pattern reads an offset:
   * `parseZonedDateTime` keeps it.
   */
  parseDateTime(text) {
    if (namesOffset(this.#bytes)) {
      throw new RangeError(`${JSON.stringify(this.#text)}: it reads an offset, which parseZonedDateTime keeps`);
    }
    return dateTimeOf(parseDateTime(this.#bytes, `${text}`));
  }

  /**
   * The instant that a text has, in a zone of the offset of the text; a TextError says what is wrong with the text first, and where. The
   * pattern reads an offset, or seconds since 1970.
   */
  parseZonedDateTime(text) {
    const { local, offset } = parseZoned(this.#bytes, `${text}`);
    return atOffset(local, offset);
  }

  /** The text that it was made of. */
  toString() {
    return this.#text;
  }

  toJSON() {
    return this.#text;
  }

  get [Symbol.toStringTag]() {
    return "Pattern";
  }

  [Symbol.for("nodejs.util.inspect.custom")]() {
    return `Pattern ${this}`;
  }
}
