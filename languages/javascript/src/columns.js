/**
 * Columns of dates, by functions that are proved for columns: an `Int32Array` of day numbers, each as `PlainDate.dayNumber` has it.
 *
 * Nothing is thrown for an element. `NO_DATE` stands for no date, and for a year or a number of days that there is not. 0 stands for no
 * month, day, week or weekday.
 */

import { closedOf, otherYear, placeOf, ROLLS } from "./business_calendar.js";
import { callInPieces, isDetached, readFrom, ROOM_PAGES, same, TEXT, writtenTo } from "./column_room.js";
import { MODULE } from "./columns_module.js";
import { instantiate } from "./instantiate.js";
import { callOnColumns, callOnOpenDays } from "./layers.js";
import { NONE } from "./library.js";
import { clipped, whole } from "./numbers.js";
import { PlainDate, setOf } from "./plain_date.js";

/** Stands for no date. */
export const NO_DATE = NONE;

/** The most that a date moves by. */
const MOST = 2 ** 31 - 1;

/** The text of no date in a column of texts. */
const NO_TEXT = "\0".repeat(TEXT);

/** So many texts become one text on the way. */
const TEXTS = 16_384;

const encoder = new TextEncoder();
const decoder = new TextDecoder();

/** The module's exports, and where the room behind its own memory begins. It is loaded at the first call. */
let opened;

function open() {
  if (opened === undefined) {
    const library = instantiate(MODULE);
    opened = { library, memory: library.memory, start: library.memory.grow(ROOM_PAGES) * 65_536 };
  }
  return opened;
}

/** Calls a function of the module, which `choose` finds, for columns of so many elements. */
function call(count, choose, ...given) {
  callInPieces(open(), count, choose(open().library), ...given);
}

/** A column; a TypeError if it is no array of the kind, or if its memory was given away. */
function columnOf(column, what, ...kinds) {
  if (!kinds.some((it) => column instanceof it)) {
    throw new TypeError(`${what}: the type is not ${kinds.map((it) => it.name).join(" or ")}`);
  }
  if (isDetached(column)) {
    throw new TypeError(`${what}: the column's memory was given away`);
  }
  return column;
}

const datesOf = (dates) => columnOf(dates, "dates", Int32Array);

/** Refuses columns of different lengths. */
function refuseLengths(...columns) {
  if (columns.some((it) => it.length !== columns[0].length)) {
    throw new RangeError(`columns of ${columns.map((it) => it.length).join(" and ")} elements: all have as many`);
  }
}

/** A whole number that moves dates, which is cut to 32 bits: a move beyond them leads to no date. */
const moveOf = (value, what) => clipped(whole(value, what), -MOST, MOST);

/** What a function tells of each date, in arrays of some kinds. */
function asked(dates, choose, ...kinds) {
  const outs = kinds.map((kind) => new kind(datesOf(dates).length));
  call(dates.length, choose, readFrom(dates), ...outs.map((it) => writtenTo(it)));
  return outs;
}

// ---- what dates are called

/** The year of each date. */
export const years = (dates) => asked(dates, (library) => library.calendar_column_years, Int32Array)[0];

/** The day of the year of each date, from 1. */
export const daysOfYear = (dates) => asked(dates, (library) => library.calendar_column_ordinals, Uint16Array)[0];

/** The weekday of each date, from 1 for Monday to 7. */
export const daysOfWeek = (dates) => asked(dates, (library) => library.calendar_column_weekdays, Uint8Array)[0];

/** The years, the months and the days of the month. */
export function fields(dates) {
  const [ofYears, months, days] = asked(dates, (library) => library.calendar_column_split, Int32Array, Uint8Array, Uint8Array);
  return { years: ofYears, months, days };
}

/** The ISO weeks, and the years that they belong to. */
export function isoWeeks(dates) {
  const [yearsOfWeek, weeksOfYear] = asked(dates, (library) => library.calendar_column_iso_weeks, Int32Array, Uint8Array);
  return { yearsOfWeek, weeksOfYear };
}

/** How many elements are dates. */
export function countDates(dates) {
  let found = 0;
  call(datesOf(dates).length, (library) => (...given) => {
    found += Number(library.calendar_column_count_dates(...given));
  }, readFrom(dates));
  return found;
}

/** The text of each date as ten bytes, such as those of `2024-02-29`; ten zeros for a year outside 0 to 9999. */
export function textBytes(dates) {
  const bytes = new Uint8Array(TEXT * datesOf(dates).length);
  call(dates.length, (library) => library.calendar_column_write_dates, readFrom(dates), writtenTo(bytes, TEXT));
  return bytes;
}

/** The text of each date, such as `2024-02-29`; the empty text for a year outside 0 to 9999. */
export function texts(dates) {
  const found = new Array(datesOf(dates).length);
  for (let first = 0; first < dates.length; first += TEXTS) {
    const all = decoder.decode(textBytes(dates.subarray(first, first + TEXTS)));
    for (let place = 0; place < all.length; place += TEXT) {
      found[first + place / TEXT] = all[place] === "\0" ? "" : all.slice(place, place + TEXT);
    }
  }
  return found;
}

// ---- dates

/** What moves each date, into an array of its own. */
function moved(dates, choose, ...by) {
  const out = new Int32Array(datesOf(dates).length);
  call(dates.length, choose, readFrom(dates), ...by, writtenTo(out));
  return out;
}

/** The date so many days later, or earlier if below 0: as many for each, or a column of them, of which `NO_DATE` leads to no date. */
export function addDays(dates, days) {
  if (days instanceof Int32Array) {
    refuseLengths(datesOf(dates), columnOf(days, "days", Int32Array));
    return moved(dates, (library) => library.calendar_column_add_days_each, readFrom(days));
  }
  return moved(dates, (library) => library.calendar_column_add_days, moveOf(days, "days"));
}

/** The date so many months later, or earlier if below 0. If that month is too short, it is its last day. */
export const addMonths = (dates, months) =>
  moved(dates, (library) => library.calendar_column_add_months, moveOf(months, "months"));

/** The first date from each on, itself counted, that falls on one of the weekdays; NO_DATE if none is given. */
export const firstOn = (dates, ...ofWeek) => moved(dates, (library) => library.calendar_column_first_on, setOf(ofWeek));

/** A column beside dates: another column of as many, or one date for all. */
function besideOf(dates, others) {
  if (others instanceof Int32Array) {
    refuseLengths(datesOf(dates), columnOf(others, "the other column", Int32Array));
    return readFrom(others);
  }
  return same(PlainDate.from(others).dayNumber);
}

/** The days from each base to the date at its place; the bases are a column, or one date. */
export function daysBetween(dates, bases) {
  return moved(dates, (library) => library.calendar_column_days_between, besideOf(dates, bases));
}

/** The date of each year, month and day of the month. */
export function fromFields(ofYears, months, days) {
  columnOf(ofYears, "years", Int32Array);
  columnOf(months, "months", Uint8Array);
  columnOf(days, "days", Uint8Array);
  refuseLengths(ofYears, months, days);
  const dates = new Int32Array(ofYears.length);
  call(dates.length, (library) => library.calendar_column_join, ...[ofYears, months, days].map((it) => readFrom(it)), writtenTo(dates));
  return dates;
}

/** Whether a value is a text of ten characters of ASCII. */
const isText = (it) => typeof it === "string" && it.length === TEXT && !/[^\0-\x7f]/.test(it);

/** Some texts as ten bytes each; what is no text of ten characters of ASCII becomes ten zeros. */
function bytesOf(some) {
  const bytes = new Uint8Array(TEXT * some.length);
  let all = "";
  for (const it of some) {
    all += typeof it === "string" && it.length === TEXT ? it : NO_TEXT;
  }
  // (each character takes a byte, unless one is not of ASCII)
  if (encoder.encodeInto(all, bytes).read < all.length) {
    encoder.encodeInto(Array.from(some, (it) => (isText(it) ? it : NO_TEXT)).join(""), bytes);
  }
  return bytes;
}

function readBytes(bytes) {
  const dates = new Int32Array(bytes.length / TEXT);
  call(dates.length, (library) => library.calendar_column_read_dates, readFrom(bytes, TEXT), writtenTo(dates));
  return dates;
}

/** The date of each text such as `2024-02-29`, in an array of texts or as ten bytes each. What is another text is no date. */
export function fromTexts(given) {
  if (given instanceof Uint8Array) {
    columnOf(given, "texts", Uint8Array);
    if (given.length % TEXT !== 0) {
      throw new RangeError(`${given.length} bytes: each text has ${TEXT}`);
    }
    return readBytes(given);
  }
  if (!Array.isArray(given)) {
    throw new TypeError("texts: the type is not Array or Uint8Array");
  }
  const dates = new Int32Array(given.length);
  for (let first = 0; first < given.length; first += TEXTS) {
    dates.set(readBytes(bytesOf(given.slice(first, first + TEXTS))), first);
  }
  return dates;
}

// ---- days since 1970

/** The days from 1 January 1970 to each date, as Arrow's date32 has them. */
export function unixDays(dates) {
  const days = new Int32Array(datesOf(dates).length);
  callOnColumns(days.length, (layers) => layers.calendar_column_to_date32, readFrom(dates), writtenTo(days));
  return days;
}

/** The same as numbers of 64 bits, of which the least stands for no date. */
export const unixDays64 = (dates) => asked(dates, (library) => library.calendar_column_to_unix_days, BigInt64Array)[0];

/** The date of each number of days since 1 January 1970, of 32 bits or of 64. */
export function fromUnixDays(days) {
  const dates = new Int32Array(columnOf(days, "days", Int32Array, BigInt64Array).length);
  if (days instanceof BigInt64Array) {
    call(days.length, (library) => library.calendar_column_from_unix_days, readFrom(days), writtenTo(dates));
  } else {
    callOnColumns(days.length, (layers) => layers.calendar_column_from_date32, readFrom(days), writtenTo(dates));
  }
  return dates;
}

// ---- open days

/** The numbers of the first and the last date. */
const [FIRST_DATE, LAST_DATE] = [-95_746_129, 95_745_399];

const isDate = (number) => FIRST_DATE <= number && number <= LAST_DATE;

/** What stands in a column of marks for a date of another year. */
const OTHER_YEAR = 2;

/** Calls one function for columns by a calendar without years, and another one by a calendar with years, which it is given too. */
function callByYears(calendar, count, always, within, ...given) {
  const { years } = closedOf(calendar);
  const [choose, ends] = years === undefined ? [always, []] : [within, years];
  callOnOpenDays(closedOf(calendar), count, choose, ...ends, ...given);
}

/** Refuses a column by a RangeError, if the calendar has years, and the answer to the date at some place looks at another one. */
function refuseOtherYears(calendar, dates, isOther) {
  const { years } = closedOf(calendar);
  if (years !== undefined && dates.some((date, place) => isDate(date) && isOther(place))) {
    throw otherYear(years);
  }
}

/**
 * Whether each element is an open day, as 1 or 0. What is no date is not open. An answer that looks at a year of which the holidays are not
 * known is a RangeError, here and below.
 */
export function isOpen(dates, calendar) {
  const marks = new Uint8Array(datesOf(dates).length);
  const [always, within] = [(layers) => layers.calendar_column_is_open_day, (layers) => layers.calendar_column_is_open_day_within];
  callByYears(calendar, marks.length, always, within, readFrom(dates), writtenTo(marks));
  refuseOtherYears(calendar, dates, (place) => marks[place] === OTHER_YEAR);
  return marks;
}

/** The n-th open day after each date, as `BusinessCalendar.add` finds it. */
export function addOpenDays(dates, n, calendar) {
  const out = new Int32Array(datesOf(dates).length);
  const days = BigInt(moveOf(n, "open days"));
  const [always, within] = [(layers) => layers.calendar_column_add_open_days, (layers) => layers.calendar_column_add_open_days_within];
  callByYears(calendar, out.length, always, within, readFrom(dates), days, writtenTo(out));
  refuseOtherYears(calendar, dates, (place) => out[place] === NO_DATE);
  return out;
}

/** How many days are open from each date on and before the other at its place; the others are a column, or one date. */
export function openDaysBetween(from, to, calendar) {
  const days = new BigInt64Array(datesOf(from).length);
  const ends = besideOf(from, to);
  const endOf = to instanceof Int32Array ? (place) => to[place] : () => ends.number;
  const [always, within] = [(layers) => layers.calendar_column_open_days_between, (layers) => layers.calendar_column_open_days_between_within];
  callByYears(calendar, days.length, always, within, readFrom(from), ends, writtenTo(days));
  // (the least number of 64 bits, which stands for no days, becomes that of 32; all others have 32 bits)
  const [halves, out] = [new Int32Array(days.buffer), new Int32Array(days.length)];
  for (let place = 0; place < out.length; place += 1) {
    out[place] = halves[2 * place + 1] === NONE ? NONE : halves[2 * place];
  }
  refuseOtherYears(calendar, from, (place) => isDate(endOf(place)) && out[place] === NONE);
  return out;
}

/** The date that each date goes to by a roll, such as `modifiedFollowing`. */
export function roll(dates, name, calendar) {
  const out = new Int32Array(datesOf(dates).length);
  const place = placeOf(name, ROLLS, "roll");
  const [always, within] = [(layers) => layers.calendar_column_roll, (layers) => layers.calendar_column_roll_within];
  callByYears(calendar, out.length, always, within, readFrom(dates), place, writtenTo(out));
  refuseOtherYears(calendar, dates, (index) => out[index] === NO_DATE);
  return out;
}
