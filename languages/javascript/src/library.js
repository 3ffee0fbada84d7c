/**
 * The functions of the library, which are proved, as a module of WebAssembly.
 *
 * A date is its number, and `NONE` where there is none; they answer for all arguments of their types, whose 32 bits
 * whoever calls has to look at, since WebAssembly cuts other numbers to them. Date-times and texts lie in memory behind
 * all that the module itself uses.
 */

import { instantiate } from "./instantiate.js";
import { MODULE } from "./module.js";
import { getMoment, setMoment } from "./moments.js";

/** Stands for a date, a field or a length that there is not. */
export const NONE = -(2 ** 31);

/** Where things lie behind the module's own memory: a date-time, another or a duration, an answer, a text. */
const [FIRST, SECOND, ANSWER, TEXT] = [0n, 16n, 32n, 64n];

/** No text of a date or a date-time is longer. */
const LONGEST = 32;

export const library = instantiate(MODULE);

/** The first byte of a page behind the module's own memory. */
const ROOM = BigInt(library.memory.grow(1)) * 65_536n;

const view = new DataView(library.memory.buffer, Number(ROOM), 128);
const textBytes = new Uint8Array(library.memory.buffer, Number(ROOM + TEXT), LONGEST);

/** Puts a date-time or a duration into the room, and answers where. */
function put(at, moment) {
  setMoment(view, Number(at), moment);
  return ROOM + at;
}

/** The date-time or the duration that a function answered, with seconds as a BigInt; undefined if none. */
const answered = () => getMoment(view, Number(ANSWER));

/** The date-time at a second of a date and so many nanoseconds past it. */
export function dateTimeAt(date, secondOfDay, nanos) {
  library.calendar_date_time_new(ROOM + ANSWER, date, secondOfDay, nanos);
  return answered();
}

/** The number of a date-time's date. */
export const dateOf = (moment) => library.calendar_date_time_date(put(FIRST, moment));

/** The second of the day of a date-time. */
export const secondOfDayOf = (moment) => library.calendar_date_time_second_of_day(put(FIRST, moment));

/** The date-time that lies so much later. */
export function moved(moment, by) {
  library.calendar_date_time_add(ROOM + ANSWER, put(FIRST, moment), put(SECOND, by));
  return answered();
}

/** How far a date-time is from another. */
export function distance(moment, base) {
  library.calendar_date_time_since(ROOM + ANSWER, put(FIRST, moment), put(SECOND, base));
  return answered();
}

/** The characters of ASCII, by their numbers. */
const ASCII = Array.from({ length: 128 }, (_, code) => String.fromCharCode(code));

/** The text that a function left in the room, in so many bytes. */
function written(length) {
  let text = "";
  for (let index = 0; index < length; index += 1) {
    text += ASCII[textBytes[index]];
  }
  return text;
}

/** The text of a date. */
export const textOfDate = (date) => written(library.calendar_write_date(date, ROOM + TEXT, BigInt(LONGEST)));

/** The text of a date-time. */
export const textOfDateTime = (moment) =>
  written(library.calendar_write_date_time(put(FIRST, moment), ROOM + TEXT, BigInt(LONGEST)));

/** Puts a text of ASCII into the room: how many bytes it takes; undefined if it does not fit, so is too long for any date. */
function putText(text) {
  if (text.length > LONGEST) {
    return undefined;
  }
  for (let index = 0; index < text.length; index += 1) {
    textBytes[index] = text.charCodeAt(index);
  }
  return BigInt(text.length);
}

/** The date of a text. */
export function readDate(text) {
  const length = putText(text);
  return length === undefined ? NONE : library.calendar_read_date(ROOM + TEXT, length);
}

/** The date-time of a text. */
export function readDateTime(text) {
  const length = putText(text);
  if (length === undefined) {
    return undefined;
  }
  library.calendar_read_date_time(ROOM + ANSWER, ROOM + TEXT, length);
  return answered();
}
