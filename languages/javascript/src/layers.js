/**
 * The functions of the layers, which are proved, as a second module of WebAssembly. It is loaded at the first call.
 *
 * They take what lies in memory behind all that the module itself uses: texts, patterns, schedules, holidays, date-times and zones.
 */

import { callInPieces, ROOM_PAGES } from "./column_room.js";
import { instantiate } from "./instantiate.js";
import { MODULE } from "./layers_module.js";
import { NONE } from "./library.js";
import { getMoment, MOMENT_SIZE, setMoment } from "./moments.js";
import { TextError } from "./text_error.js";

/** A page of memory. */
const PAGE = 65_536;

/** Where things lie in the room: what is wrong, two date-times, an answer, a schedule, date-times, holidays, a text, a pattern, a zone. */
const [FAULT, FIRST, SECOND, ANSWER, SCHEDULE, DUE, HOLIDAYS, TEXT, PATTERN, ZONE] = [0, 32, 48, 64, 128, 1_024, 2_048, 8_192, PAGE, 2 * PAGE];

/** How many bytes the room has. That of columns lies behind it. */
const ROOM = 3 * PAGE;

/** A text, or a pattern, has at most so many bytes. */
const LONGEST = PAGE - TEXT;

/** The bytes of a zone are at most so many. */
export const LONGEST_ZONE = PAGE;

/** How many bytes a schedule takes. */
const SCHEDULE_SIZE = 80;

/** So many times are found at once. */
export const AT_ONCE = (HOLIDAYS - DUE) / MOMENT_SIZE;

/** So many instances of a rule are found at once, at most. They are written where columns lie. */
export const MOST_AT_ONCE = 131_072;

/** A calendar has at most so many holidays. */
export const MOST_HOLIDAYS = 1_000;

/** The least number of 64 bits, which stands for no number of days. */
const NO_DAYS = -(2n ** 63n);

/** The module's exports, and the room behind its own memory: where it begins, and two views of it. */
let opened;

function open() {
  if (opened === undefined) {
    const layers = instantiate(MODULE);
    const start = layers.memory.grow(ROOM / PAGE + ROOM_PAGES) * PAGE;
    const { buffer } = layers.memory;
    opened = { layers, start, view: new DataView(buffer, start, ROOM), bytes: new Uint8Array(buffer, start, ROOM) };
  }
  return opened;
}

/** An address as the module takes one. */
const address = ({ start }, at) => BigInt(start + at);

/** Decodes texts, and keeps a byte order mark in front. */
const decoder = new TextDecoder("utf-8", { ignoreBOM: true });

/** The text of some bytes of the room. */
const textAt = ({ bytes }, at, length) => decoder.decode(bytes.subarray(at, at + length));

/** Puts a text into the room: its bytes. A text that is too long is wrong from where its part of the room ends. */
function putText({ bytes }, text, at = TEXT) {
  const encoded = new TextEncoder().encode(text);
  if (encoded.length > LONGEST) {
    throw new TextError(text, placeOf(encoded, LONGEST), text.length, `longer than ${LONGEST.toLocaleString("en")} bytes`);
  }
  bytes.set(encoded, at);
  return encoded;
}

/** The place in a string of a byte of its encoded text: that of the character which has the byte. */
function placeOf(encoded, byte) {
  let first = byte;
  while ((encoded[first] & 0xc0) === 0x80) {
    first -= 1;
  }
  return decoder.decode(encoded.subarray(0, first)).length;
}

/** Where the part of a text begins and ends that the library found wrong. */
const wrongPart = ({ view }, encoded) => [8, 16].map((it) => placeOf(encoded, Number(view.getBigUint64(FAULT + it, true))));

/** Throws what is wrong with a text, which lies in the room, in words of the library. */
function throwFault(room, text, encoded, write) {
  const length = write(address(room, FAULT), address(room, TEXT), BigInt(LONGEST));
  throw new TextError(text, ...wrongPart(room, encoded), textAt(room, TEXT, length));
}

/** Throws what is wrong with a pattern, or with a text that a pattern reads. */
function throwPatternFault(room, text, encoded) {
  throwFault(room, text, encoded, room.layers.calendar_pattern_fault_text);
}

/** The version of the library. */
export function version() {
  const room = open();
  return textAt(room, TEXT, room.layers.calendar_layers_version(address(room, TEXT), BigInt(LONGEST)));
}

/** The bytes of the schedule that a text has; a TextError if it has none. */
export function readSchedule(text) {
  const room = open();
  const { layers, bytes } = room;
  const encoded = putText(room, text);
  const places = [TEXT, SCHEDULE, FAULT].map((it) => address(room, it));
  if (!layers.calendar_schedule_read(places[0], BigInt(encoded.length), places[1], places[2])) {
    throwFault(room, text, encoded, layers.calendar_schedule_fault_text);
  }
  return bytes.slice(SCHEDULE, SCHEDULE + SCHEDULE_SIZE);
}

/** Puts a schedule and a date-time into the room, and answers both addresses. */
function putSchedule(room, schedule, moment) {
  room.bytes.set(schedule, SCHEDULE);
  setMoment(room.view, FIRST, moment);
  return [address(room, SCHEDULE), address(room, FIRST)];
}

/** The first date-time after another at which a schedule is due; undefined if there is none. */
export function nextDue(schedule, start) {
  const room = open();
  room.layers.calendar_schedule_next(address(room, ANSWER), ...putSchedule(room, schedule, start));
  return getMoment(room.view, ANSWER);
}

/** The last date-time before another at which a schedule is due; undefined if there is none. */
export function previousDue(schedule, start) {
  const room = open();
  room.layers.calendar_schedule_prev(address(room, ANSWER), ...putSchedule(room, schedule, start));
  return getMoment(room.view, ANSWER);
}

/** Whether a schedule is due at a date-time. */
export function isDue(schedule, moment) {
  const room = open();
  return room.layers.calendar_schedule_is_due(...putSchedule(room, schedule, moment)) !== 0;
}

/** The first date-times, at most `AT_ONCE`, after one and up to another at which a schedule is due. */
export function dueBetween(schedule, start, until) {
  const room = open();
  const places = putSchedule(room, schedule, start);
  setMoment(room.view, SECOND, until);
  const others = [SECOND, DUE].map((it) => address(room, it));
  const count = Number(room.layers.calendar_schedule_due(...places, ...others, BigInt(AT_ONCE)));
  return Array.from({ length: count }, (_, index) => getMoment(room.view, DUE + MOMENT_SIZE * index));
}

/** Puts holidays into the room, and answers what a function takes as a calendar without years. */
function putCalendar(room, { weekend, holidays }) {
  holidays.forEach((it, index) => room.view.setInt32(HOLIDAYS + 4 * index, it, true));
  return [weekend, address(room, HOLIDAYS), BigInt(holidays.length)];
}

/** What is wrong with the holidays of a calendar: one does not rise or is on the weekend, or they are too many. Undefined if nothing is. */
export function faultOfHolidays(calendar) {
  const room = open();
  const fault = address(room, FAULT);
  if (room.layers.calendar_holidays_check(...putCalendar(room, calendar), fault)) {
    return undefined;
  }
  return textAt(room, TEXT, room.layers.calendar_holidays_fault_text(fault, address(room, TEXT), BigInt(LONGEST)));
}

/** The numbers of the holidays of a known calendar in some years; undefined if they are too many, or there is no such year. */
export function holidaysOf(which, firstYear, lastYear, weekend) {
  const room = open();
  const out = [address(room, HOLIDAYS), BigInt(MOST_HOLIDAYS)];
  const count = room.layers.calendar_holidays_of(which, firstYear, lastYear, weekend, ...out);
  return count === NONE ? undefined : Int32Array.from({ length: count }, (_, index) => room.view.getInt32(HOLIDAYS + 4 * index, true));
}

/** The first year of which the holidays of a known calendar are known. */
export const firstYearOf = (which) => open().layers.calendar_holidays_first_year(which);

/** The number of Easter Sunday of a year; the number of no date if there is no such year. */
export const easterOf = (year) => open().layers.calendar_easter(year);

/**
 * Whether a date, by its number, is open in a calendar: a set of weekdays, the numbers of holidays, and the years of which these are
 * known. Undefined if it lies in another year.
 */
export function isOpenDay(calendar, date) {
  const found = askedOf(
    calendar,
    (layers, ...given) => layers.calendar_is_open_day(...given),
    (layers, ...given) => layers.calendar_is_open_day_within(...given),
    date,
  );
  return found === NONE ? undefined : Boolean(found);
}

/** What one of two functions answers, of which the second takes the years of a calendar too. */
function askedOf(calendar, plain, within, ...given) {
  const room = open();
  const parts = putCalendar(room, calendar);
  return calendar.years === undefined ? plain(room.layers, ...parts, ...given) : within(room.layers, ...parts, ...calendar.years, ...given);
}

/** The number of the n-th open day after a date, n being a BigInt; the number of no date if there is none, or it looks at another year. */
export const addOpenDays = (calendar, date, n) =>
  askedOf(
    calendar,
    (layers, ...given) => layers.calendar_add_open_days(...given),
    (layers, ...given) => layers.calendar_add_open_days_within(...given),
    date,
    n,
  );

/** How many days are open from one date on and before another; undefined if the calendar is none, or one lies in another year. */
export function openDaysBetween(calendar, from, to) {
  const days = askedOf(
    calendar,
    (layers, ...given) => layers.calendar_open_days_between(...given),
    (layers, ...given) => layers.calendar_open_days_between_within(...given),
    from,
    to,
  );
  return days === NO_DAYS ? undefined : Number(days);
}

/** The number of the date that a date goes to by a roll; the number of no date if there is none, or it looks at another year. */
export const rolled = (calendar, date, roll) =>
  askedOf(
    calendar,
    (layers, ...given) => layers.calendar_roll(...given),
    (layers, ...given) => layers.calendar_roll_within(...given),
    date,
    roll,
  );

/** Calls a function of columns, which `choose` finds, for so many elements. */
export function callOnColumns(count, choose, ...given) {
  const { layers, start } = open();
  callInPieces({ memory: layers.memory, start: start + ROOM }, count, choose(layers), ...given);
}

/** The same of a function of a calendar. */
export function callOnOpenDays(calendar, count, choose, ...given) {
  callOnColumns(count, choose, ...putCalendar(open(), calendar), ...given);
}

/** The part of a year from one date to another by a day count, as two numbers. */
export function yearPart(kind, from, to) {
  const room = open();
  room.layers.calendar_day_count(address(room, ANSWER), kind, from, to);
  return [0, 8].map((it) => Number(room.view.getBigInt64(ANSWER + it, true)));
}

/** The bytes of a text that is a recurrence rule; a TextError if it is none. */
export function checkRule(text) {
  const room = open();
  const encoded = putText(room, text);
  const [at, fault] = [TEXT, FAULT].map((it) => address(room, it));
  if (!room.layers.calendar_rule_check(at, BigInt(encoded.length), fault)) {
    throwFault(room, text, encoded, room.layers.calendar_rule_fault_text);
  }
  return encoded;
}

/** Puts a rule into the room, and answers what a function takes as its text. */
function putRule(room, rule) {
  room.bytes.set(rule, TEXT);
  return [address(room, TEXT), BigInt(rule.length)];
}

/** The number of the first instance after a day of a rule that begins on a start; the number of no date if there is none. */
export function nextInstance(rule, start, day) {
  const room = open();
  return room.layers.calendar_rule_next(...putRule(room, rule), start, day);
}

/** The number of the last instance before a day; the number of no date if there is none. */
export function previousInstance(rule, start, day) {
  const room = open();
  return room.layers.calendar_rule_prev(...putRule(room, rule), start, day);
}

/** Whether a day is an instance of a rule that begins on a start. */
export function isInstance(rule, start, day) {
  const room = open();
  return room.layers.calendar_rule_is_instance(...putRule(room, rule), start, day) !== 0;
}

/** The numbers of the first instances, at most so many, from one day on and up to another. */
export function instancesBetween(rule, start, from, until, most) {
  const room = open();
  const { layers, view } = room;
  const days = [start, from, until];
  const count = Number(layers.calendar_rule_instances(...putRule(room, rule), ...days, address(room, ROOM), BigInt(most)));
  return new Int32Array(view.buffer, room.start + ROOM, count).slice();
}

/** The bytes of a text that is a pattern; a TextError if it is none. */
export function checkPattern(text) {
  const room = open();
  const encoded = putText(room, text, PATTERN);
  const [at, fault] = [PATTERN, FAULT].map((it) => address(room, it));
  if (!room.layers.calendar_pattern_check(at, BigInt(encoded.length), fault)) {
    throwPatternFault(room, text, encoded);
  }
  return encoded;
}

/** Puts a pattern into the room, and answers what a function takes as its text. */
function putPattern(room, pattern) {
  room.bytes.set(pattern, PATTERN);
  return [address(room, PATTERN), BigInt(pattern.length)];
}

/** The text that a function wrote into the room; undefined if it wrote none. */
const writtenText = (room, length) => (length === NONE ? undefined : textAt(room, TEXT, length));

/** The text of a date, by its number; undefined if the pattern asks for a time or an offset, or the text is too long. */
export function formatDate(pattern, date) {
  const room = open();
  const out = [address(room, TEXT), BigInt(LONGEST)];
  return writtenText(room, room.layers.calendar_format_date(...putPattern(room, pattern), date, ...out));
}

/** The text of a date-time; undefined if the pattern asks for an offset, or the text is too long. */
export function formatDateTime(pattern, moment) {
  const room = open();
  setMoment(room.view, FIRST, moment);
  const places = [address(room, FIRST), address(room, TEXT), BigInt(LONGEST)];
  return writtenText(room, room.layers.calendar_format_date_time(...putPattern(room, pattern), ...places));
}

/** The number of the date that a text has by a pattern; a TextError if there is none. */
export function parseDate(pattern, text) {
  const room = open();
  const encoded = putText(room, text);
  const places = [address(room, TEXT), BigInt(encoded.length), address(room, FAULT)];
  const date = room.layers.calendar_parse_date(...putPattern(room, pattern), ...places);
  if (date === NONE) {
    throwPatternFault(room, text, encoded);
  }
  return date;
}

/** The date-time that a text has by a pattern; a TextError if there is none. */
export function parseDateTime(pattern, text) {
  const room = open();
  const encoded = putText(room, text);
  const places = [address(room, TEXT), BigInt(encoded.length), address(room, FAULT)];
  room.layers.calendar_parse_date_time(address(room, ANSWER), ...putPattern(room, pattern), ...places);
  const moment = getMoment(room.view, ANSWER);
  if (moment === undefined) {
    throwPatternFault(room, text, encoded);
  }
  return moment;
}

/** Whether the texts of a pattern have an offset. */
export function namesOffset(pattern) {
  const room = open();
  return room.layers.calendar_pattern_names_offset(...putPattern(room, pattern)) !== 0;
}

/** The local date-time that a text has by a pattern, and its offset in seconds; a TextError if there is none. */
export function parseZoned(pattern, text) {
  const room = open();
  const encoded = putText(room, text);
  const places = [address(room, TEXT), BigInt(encoded.length), address(room, FAULT)];
  room.layers.calendar_parse_zoned(address(room, ANSWER), ...putPattern(room, pattern), ...places);
  const local = getMoment(room.view, ANSWER);
  if (local === undefined) {
    throwPatternFault(room, text, encoded);
  }
  return { local, offset: room.view.getInt32(ANSWER + 12, true) };
}

/** The zone that lies in the room. */
let zoneInRoom;

/** Puts the bytes of a zone into the room, unless they lie there, and answers what a function takes as them. */
function putZone(room, zone) {
  if (zone !== zoneInRoom) {
    room.bytes.set(zone, ZONE);
    zoneInRoom = zone;
  }
  return [address(room, ZONE), BigInt(zone.length)];
}

/** Throws a TextError if bytes are no zone, where `text` is shown as what is wrong, and is itself wrong if they are its bytes. The message ends with a hint. */
export function checkZone(zone, text, isText, hint = "") {
  const room = open();
  const { layers, view } = room;
  if (layers.calendar_zone_check(...putZone(room, zone), address(room, FAULT))) {
    return;
  }
  const [start, end] = isText ? wrongPart(room, zone) : [8, 16].map((it) => Number(view.getBigUint64(FAULT + it, true)));
  const length = layers.calendar_zone_fault_text(address(room, FAULT), address(room, TEXT), BigInt(LONGEST));
  throw new TextError(text, start, end, textAt(room, TEXT, length), hint);
}

/** How many seconds the clock of a zone is ahead of UTC at a second since 1970, a BigInt. */
export function zoneOffsetAt(zone, second) {
  const room = open();
  return room.layers.calendar_zone_offset_at(...putZone(room, zone), second);
}

/** The offsets at the instants at which the clock of a zone shows a local second, in order. */
export function zoneOffsetsOfLocal(zone, local) {
  const room = open();
  room.layers.calendar_zone_offsets_of_local(address(room, ANSWER), ...putZone(room, zone), local);
  const { view } = room;
  return [4, 8].slice(0, view.getUint32(ANSWER, true)).map((it) => view.getInt32(ANSWER + it, true));
}

/** A later second, a BigInt, up to which the clock of a zone keeps its offset. */
export function zoneHoldsUntil(zone, second) {
  const room = open();
  return room.layers.calendar_zone_holds_until(...putZone(room, zone), second);
}

/** What a function finds by a schedule in a zone from a date-time of UTC on; undefined if there is none. */
function foundInZone(find, schedule, zone, start) {
  const room = open();
  const [at, first] = putSchedule(room, schedule, start);
  find(room.layers, address(room, ANSWER), at, ...putZone(room, zone), first);
  return getMoment(room.view, ANSWER);
}

/** The first date-time of UTC after another at which a schedule fires in a zone; undefined if there is none. */
export const nextInZone = (...parts) => foundInZone((layers, ...given) => layers.calendar_zone_schedule_next(...given), ...parts);

/** The last date-time of UTC before another at which a schedule fires in a zone; undefined if there is none. */
export const previousInZone = (...parts) => foundInZone((layers, ...given) => layers.calendar_zone_schedule_prev(...given), ...parts);

/** Puts the bytes of a text into the room again. The address and the length are what a function takes as them. */
function putBytes(room, encoded) {
  room.bytes.set(encoded, TEXT);
  return [address(room, TEXT), BigInt(encoded.length)];
}

/** Puts a date-time into the room, and answers its address. */
function putMoment(room, at, moment) {
  setMoment(room.view, at, moment);
  return address(room, at);
}

/** The bytes of the text of a calendar in a zone; a TextError if it means no recurrence there. */
export function readCalendar(text, zone) {
  const room = open();
  const { layers } = room;
  const encoded = putText(room, text);
  if (!layers.calendar_text_check(...putBytes(room, encoded), ...putZone(room, zone), address(room, FAULT))) {
    throwFault(room, text, encoded, layers.calendar_text_fault_text);
  }
  return encoded;
}

/** The name of the zone that the text of a calendar has; undefined if it names none. */
export function calendarZone(text) {
  const room = open();
  const length = room.layers.calendar_text_zone(...putBytes(room, putText(room, text)), address(room, PATTERN), BigInt(PAGE));
  return length === NONE ? undefined : textAt(room, PATTERN, length);
}

/** What a function finds by the text of a calendar in a zone from a date-time of UTC on; undefined if there is none. */
function foundByCalendar(find, encoded, zone, start) {
  const room = open();
  const first = putMoment(room, FIRST, start);
  find(room.layers, address(room, ANSWER), ...putBytes(room, encoded), ...putZone(room, zone), first);
  return getMoment(room.view, ANSWER);
}

/** The first instant after a date-time of UTC; undefined if there is none. */
export const nextOfCalendar = (...parts) => foundByCalendar((layers, ...given) => layers.calendar_text_next(...given), ...parts);

/** The last instant before one; undefined if there is none. */
export const previousOfCalendar = (...parts) => foundByCalendar((layers, ...given) => layers.calendar_text_prev(...given), ...parts);

/** Whether the text of a calendar has an instant in a zone at a date-time of UTC. */
export function isOfCalendar(encoded, zone, moment) {
  const room = open();
  const at = putMoment(room, FIRST, moment);
  return Boolean(room.layers.calendar_text_is_instance(...putBytes(room, encoded), ...putZone(room, zone), at));
}

/** The first instants after a date-time of UTC, up to another: at most AT_ONCE. */
export function betweenOfCalendar(encoded, zone, start, until) {
  const room = open();
  const moments = [putMoment(room, FIRST, start), putMoment(room, SECOND, until)];
  const given = [...putBytes(room, encoded), ...putZone(room, zone), ...moments, address(room, DUE), BigInt(AT_ONCE)];
  const count = Number(room.layers.calendar_text_instances(...given));
  return Array.from({ length: count }, (_, index) => getMoment(room.view, DUE + MOMENT_SIZE * index));
}

/** The bytes of a schedule with seconds of a dialect, by its number; a TextError if the text has none. */
export function readTimedSchedule(text, dialect) {
  const room = open();
  const { layers } = room;
  const encoded = putText(room, text);
  if (!layers.calendar_timed_schedule_check(...putBytes(room, encoded), dialect, address(room, FAULT))) {
    throwFault(room, text, encoded, layers.calendar_timed_schedule_fault_text);
  }
  return encoded;
}

/** What a function finds by a schedule with seconds from a date-time on; undefined if there is none. */
function foundByTimed(find, encoded, dialect, start) {
  const room = open();
  const first = putMoment(room, FIRST, start);
  find(room.layers, address(room, ANSWER), ...putBytes(room, encoded), dialect, first);
  return getMoment(room.view, ANSWER);
}

/** The first date-time after another at which it is due; undefined if there is none. */
export const nextTimed = (...parts) => foundByTimed((layers, ...given) => layers.calendar_timed_schedule_next(...given), ...parts);

/** The last date-time before another at which it is due; undefined if there is none. */
export const previousTimed = (...parts) => foundByTimed((layers, ...given) => layers.calendar_timed_schedule_prev(...given), ...parts);

/** Whether a schedule with seconds is due at a date-time. */
export function isTimedDue(encoded, dialect, moment) {
  const room = open();
  const at = putMoment(room, FIRST, moment);
  return Boolean(room.layers.calendar_timed_schedule_is_due(...putBytes(room, encoded), dialect, at));
}
