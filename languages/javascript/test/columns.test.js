/**
 * Calls every function of columns through the package, with answers that are known from outside: a test for each, named after it. Each
 * is also compared with the calls for one date.
 */

import { strict as assert } from "node:assert";
import { test } from "node:test";

import { BusinessCalendar, columns, PlainDate, Zone } from "proved-calendar";

const { NO_DATE } = columns;

/** The least number of 64 bits. */
const NO_DAYS = -(2n ** 63n);

/** The numbers of the first and the last date. */
const [MIN, MAX] = [-95_746_129, 95_745_399];

const refused = (call) => assert.throws(call, RangeError);
const numbers = (...texts) => Int32Array.from(texts, (it) => PlainDate.from(it).dayNumber);

/** 29 February 2024, the ends of the calendar, two numbers beside them, and the number of no date. */
const SOME = Int32Array.of(738_945, MIN, MAX, MIN - 1, MAX + 1, NO_DATE);

/** More dates than lie in the module's memory at once, of all years, and some numbers of no date. */
const MANY = Int32Array.from({ length: 40_001 }, (_, index) => (index % 1_000 === 7 ? NO_DATE : MIN + 4_787 * index));

/** What a call for one date answers at each place of many; `none` where there is no date. */
function compare(column, of, none) {
  assert.equal(column.length, MANY.length);
  for (let index = 0; index < MANY.length; index += 37) {
    const wanted = MANY[index] === NO_DATE ? none : of(PlainDate.fromDayNumber(MANY[index]), index);
    assert.equal(column[index], wanted, `at ${index}, of ${MANY[index]}`);
  }
}

/** The number of a date that a call answers; the number of no date if it throws. */
function numberOf(call) {
  try {
    return call().dayNumber;
  } catch (wrong) {
    assert.ok(wrong instanceof RangeError);
    return NO_DATE;
  }
}

test("column_years", () => {
  assert.deepEqual(columns.years(SOME), Int32Array.of(2024, -262_143, 262_142, NO_DATE, NO_DATE, NO_DATE));
  compare(columns.years(MANY), (it) => it.year, NO_DATE);
  assert.deepEqual(columns.years(new Int32Array(0)), new Int32Array(0));
  // (a part of a column, which is not changed)
  const column = numbers("2023-12-31", "2024-01-01", "2025-01-01");
  assert.deepEqual(columns.years(column.subarray(1)), Int32Array.of(2024, 2025));
  assert.deepEqual(column, numbers("2023-12-31", "2024-01-01", "2025-01-01"));
  for (const dates of [[738_945], "2024-02-29", undefined, new Float64Array(1), new BigInt64Array(1)]) {
    assert.throws(() => columns.years(dates), { name: "TypeError", message: "dates: the type is not Int32Array" });
  }
});

test("column_ordinals", () => {
  assert.deepEqual(columns.daysOfYear(SOME), Uint16Array.of(60, 1, 365, 0, 0, 0));
  assert.deepEqual(columns.daysOfYear(numbers("2024-12-31")), Uint16Array.of(366));
  compare(columns.daysOfYear(MANY), (it) => it.dayOfYear, 0);
});

test("column_weekdays", () => {
  assert.deepEqual(columns.daysOfWeek(SOME), Uint8Array.of(4, 4, 1, 0, 0, 0));
  compare(columns.daysOfWeek(MANY), (it) => it.dayOfWeek, 0);
});

test("column_split", () => {
  const { years, months, days } = columns.fields(SOME);
  assert.deepEqual(years, Int32Array.of(2024, -262_143, 262_142, NO_DATE, NO_DATE, NO_DATE));
  assert.deepEqual([months, days], [Uint8Array.of(2, 1, 12, 0, 0, 0), Uint8Array.of(29, 1, 31, 0, 0, 0)]);
  const many = columns.fields(MANY);
  compare(many.years, (it) => it.year, NO_DATE);
  compare(many.months, (it) => it.month, 0);
  compare(many.days, (it) => it.day, 0);
});

test("column_iso_weeks", () => {
  const { yearsOfWeek, weeksOfYear } = columns.isoWeeks(Int32Array.of(733_775, 733_405, NO_DATE));
  assert.deepEqual([yearsOfWeek, weeksOfYear], [Int32Array.of(2009, 2009, NO_DATE), Uint8Array.of(53, 1, 0)]);
  const many = columns.isoWeeks(MANY);
  compare(many.yearsOfWeek, (it) => it.yearOfWeek, NO_DATE);
  compare(many.weeksOfYear, (it) => it.weekOfYear, 0);
});

test("column_join", () => {
  const found = columns.fromFields(Int32Array.of(2024, 2023, 262_142, NO_DATE), Uint8Array.of(2, 2, 12, 1), Uint8Array.of(29, 29, 31, 1));
  assert.deepEqual(found, Int32Array.of(738_945, NO_DATE, MAX, NO_DATE));
  const { years, months, days } = columns.fields(MANY);
  assert.deepEqual(columns.fromFields(years, months, days), MANY);
  refused(() => columns.fromFields(Int32Array.of(2024, 2025), Uint8Array.of(2), Uint8Array.of(29)));
  refused(() => columns.fromFields(Int32Array.of(2024), Uint8Array.of(2, 3), Uint8Array.of(29)));
  refused(() => columns.fromFields(Int32Array.of(2024), Uint8Array.of(2), Uint8Array.of(29, 1)));
  assert.throws(() => columns.fromFields([2024], Uint8Array.of(2), Uint8Array.of(29)), { message: "years: the type is not Int32Array" });
  assert.throws(() => columns.fromFields(Int32Array.of(2024), Int32Array.of(2), Uint8Array.of(29)), { message: "months: the type is not Uint8Array" });
  assert.throws(() => columns.fromFields(Int32Array.of(2024), Uint8Array.of(2), [29]), { message: "days: the type is not Uint8Array" });
});

test("column_add_days", () => {
  assert.deepEqual(columns.addDays(SOME, 1), Int32Array.of(738_946, MIN + 1, NO_DATE, NO_DATE, NO_DATE, NO_DATE));
  compare(columns.addDays(MANY, -366), (it) => numberOf(() => it.subtract({ days: 366 })), NO_DATE);
  for (const days of [2 ** 31, 2 ** 32, -(2 ** 32), 1e300]) {
    assert.deepEqual(columns.addDays(SOME.subarray(0, 1), days), Int32Array.of(NO_DATE));
  }
  refused(() => columns.addDays(SOME, NaN));
  refused(() => columns.addDays(SOME, 1.5));
  assert.throws(() => columns.addDays([1], 1), TypeError);
});

test("column_add_days_each", () => {
  assert.deepEqual(columns.addDays(numbers("2024-02-29", "2024-02-29", "2024-02-29"), Int32Array.of(1, -60, NO_DATE)), Int32Array.of(738_946, 738_885, NO_DATE));
  const days = MANY.map((_, index) => index);
  compare(columns.addDays(MANY, days), (it, index) => numberOf(() => it.add({ days: index })), NO_DATE);
  assert.throws(() => columns.addDays(SOME, Int32Array.of(1)), { name: "RangeError", message: "columns of 6 and 1 elements: all have as many" });
  assert.throws(() => columns.addDays([1], Int32Array.of(1)), TypeError);
});

test("column_add_months", () => {
  const found = columns.addMonths(numbers("2024-01-31", "2023-01-31", "2024-02-29"), 1);
  assert.deepEqual(found, numbers("2024-02-29", "2023-02-28", "2024-03-29"));
  assert.deepEqual(columns.addMonths(SOME, -1).subarray(1), Int32Array.of(NO_DATE, MAX - 31, NO_DATE, NO_DATE, NO_DATE));
  compare(columns.addMonths(MANY, 13), (it) => numberOf(() => it.add({ months: 13 })), NO_DATE);
  for (const months of [2 ** 31, 2 ** 32, -(2 ** 32), 1e300]) {
    assert.deepEqual(columns.addMonths(SOME.subarray(0, 1), months), Int32Array.of(NO_DATE));
  }
  refused(() => columns.addMonths(SOME, Infinity));
});

test("column_days_between", () => {
  assert.deepEqual(columns.daysBetween(numbers("2024-03-01", "2024-02-28"), numbers("2024-02-28", "2024-03-01")), Int32Array.of(2, -2));
  assert.deepEqual(columns.daysBetween(SOME, "2024-02-28").subarray(0, 4), Int32Array.of(1, MIN - 738_944, MAX - 738_944, NO_DATE));
  assert.deepEqual(columns.daysBetween(Int32Array.of(MAX), Int32Array.of(NO_DATE)), Int32Array.of(NO_DATE));
  compare(columns.daysBetween(MANY, new PlainDate(2024, 2, 29)), (it) => it.dayNumber - 738_945, NO_DATE);
  compare(columns.daysBetween(MANY, MANY.map((it) => it + 7)), () => -7, NO_DATE);
  refused(() => columns.daysBetween(SOME, Int32Array.of(1)));
  refused(() => columns.daysBetween(SOME, "2024-02-30"));
  assert.throws(() => columns.daysBetween(SOME, 738_945), TypeError);
});

test("column_first_on", () => {
  assert.deepEqual(columns.firstOn(SOME, 4, 5), Int32Array.of(738_945, MIN, NO_DATE, NO_DATE, NO_DATE, NO_DATE));
  assert.deepEqual(columns.firstOn(SOME.subarray(0, 1)), Int32Array.of(NO_DATE));
  compare(columns.firstOn(MANY, 1, 6), (it) => it.firstOn(1, 6).dayNumber, NO_DATE);
  refused(() => columns.firstOn(SOME, 8));
});

test("column_count_dates", () => {
  assert.deepEqual([SOME, MANY, new Int32Array(0)].map((it) => columns.countDates(it)), [3, 39_961, 0]);
  assert.throws(() => columns.countDates([738_945]), TypeError);
});

test("column_write_dates", () => {
  const column = numbers("2024-02-29", "0000-01-01", "9999-12-31", "-000001-12-31", "+010000-01-01");
  assert.deepEqual(columns.texts(column), ["2024-02-29", "0000-01-01", "9999-12-31", "", ""]);
  assert.deepEqual(columns.texts(SOME.subarray(1)), ["", "", "", "", ""]);
  assert.deepEqual(columns.textBytes(column.subarray(2, 4)), new TextEncoder().encode("9999-12-31".padEnd(20, "\0")));
  const texts = columns.texts(MANY);
  compare(texts, (it) => (it.year >= 0 && it.year <= 9_999 ? `${it}` : ""), "");
  assert.ok(texts.filter((it) => it !== "").length > 700 && texts.join("").length === 10 * texts.filter((it) => it !== "").length);
  assert.throws(() => columns.texts([1]), TypeError);
  assert.throws(() => columns.textBytes([1]), TypeError);
});

test("column_read_dates", () => {
  const texts = ["2024-02-29", "2023-02-29", "", "2024-2-290", " 2024-02-29", "2024-02-2\u00e9", "+2024-02-2", "9999-12-31"];
  const [leapDay, last] = numbers("2024-02-29", "9999-12-31");
  assert.deepEqual(columns.fromTexts(texts), Int32Array.of(leapDay, NO_DATE, NO_DATE, NO_DATE, NO_DATE, NO_DATE, NO_DATE, last));
  // (elements that are no texts, and one that is missing)
  // eslint-disable-next-line no-sparse-arrays
  assert.deepEqual(columns.fromTexts([null, undefined, 2024022900, ["2024-02-29"], , "2024-02-29"]), Int32Array.of(...Array(5).fill(NO_DATE), leapDay));
  assert.deepEqual(columns.fromTexts(new TextEncoder().encode("2024-02-299999-12-31")), Int32Array.of(leapDay, last));
  assert.deepEqual(columns.fromTexts(Buffer.from("2024-02-29")), Int32Array.of(leapDay));
  const days = Int32Array.from({ length: 40_000 }, (_, index) => 700_000 + index);
  assert.deepEqual(columns.fromTexts(columns.texts(days)), days);
  assert.deepEqual(columns.fromTexts(columns.textBytes(days)), days);
  assert.deepEqual(columns.fromTexts([...columns.texts(days), "\u00e4"]), Int32Array.of(...days, NO_DATE));
  assert.throws(() => columns.fromTexts(new Uint8Array(15)), { name: "RangeError", message: "15 bytes: each text has 10" });
  assert.throws(() => columns.fromTexts("2024-02-29"), TypeError);
});

test("column_to_unix_days", () => {
  assert.deepEqual(columns.unixDays64(numbers("1970-01-01", "1969-12-31", "2024-02-29")), BigInt64Array.of(0n, -1n, 19_782n));
  assert.deepEqual(columns.unixDays64(SOME.subarray(3)), BigInt64Array.of(NO_DAYS, NO_DAYS, NO_DAYS));
  compare(columns.unixDays64(MANY), (it) => BigInt(it.dayNumber - 719_163), NO_DAYS);
});

test("column_from_unix_days", () => {
  assert.deepEqual(columns.fromUnixDays(BigInt64Array.of(0n, -1n, 19_782n, NO_DAYS, 2n ** 32n)), Int32Array.of(719_163, 719_162, 738_945, NO_DATE, NO_DATE));
  assert.deepEqual(columns.fromUnixDays(columns.unixDays64(MANY)), MANY);
  assert.throws(() => columns.fromUnixDays([0]), { name: "TypeError", message: "days: the type is not Int32Array or BigInt64Array" });
});

test("column_to_date32", () => {
  assert.deepEqual(columns.unixDays(numbers("1970-01-01", "1969-12-31", "2024-02-29")), Int32Array.of(0, -1, 19_782));
  compare(columns.unixDays(MANY), (it) => it.dayNumber - 719_163, NO_DATE);
  assert.throws(() => columns.unixDays([1]), TypeError);
});

test("column_from_date32", () => {
  assert.deepEqual(columns.fromUnixDays(Int32Array.of(0, -1, 19_782, NO_DATE, 2 ** 31 - 1)), Int32Array.of(719_163, 719_162, 738_945, NO_DATE, NO_DATE));
  assert.deepEqual(columns.fromUnixDays(columns.unixDays(MANY)), MANY);
});

/** Good Friday and Easter Monday of 2024 are closed, and each Saturday and Sunday. */
const CALENDAR = new BusinessCalendar({ holidays: ["2024-03-29", "2024-04-01"] });

test("column_is_open_day", () => {
  const days = numbers("2024-03-28", "2024-03-29", "2024-03-30", "2024-04-01", "2024-04-02");
  assert.deepEqual(columns.isOpen(days, CALENDAR), Uint8Array.of(1, 0, 0, 0, 1));
  assert.deepEqual(columns.isOpen(days, new BusinessCalendar({ weekend: [] })), Uint8Array.of(1, 1, 1, 1, 1));
  compare(columns.isOpen(MANY, CALENDAR), (it) => Number(CALENDAR.isOpen(it)), 0);
  for (const calendar of [undefined, {}, CALENDAR.holidays]) {
    assert.throws(() => columns.isOpen(days, calendar), { name: "TypeError", message: "a BusinessCalendar is wanted" });
  }
});

test("column_add_open_days", () => {
  assert.deepEqual(columns.addOpenDays(numbers("2024-03-28", "2024-03-30"), 2, CALENDAR), numbers("2024-04-03", "2024-04-03"));
  assert.deepEqual(columns.addOpenDays(SOME.subarray(1, 4), -1, CALENDAR), Int32Array.of(NO_DATE, MAX - 3, NO_DATE));
  compare(columns.addOpenDays(MANY, 260, CALENDAR), (it) => numberOf(() => CALENDAR.add(it, 260)), NO_DATE);
  for (const n of [2 ** 31, 2 ** 32, -(2 ** 32), 1e300]) {
    assert.deepEqual(columns.addOpenDays(SOME.subarray(0, 1), n, CALENDAR), Int32Array.of(NO_DATE));
  }
  refused(() => columns.addOpenDays(SOME, NaN, CALENDAR));
});

test("column_open_days_between", () => {
  assert.deepEqual(columns.openDaysBetween(numbers("2024-03-01", "2024-04-01"), numbers("2024-04-01", "2024-03-01"), CALENDAR), Int32Array.of(20, -20));
  assert.deepEqual(columns.openDaysBetween(SOME, "2024-03-04", CALENDAR).subarray(3), Int32Array.of(NO_DATE, NO_DATE, NO_DATE));
  const base = new PlainDate(2024, 2, 29);
  compare(columns.openDaysBetween(MANY, base, CALENDAR), (it) => CALENDAR.between(it, base), NO_DATE);
  refused(() => columns.openDaysBetween(SOME, Int32Array.of(1), CALENDAR));
});

test("column_roll", () => {
  const days = numbers("2024-03-31", "2024-03-28");
  assert.deepEqual(columns.roll(days, "following", CALENDAR), numbers("2024-04-02", "2024-03-28"));
  assert.deepEqual(columns.roll(days, "modifiedFollowing", CALENDAR), numbers("2024-03-28", "2024-03-28"));
  compare(columns.roll(MANY, "preceding", CALENDAR), (it) => numberOf(() => CALENDAR.roll(it, "preceding")), NO_DATE);
  refused(() => columns.roll(days, "later", CALENDAR));
});

test("columns whose memory was given away", () => {
  const given = () => {
    const column = Int32Array.of(1, 2);
    structuredClone(column.buffer, { transfer: [column.buffer] });
    return column;
  };
  const calendar = new BusinessCalendar();
  for (const [name, call] of Object.entries({
    years: () => columns.years(given()), texts: () => columns.texts(given()), addDays: () => columns.addDays(given(), 1),
    "days by column": () => columns.addDays(new Int32Array(), given()), daysBetween: () => columns.daysBetween(new Int32Array(), given()),
    fromFields: () => columns.fromFields(given(), new Uint8Array(), new Uint8Array()), fromUnixDays: () => columns.fromUnixDays(given()),
    isOpen: () => columns.isOpen(given(), calendar), openDaysBetween: () => columns.openDaysBetween(given(), given(), calendar),
  })) {
    assert.throws(call, { name: "TypeError", message: /given away/ }, name);
  }
  const bytes = new Uint8Array(20);
  structuredClone(bytes.buffer, { transfer: [bytes.buffer] });
  assert.throws(() => columns.fromTexts(bytes), { name: "TypeError", message: /given away/ });
  assert.throws(() => new Zone(bytes), { name: "TypeError", message: /given away/ });
  assert.throws(() => new Zone(bytes.buffer), { name: "TypeError", message: /given away/ });
  assert.deepEqual(columns.years(new Int32Array()), new Int32Array());
});

/** A calendar of known years, what is refused by it, and dates: some inside, the last of its years, and one behind them. */
const TARGET = BusinessCalendar.of("target", 2024, 2026);
const refusedYear = (call) => assert.throws(call, { name: "RangeError", message: /from 2024 to 2026 alone/ });
const [INSIDE, END, BEHIND] = [numbers("2024-01-01", "2026-12-30"), numbers("2026-12-31"), numbers("2027-01-01")];
const INSIDE_OR_NONE = Int32Array.of(...INSIDE, NO_DATE);

test("column_is_open_day_within", () => {
  assert.deepEqual(columns.isOpen(INSIDE_OR_NONE, TARGET), Uint8Array.of(0, 1, 0));
  refusedYear(() => columns.isOpen(BEHIND, TARGET));
});

test("column_add_open_days_within", () => {
  assert.deepEqual(columns.addOpenDays(INSIDE_OR_NONE, 1, TARGET), Int32Array.of(...numbers("2024-01-02"), ...END, NO_DATE));
  refusedYear(() => columns.addOpenDays(INSIDE_OR_NONE, 2, TARGET));
  refusedYear(() => columns.addOpenDays(INSIDE_OR_NONE, 1e9, TARGET));
});

test("column_open_days_between_within", () => {
  assert.deepEqual(columns.openDaysBetween(numbers("2026-01-01", "2027-01-01"), "2027-01-01", TARGET), Int32Array.of(256, 0));
  assert.deepEqual(columns.openDaysBetween(INSIDE_OR_NONE, Int32Array.of(NO_DATE, ...END, 1), TARGET), Int32Array.of(NO_DATE, 1, NO_DATE));
  refusedYear(() => columns.openDaysBetween(INSIDE, "2027-01-02", TARGET));
});

test("column_roll_within", () => {
  const [one, two] = [2022, 2023].map((it) => new BusinessCalendar({ firstYear: 2022, lastYear: it }));
  const saturday = numbers("2022-12-31");
  assert.deepEqual(columns.roll(saturday, "nearestIsda", one), numbers("2022-12-30"));
  refused(() => columns.roll(saturday, "following", one));
  refused(() => columns.roll(saturday, "nearestQuantLib", one));
  assert.deepEqual(columns.roll(saturday, "nearestQuantLib", two), numbers("2022-12-30"));
});
