/**
 * Calls every function of `calendar.h` through the package, with answers that are known from outside: a test for each,
 * named after it.
 */

import { strict as assert } from "node:assert";
import { test } from "node:test";

import { daysUntil, Duration, isLeapYear, PlainDate, PlainDateTime } from "proved-calendar";

/** 2016-12-31T23:59:59, which a leap second followed. */
const LAST_SECOND = 1_483_228_799;

/** The numbers of the first and the last date. */
const [MIN, MAX] = [-95_746_129, 95_745_399];

const dated = (number) => PlainDate.fromDayNumber(number);
const refused = (call) => assert.throws(call, RangeError);
const LEAP_DAY = new PlainDate(2024, 2, 29);

/**
 * Number, year, month, day, day of the year, weekday, ISO year and week of days at the ends, around year 0 and between
 * years.
 */
const DAYS = [
  [MIN, -262_143, 1, 1, 1, 4, -262_143, 1],
  [-95_745_765, -262_143, 12, 31, 365, 4, -262_143, 53],
  [-1_767, -4, 2, 29, 60, 4, -4, 9],
  [-730, -1, 1, 1, 1, 5, -2, 53],
  [-365, 0, 1, 1, 1, 6, -1, 52],
  [0, 0, 12, 31, 366, 7, 0, 52],
  [1, 1, 1, 1, 1, 1, 1, 1],
  [733_405, 2008, 12, 29, 364, 1, 2009, 1],
  [733_775, 2010, 1, 3, 3, 7, 2009, 53],
  [738_945, 2024, 2, 29, 60, 4, 2024, 9],
  [3_652_060, 10_000, 1, 1, 1, 6, 9_999, 52],
  [MAX, 262_142, 12, 31, 365, 1, 262_143, 1],
];

test("from_ymd", () => {
  for (const [number, ...name] of DAYS) {
    assert.equal(new PlainDate(...name.slice(0, 3)).dayNumber, number);
  }
  for (const name of [
    [2023, 2, 29], [1900, 2, 29], [-100, 2, 29], [2024, 4, 31], [2024, 0, 1], [2024, 13, 1], [2024, 1, 0], [2024, 1, -1],
    [-262_144, 12, 31], [262_143, 1, 1], [2 ** 32 + 2024, 1, 1], [2024, 2 ** 32 + 1, 1], [2024, 1, 2 ** 32 + 1], [NaN, 1, 1],
    [2024, Infinity, 1], [2024, 1, undefined],
  ]) {
    refused(() => new PlainDate(...name));
  }
  assert.throws(() => new PlainDate(2024, 2, 30), { message: "day 30 of 2024-02: the month has 29 days" });
  assert.throws(() => new PlainDate(2024, 13, 1), { message: "month 13: it lies from 1 to 12" });
  assert.throws(() => new PlainDate(300_000, 1, 1), { message: "year 300000: it lies from -262143 to 262142" });
  assert.throws(() => new PlainDate(2024n, 1, 1), TypeError);
  assert.throws(() => new PlainDate(Symbol.iterator, 1, 1), TypeError);
  assert.equal(new PlainDate(2024.9, "2", 29.5).dayNumber, 738_945);
});

test("from_yo", () => {
  for (const [number, year, , , dayOfYear] of DAYS) {
    assert.equal(PlainDate.fromDayOfYear(year, dayOfYear).dayNumber, number);
  }
  for (const name of [[2023, 366], [2024, 367], [2024, 0], [2024, -1], [262_143, 1], [2024, 2 ** 32 + 1], [2 ** 32, 1]]) {
    refused(() => PlainDate.fromDayOfYear(...name));
  }
});

test("from_isoywd", () => {
  for (const [number, , , , , weekday, year, week] of DAYS) {
    assert.equal(PlainDate.fromWeek(year, week, weekday).dayNumber, number);
  }
  assert.equal(PlainDate.fromWeek(2026, 53, 4).dayNumber, 739_981);
  for (const name of [
    [-262_143, 1, 3], [262_143, 1, 2], [2024, 53, 1], [2024, 0, 1], [2024, 1, 0], [2024, 1, 8], [2024, 2 ** 32 + 1, 1],
    [2024, 1, 2 ** 32 + 1],
  ]) {
    refused(() => PlainDate.fromWeek(...name));
  }
});

test("from_weekday_of_month", () => {
  assert.equal(PlainDate.fromWeekdayOfMonth(2024, 2, 4, 5).dayNumber, 738_945);
  assert.equal(PlainDate.fromWeekdayOfMonth(2024, 2, 4, 1).dayNumber, 738_917);
  assert.equal(PlainDate.fromWeekdayOfMonth(262_142, 12, 1, 5).dayNumber, MAX);
  for (const name of [[2024, 2, 5, 5], [2024, 2, 4, 0], [2024, 2, 4, 6], [2024, 13, 1, 1], [2024, 2, 0, 1], [2024, 2, 8, 1], [2024, 2, 4, 2 ** 32 + 1]]) {
    refused(() => PlainDate.fromWeekdayOfMonth(...name));
  }
});

const FIELDS = { year: 1, month: 2, day: 3, ordinal: 4, weekday: 5, iso_year: 6, iso_week: 7 };
const NAMES = { ordinal: "dayOfYear", weekday: "dayOfWeek", iso_year: "yearOfWeek", iso_week: "weekOfYear" };
for (const [field, place] of Object.entries(FIELDS)) {
  test(field, () => {
    const name = NAMES[field] ?? field;
    for (const row of DAYS) {
      assert.equal(dated(row[0])[name], row[place]);
      assert.equal(dated(row[0]).toPlainDateTime()[name], row[place]);
    }
  });
}

test("is_leap_year", () => {
  for (const year of [2024, 2000, 0, -4, -400, -(2 ** 31)]) {
    assert.equal(isLeapYear(year), true);
  }
  for (const year of [2023, 1900, -1, -100, 2 ** 31 - 1]) {
    assert.equal(isLeapYear(year), false);
  }
  refused(() => isLeapYear(2 ** 31));
  assert.deepEqual([LEAP_DAY.inLeapYear, LEAP_DAY.daysInYear, new PlainDate(1900, 1, 1).daysInYear], [true, 366, 365]);
});

test("days_in_month", () => {
  for (const [year, month, days] of [[2024, 2, 29], [2023, 2, 28], [0, 2, 29], [-262_143, 1, 31], [262_142, 11, 30]]) {
    assert.equal(new PlainDate(year, month, 1).daysInMonth, days);
    assert.equal(PlainDate.from({ year, month, day: 99 }).day, days);
    assert.equal(new PlainDate(year, month, 1).with({ day: 31 }).day, days);
  }
  assert.equal(`${PlainDate.from({ year: 2024, month: 13, day: 1 })}`, "2024-12-01");
  refused(() => PlainDate.from({ year: 2024, month: 2, day: 30 }, { overflow: "reject" }));
  refused(() => PlainDate.from({ year: 2024, month: 0, day: 1 }));
  refused(() => PlainDate.from({ year: 2024, month: 1, day: 0 }));
  refused(() => PlainDate.from({ year: 300_000, month: 1, day: 1 }));
});

test("add_days", () => {
  assert.equal(`${LEAP_DAY.add({ days: 1 })}`, "2024-03-01");
  assert.equal(LEAP_DAY.subtract({ days: 738_945 }).dayNumber, 0);
  assert.equal(LEAP_DAY.add({ weeks: 1, days: 1, hours: 49 }).dayNumber, 738_945 + 10);
  assert.equal(LEAP_DAY.subtract({ hours: 49 }).dayNumber, 738_945 - 2);
  assert.equal(dated(MIN).add({ days: MAX - MIN }).dayNumber, MAX);
  assert.equal(dated(MAX).add({ days: MIN - MAX }).dayNumber, MIN);
  for (const days of [MAX - 738_944, MIN - 738_946, 2 ** 32, -(2 ** 32), 1e11]) {
    refused(() => LEAP_DAY.add({ days }));
  }
});

test("add_months", () => {
  assert.equal(`${LEAP_DAY.add({ years: 1 })}`, "2025-02-28");
  assert.equal(`${new PlainDate(2024, 1, 31).add({ months: 1 })}`, "2024-02-29");
  assert.equal(`${new PlainDate(2024, 3, 31).subtract({ months: 1 })}`, "2024-02-29");
  assert.equal(`${new PlainDate(2024, 1, 31).add({ months: 1, days: 1 })}`, "2024-03-01");
  assert.equal(`${dated(MIN).add({ years: 524_285, months: 11 })}`, "+262142-12-01");
  refused(() => new PlainDate(2024, 1, 31).add({ months: 1 }, { overflow: "reject" }));
  refused(() => LEAP_DAY.add({ months: 1 }, { overflow: "cut" }));
  for (const duration of [{ months: 2 ** 32 - 1 }, { years: -(2 ** 32 - 1) }, { years: 262_143 - 2_024 }]) {
    refused(() => LEAP_DAY.add(duration));
  }
});

test("every_months", () => {
  const start = new PlainDate(2024, 1, 31);
  assert.equal(`${start.everyMonths(1, 0)}`, "2024-01-31");
  assert.equal(`${start.everyMonths(1, 1)}`, "2024-02-29");
  assert.equal(`${start.everyMonths(1, 2)}`, "2024-03-31");
  assert.equal(`${start.everyMonths(-12, 1)}`, "2023-01-31");
  for (const [months, index] of [[2 ** 31 - 1, 2 ** 32 - 1], [1, 2 ** 32], [2 ** 32 + 1, 1], [1, -1]]) {
    refused(() => start.everyMonths(months, index));
  }
});

test("years_since", () => {
  const born = new PlainDate(2000, 2, 29);
  assert.equal(LEAP_DAY.yearsSince(born), 24);
  assert.equal(new PlainDate(2023, 2, 28).yearsSince(born), 22);
  assert.equal(new PlainDate(2023, 3, 1).yearsSince(born), 23);
  assert.equal(born.yearsSince("2000-02-29"), 0);
  refused(() => born.yearsSince("2000-03-01"));
});

test("week_first_day", () => {
  assert.equal(`${LEAP_DAY.firstOfWeek()}`, "2024-02-26");
  assert.equal(`${LEAP_DAY.firstOfWeek(4)}`, "2024-02-29");
  assert.equal(`${LEAP_DAY.firstOfWeek(5)}`, "2024-02-23");
  assert.equal(dated(MIN).firstOfWeek(4).dayNumber, MIN);
  refused(() => dated(MIN).firstOfWeek(3));
  refused(() => LEAP_DAY.firstOfWeek(0));
  refused(() => LEAP_DAY.firstOfWeek(2 ** 32 + 1));
});

test("first_on", () => {
  assert.equal(`${LEAP_DAY.firstOn(4)}`, "2024-02-29");
  assert.equal(`${LEAP_DAY.firstOn(3)}`, "2024-03-06");
  assert.equal(`${LEAP_DAY.firstOn(1, 7)}`, "2024-03-03");
  assert.equal(`${LEAP_DAY.firstOn(1, 2, 3, 4, 5, 6, 7)}`, "2024-02-29");
  refused(() => LEAP_DAY.firstOn());
  refused(() => LEAP_DAY.firstOn(8));
  assert.equal(dated(MAX).firstOn(1).dayNumber, MAX);
  refused(() => dated(MAX).firstOn(2));
});

test("days_until", () => {
  assert.deepEqual([daysUntil(4, 4), daysUntil(4, 3), daysUntil(4, 1, 7), daysUntil(7, 1), daysUntil(1)], [0, 6, 3, 1, undefined]);
  refused(() => daysUntil(0, 1));
  refused(() => daysUntil(1, 8));
});

/** Dates and their texts. */
const DATE_TEXTS = [
  [738_945, "2024-02-29"], [1, "0001-01-01"], [0, "0000-12-31"], [-366, "-000001-12-31"], [3_652_059, "9999-12-31"],
  [3_652_060, "+010000-01-01"], [MIN, "-262143-01-01"], [MAX, "+262142-12-31"],
];

test("write_date", () => {
  for (const [number, text] of DATE_TEXTS) {
    assert.equal(`${dated(number)}`, text);
    assert.equal(JSON.stringify(dated(number)), `"${text}"`);
  }
});

test("read_date", () => {
  for (const [number, text] of DATE_TEXTS) {
    assert.equal(PlainDate.from(text).dayNumber, number);
  }
  for (const text of ["+002024-02-29", "2024-02-29T23:59:60", "2024-02-29T12", "20240229T235959.123456789[u-ca=iso8601]"]) {
    assert.equal(PlainDate.from(text).dayNumber, 738_945);
  }
  assert.equal(`${PlainDate.from("-262143-01-01T23:59:59.123456789")}`, "-262143-01-01");
  for (const text of [
    "", "2024", "2024-02-2", "2024-02-290", " 2024-02-29", "2024-02-29 ", "2024-02-29\0", "2024-2-29", "2024-02-30", "2023-02-29",
    "2024/02/29", "2024-02-2:", "24-02-29", "+2024-02-29", "-0000-01-01", "-000000-01-01", "02024-02-29", "+10000-01-01",
    "+262143-01-01", "-262144-12-31", "2024-13-29", "2024-02-29T25:61", "2024-02-29T24:00", "2024-02-29T12:60", "2024-02-29T12:00:61", "٢٠٢٤-02-29", "2024-02-29é", `2024-02-29${" ".repeat(100)}`, "x".repeat(1_000),
  ]) {
    refused(() => PlainDate.from(text));
  }
  for (const item of [undefined, null, 20_240_229, true, {}, { year: 2024, month: 2 }]) {
    assert.throws(() => PlainDate.from(item), TypeError);
  }
});

const moment = (seconds, nanoseconds) => PlainDateTime.fromUnix(seconds, nanoseconds);
const INSIDE = moment(LAST_SECOND, 1_500_000_000);

/** Texts of date-times, their seconds and nanoseconds. */
const DATE_TIME_TEXTS = [
  ["1970-01-01T00:00:00", 0, 0], ["1969-12-31T23:59:59.999999999", -1, 999_999_999], ["2016-12-31T23:59:60.5", LAST_SECOND, 1_500_000_000],
  ["2016-12-31T23:59:60", LAST_SECOND, 1_000_000_000], ["2016-12-31T23:59:60.999999999", LAST_SECOND, 1_999_999_999],
  ["2016-12-31T23:59:59.999999999", LAST_SECOND, 999_999_999], ["-262143-01-01T00:00:00", -8_334_601_228_800, 0],
  ["+262142-12-31T23:59:60.00001", 8_210_266_876_799, 1_000_010_000], ["-000001-03-01T01:02:03.04", -62193653877, 40_000_000],
];

test("date_time_new", () => {
  for (const [text, seconds, nanoseconds] of DATE_TIME_TEXTS) {
    const it = moment(seconds, nanoseconds);
    const clock = [it.hour, it.minute, it.second, it.millisecond, it.microsecond, it.nanosecond];
    assert.equal(`${new PlainDateTime(it.year, it.month, it.day, ...clock)}`, text);
  }
  for (const clock of [[24], [0, 60], [0, 0, 61], [0, 0, 0, 1_000], [0, 0, 0, 0, 1_000], [0, 0, 0, 0, 0, 1_000], [-1], [NaN], [2 ** 32]]) {
    refused(() => new PlainDateTime(1970, 1, 1, ...clock));
  }
  assert.equal(`${new PlainDateTime(1970, 1, 1, 0, 7, 60)}`, "1970-01-01T00:07:60");
  assert.equal(`${PlainDateTime.from({ year: 1970, month: 1, day: 1, hour: 30, second: 61 })}`, "1970-01-01T23:00:59");
  refused(() => PlainDateTime.from({ year: 1970, month: 1, day: 1, hour: 30 }, { overflow: "reject" }));
  assert.equal(`${INSIDE.with({ year: 2015, nanosecond: 7 })}`, "2015-12-31T23:59:60.500000007");
  assert.equal(`${LEAP_DAY.toPlainDateTime({ hour: 12 })}`, "2024-02-29T12:00:00");
});

test("date_time_date", () => {
  assert.equal(`${INSIDE.toPlainDate()}`, "2016-12-31");
  assert.equal(moment(-8_334_601_228_800, 0).toPlainDate().dayNumber, MIN);
  assert.equal(moment(8_210_266_876_799, 1_999_999_999).toPlainDate().dayNumber, MAX);
  assert.equal(`${PlainDate.from(INSIDE)}`, "2016-12-31");
  for (const [seconds, nanoseconds] of [
    [-8_334_601_228_801, 0], [8_210_266_876_800, 0], [0, 1_000_000_000], [59, 2_000_000_000], [0, -1], [2 ** 60, 0], [NaN, 0],
  ]) {
    refused(() => moment(seconds, nanoseconds));
  }
});

test("date_time_second_of_day", () => {
  const clock = (it) => [it.hour, it.minute, it.second, it.millisecond, it.microsecond, it.nanosecond];
  assert.deepEqual(clock(INSIDE), [23, 59, 60, 500, 0, 0]);
  assert.deepEqual(clock(moment(LAST_SECOND, 1_000_000_000)), [23, 59, 60, 0, 0, 0]);
  assert.deepEqual(clock(moment(LAST_SECOND, 1_999_999_999)), [23, 59, 60, 999, 999, 999]);
  assert.deepEqual(clock(moment(LAST_SECOND, 999_999_999)), [23, 59, 59, 999, 999, 999]);
  assert.deepEqual(clock(moment(3_661, 1_002_003)), [1, 1, 1, 1, 2, 3]);
  assert.deepEqual([INSIDE.unixSeconds, INSIDE.unixNanoseconds], [LAST_SECOND, 1_500_000_000]);
});

test("date_time_add", () => {
  for (const [start, duration, end] of [
    [INSIDE, { milliseconds: 300 }, "2016-12-31T23:59:60.8"], [INSIDE, { milliseconds: 500 }, "2017-01-01T00:00:00"],
    [INSIDE, { seconds: -1 }, "2016-12-31T23:59:59.5"], [INSIDE, { milliseconds: -500 }, "2016-12-31T23:59:60"],
    [moment(LAST_SECOND, 500_000_000), { seconds: 1 }, "2017-01-01T00:00:00.5"], [moment(0, 0), { milliseconds: -1_500 }, "1969-12-31T23:59:58.5"],
    [moment(0, 0), { weeks: 1, days: 1, hours: 1 }, "1970-01-09T01:00:00"], [INSIDE, { months: 2 }, "2017-02-28T23:59:60.5"],
    [INSIDE, { years: -1, months: -10, days: -1 }, "2015-02-28T00:00:00.5"],
  ]) {
    assert.equal(`${start.add(duration)}`, end);
    assert.equal(`${start.subtract(Duration.from(duration).negated())}`, `${start.add(duration)}`);
  }
  refused(() => INSIDE.add({ months: 2 }, { overflow: "reject" }));
  refused(() => moment(8_210_266_876_799, 999_999_999).add({ nanoseconds: 1 }));
  refused(() => moment(-8_334_601_228_800, 0).subtract({ nanoseconds: 1 }));
  refused(() => moment(0, 0).add({ weeks: 2 ** 32 - 1, seconds: 2 ** 53 - 1 }));
});

test("date_time_since", () => {
  for (const [end, base, text] of [
    [moment(1, 0), moment(0, 1), "PT0.999999999S"], [moment(0, 0), moment(1, 500_000_000), "-PT1.5S"],
    [INSIDE, moment(LAST_SECOND, 0), "PT1.5S"], [moment(LAST_SECOND, 0), INSIDE, "-PT1.5S"],
    [moment(LAST_SECOND + 1, 0), INSIDE, "-PT0.5S"], [moment(LAST_SECOND - 60, 1_500_000_000), moment(LAST_SECOND - 59, 0), "-PT0.5S"],
    [moment(90_061, 0), moment(0, 0), "P1DT1H1M1S"],
  ]) {
    assert.equal(`${end.since(base)}`, text);
    assert.equal(`${base.until(end)}`, text);
  }
  assert.equal(`${moment(90_061, 0).since("1970-01-01", { largestUnit: "hours" })}`, "PT25H1M1S");
  assert.equal(moment(90_061, 0).since("1970-01-01", { largestUnit: "nanosecond" }).nanoseconds, 90_061e9);
  refused(() => moment(0, 0).since(INSIDE, { largestUnit: "year" }));
  refused(() => moment(0, 0).since(INSIDE, { smallestUnit: "hour" }));
});

test("write_date_time", () => {
  for (const [text, seconds, nanoseconds] of DATE_TIME_TEXTS) {
    assert.equal(`${moment(seconds, nanoseconds)}`, text);
    assert.equal(JSON.stringify(moment(seconds, nanoseconds)), `"${text}"`);
  }
});

test("read_date_time", () => {
  for (const [text, seconds, nanoseconds] of DATE_TIME_TEXTS) {
    assert.ok(PlainDateTime.from(text).equals(moment(seconds, nanoseconds)), text);
    assert.ok(PlainDateTime.from(text.replace("T", " ")).equals(moment(seconds, nanoseconds)), text);
  }
  assert.equal(`${PlainDateTime.from("2024-02-29")}`, "2024-02-29T00:00:00");
  assert.equal(`${PlainDateTime.from(LEAP_DAY)}`, "2024-02-29T00:00:00");
  for (const text of [
    "", "2024-02-29T", "2024-02-29T1:00:00", "2024-02-29T24:00:00", "2024-02-29T00:60:00", "2024-02-29T00:00:61", "2024-02-30T00:00:00",
    "2024-02-29T00:00:00.", "2024-02-29T00:00:00.1234567890", "2024-02-29T00:00:00Z", "2024-02-29T00:00:00+01:00", "2024-02-29x00:00:00",
    "-000000-01-01T00:00:00", "+2024-02-29T00:00:00", "-262143-01-01T00:00:00.0000000010",
  ]) {
    refused(() => PlainDateTime.from(text));
  }
});

test("fractions", () => {
  const leapDay = new PlainDate(2024, 2, 29);
  for (const call of [
    (it) => PlainDate.fromDayNumber(it), (it) => PlainDate.fromDayOfYear(2024, it), (it) => PlainDate.fromDayOfYear(it, 1), (it) => PlainDate.fromWeek(2024, it, 1),
    (it) => PlainDate.fromWeek(2024, 1, it), (it) => PlainDate.fromWeekdayOfMonth(2024, 2, it, 1), (it) => PlainDate.fromWeekdayOfMonth(2024, 2, 1, it),
    (it) => PlainDateTime.fromUnix(it), (it) => PlainDateTime.fromUnix(0, it), (it) => leapDay.everyMonths(it, 1), (it) => leapDay.everyMonths(1, it),
    (it) => leapDay.firstOfWeek(it), (it) => leapDay.firstOn(it), (it) => leapDay.add({ days: it }), (it) => isLeapYear(it), (it) => daysUntil(it, 1),
    (it) => daysUntil(1, it),
  ]) {
    assert.throws(() => call(1.5), { name: "RangeError", message: /1\.5: no whole number/ });
    assert.doesNotThrow(() => call(1));
  }
});
