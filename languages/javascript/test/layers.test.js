/**
 * Calls every function of `calendar_layers.h` through the package, with answers that are known from outside: a test for each,
 * named after it.
 */

import { strict as assert } from "node:assert";
import { existsSync, readFileSync } from "node:fs";
import { inspect } from "node:util";
import { test } from "node:test";

import {
  BusinessCalendar, CalendarText, dayCount, easter, Pattern, PlainDate, PlainDateTime, Rule, RuleSet, Schedule, TextError, TimedSchedule, version, Zone,
  ZonedDateTime,
} from "proved-calendar";

const refused = (call) => assert.throws(call, RangeError);
const texts = (moments) => Array.from(moments, String);

/** Good Friday and Easter Monday of 2024. */
const EASTER = ["2024-03-29", "2024-04-01"];

/** The last second of the calendar. */
const END = "+262142-12-31T23:59:59";

test("layers_version", () => {
  assert.equal(version(), "0.2.0-dev");
});

test("schedule_read", () => {
  const { fields } = new Schedule("30 4 1,15 * fri");
  assert.deepEqual([fields.minutes, fields.hours, fields.days, fields.weekdays], [[30], [4], [1, 15], [5]]);
  assert.deepEqual(fields.months, [1, 2, 3, 4, 5, 6, 7, 8, 9, 10, 11, 12]);
  assert.deepEqual([fields.isEither, fields.hasLastWorkday], [true, false]);
  const quartz = new Schedule("0 0 L-3,15W,LW * 5L,7#2").fields;
  assert.deepEqual([quartz.daysFromEnd, quartz.nearestWorkdays, quartz.lastWeekdays, quartz.nthWeekdays], [[3], [15], [5], [[0, 2]]]);
  assert.deepEqual([quartz.days, quartz.weekdays, quartz.hasLastWorkday, quartz.isEither], [[], [], true, true]);
  assert.deepEqual(new Schedule("*/20 0 * * 6#5").fields.nthWeekdays, [[6, 5]]);
  assert.deepEqual(new Schedule("59,0 23 31 12 0").fields.minutes, [0, 59]);
  assert.throws(() => Schedule.from(null), TypeError);
  assert.throws(() => Schedule.from(7), TypeError);
});

test("schedule_fault_text", () => {
  for (const [text, start, end, reason] of [
    ["0 25,7 * * *", 2, 4, "hour, byte 2: a number that is out of range"],
    ["5,60 * * * *", 2, 4, "minute, byte 2: a number that is out of range"],
    ["* * * *", 7, 7, "byte 7: too few fields"],
    ["0 0 30-2 * *", 7, 8, "day of the month, byte 7: a range whose end is below its beginning"],
    ["* * * foo *", 6, 9, undefined],
    ["* * * * * *", 10, 11, undefined],
    ["", 0, 0, undefined],
    ["@reboot", 0, 7, undefined],
    // (a place is one of the string, and not of its bytes)
    ["0 ä,99 * * *", 2, 3, undefined],
    ["* * * * \u{1f600}", 8, 10, undefined],
  ]) {
    assert.throws(() => new Schedule(text), (wrong) => {
      assert.ok(wrong instanceof TextError && wrong instanceof RangeError);
      assert.deepEqual([wrong.text, wrong.start, wrong.end, wrong.name], [text, start, end, "TextError"]);
      assert.equal(wrong.reason, reason ?? wrong.reason);
      assert.equal(wrong.message, `${JSON.stringify(text)}: ${wrong.reason}`);
      return true;
    });
  }
  const long = `* * * * ${"1,".repeat(29_000)}1`;
  assert.throws(() => new Schedule(long), { start: 57_344, end: long.length, reason: "longer than 57,344 bytes" });
});

test("schedule_next", () => {
  const office = new Schedule("0 9 * * mon-fri");
  // (1 March 2024 is a Friday)
  assert.equal(`${office.nextAfter("2024-03-01")}`, "2024-03-01T09:00:00");
  assert.equal(`${office.nextAfter(new PlainDateTime(2024, 3, 1, 9))}`, "2024-03-04T09:00:00");
  assert.equal(`${office.nextAfter(new PlainDate(2024, 3, 1))}`, "2024-03-01T09:00:00");
  assert.equal(`${new Schedule("0 0 29 2 *").nextAfter("2096-02-29")}`, "2104-02-29T00:00:00");
  assert.equal(new Schedule("0 0 30 2 *").nextAfter("2024-03-01"), undefined);
  assert.equal(office.nextAfter(END), undefined);
  assert.equal(`${new Schedule("@yearly").nextAfter("-002024-06-01")}`, "-002023-01-01T00:00:00");
  // (one schedule after another, as each lies in the same place)
  assert.equal(`${new Schedule("30 4 * * *").nextAfter("2024-03-01")} ${office.nextAfter("2024-03-01")}`, "2024-03-01T04:30:00 2024-03-01T09:00:00");
  refused(() => office.nextAfter("2024-02-30"));
  assert.throws(() => office.nextAfter(7), TypeError);
});

test("schedule_prev", () => {
  const office = new Schedule("0 9 * * mon-fri");
  assert.equal(`${office.previousBefore("2024-03-04")}`, "2024-03-01T09:00:00");
  assert.equal(`${office.previousBefore("2024-03-01T09:00:00")}`, "2024-02-29T09:00:00");
  assert.equal(`${office.previousBefore("2024-03-01T09:00:00.000000001")}`, "2024-03-01T09:00:00");
  assert.equal(office.previousBefore("-262143-01-01"), undefined);
});

test("schedule_is_due", () => {
  const office = new Schedule("0 9 * * mon-fri");
  const moments = ["2024-03-01T09:00:00", "2024-03-01T09:00:00.000000001", "2024-03-01T09:00:30", "2024-03-02T09:00:00"];
  assert.deepEqual(moments.map((it) => office.isDue(it)), [true, false, false, false]);
});

test("schedule_due", () => {
  const office = new Schedule("0 9 * * mon-fri");
  const [first, second] = ["2024-03-01T09:00:00", "2024-03-04T09:00:00"];
  assert.deepEqual(texts(office.iterate("2024-03-01", { until: "2024-03-05" })), [first, second]);
  assert.deepEqual(texts(office.iterate("2024-03-01", { until: first })), [first]);
  assert.deepEqual(texts(office.iterate(first, { until: first })), []);
  assert.deepEqual(texts(office.iterate("2024-03-01", { until: "2024-02-01" })), []);
  // (more than are found at once)
  const minutes = texts(new Schedule("* * * * *").iterate("2024-02-29T23:59:59", { until: "2024-03-01T03:19:00" }));
  assert.deepEqual([minutes.length, new Set(minutes).size, minutes[0], minutes.at(-1)], [200, 200, "2024-03-01T00:00:00", "2024-03-01T03:19:00"]);
  assert.equal(texts(new Schedule("0 * * * *").iterate("2024-03-01", { until: "2024-03-03T16:00:00" })).length, 64);
  const leapDays = new Schedule("0 0 29 2 *").iterate("2096-02-28T12:00:00");
  assert.deepEqual([leapDays.next(), leapDays.next()].map((it) => `${it.value}`), ["2096-02-29T00:00:00", "2104-02-29T00:00:00"]);
  assert.deepEqual(texts(new Schedule("0 0 30 2 *").iterate("2024-03-01")), []);
  assert.deepEqual(texts(new Schedule("59 23 31 12 *").iterate("+262141-12-31T23:59:00")), ["+262142-12-31T23:59:00"]);
  refused(() => office.iterate("2024-02-30"));
  assert.throws(() => office.iterate("2024-03-01", 7), TypeError);
});

test("schedules as values", () => {
  const schedule = new Schedule("30 4 1,15 * fri");
  assert.equal(`${schedule}|${JSON.stringify({ schedule })}|${inspect(schedule)}`, '30 4 1,15 * fri|{"schedule":"30 4 1,15 * fri"}|Schedule 30 4 1,15 * fri');
  assert.deepEqual(["30 4 15,1 * 5", "30 4 1,15 * *", "31 4 1,15 * fri"].map((it) => schedule.equals(it)), [true, false, false]);
  assert.ok(Schedule.from(schedule).equals(schedule) && Object.prototype.toString.call(schedule) === "[object Schedule]");
});

test("is_open_day", () => {
  const calendar = new BusinessCalendar({ holidays: EASTER });
  const days = ["2024-03-28", "2024-03-29", "2024-03-30", "2024-03-31", "2024-04-01", "2024-04-02"];
  assert.deepEqual(days.map((it) => calendar.isOpen(it)), [true, false, false, false, false, true]);
  assert.deepEqual(days.map((it) => new BusinessCalendar().isOpen(it)), [true, true, false, false, true, true]);
  assert.deepEqual(days.map((it) => new BusinessCalendar({ weekend: [5] }).isOpen(it)), [true, false, true, true, true, true]);
  refused(() => calendar.isOpen("2024-02-30"));
});

test("add_open_days", () => {
  const calendar = new BusinessCalendar({ holidays: EASTER });
  for (const [date, n, wanted] of [
    ["2024-03-28", 1, "2024-04-02"], ["2024-03-28", 2, "2024-04-03"], ["2024-04-02", -1, "2024-03-28"], ["2024-03-29", 0, "2024-04-02"],
    ["2024-03-28", 0, "2024-03-28"], ["2024-03-30", 1, "2024-04-02"], ["2024-03-30", -1, "2024-03-28"],
  ]) {
    assert.equal(`${calendar.add(date, n)}`, wanted);
  }
  refused(() => calendar.add("+262142-12-31", 2));
  refused(() => calendar.add("2024-03-28", 1e300));
  refused(() => calendar.add("2024-03-28", 2 ** 32));
  refused(() => calendar.add("2024-03-28", NaN));
  assert.throws(() => calendar.add("2024-03-28", 1.5), { name: "RangeError", message: "open days 1.5: no whole number" });
  refused(() => new BusinessCalendar({ weekend: [1, 2, 3, 4, 5, 6, 7] }).add("2024-03-28", 0));
});

test("open_days_between", () => {
  const calendar = new BusinessCalendar({ holidays: EASTER });
  assert.equal(calendar.between("2024-03-01", "2024-04-01"), 20);
  assert.equal(calendar.between("2024-04-01", "2024-03-01"), -20);
  assert.equal(new BusinessCalendar().between("2024-03-01", "2024-04-01"), 21);
  assert.equal(calendar.between("2024-03-28", "2024-03-28"), 0);
  assert.equal(new BusinessCalendar({ weekend: [] }).between("-262143-01-01", "+262142-12-31"), 191_491_528);
});

test("roll", () => {
  const calendar = new BusinessCalendar({ holidays: EASTER });
  for (const [date, roll, wanted] of [
    ["2024-03-29", "unadjusted", "2024-03-29"], ["2024-03-29", "following", "2024-04-02"], ["2024-03-29", "preceding", "2024-03-28"],
    ["2024-03-31", "modifiedFollowing", "2024-03-28"], ["2024-04-01", "modifiedPreceding", "2024-04-02"],
    ["2024-03-31", "nearestIsda", "2024-04-02"], ["2024-03-29", "nearestQuantLib", "2024-03-28"], ["2024-03-28", "following", "2024-03-28"],
  ]) {
    assert.equal(`${calendar.roll(date, roll)}`, wanted);
  }
  refused(() => calendar.roll("2024-03-29", "nearest"));
  refused(() => new BusinessCalendar({ weekend: [1, 2, 3, 4, 5, 6, 7] }).roll("2024-03-29", "following"));
});

test("day_count", () => {
  for (const [kind, from, to, numerator, denominator] of [
    ["actual360", "2024-01-31", "2024-03-01", 30, 360], ["actual365Fixed", "2024-01-31", "2024-03-01", 30, 365],
    ["thirty360", "2024-01-31", "2024-03-31", 60, 360], ["thirty360", "2024-01-30", "2024-03-31", 60, 360],
    ["thirty360", "2024-02-28", "2024-03-31", 33, 360], ["thirtyE360", "2024-02-28", "2024-03-31", 32, 360],
    ["actual360", "2024-03-01", "2024-01-31", -30, 360],
  ]) {
    const found = dayCount(kind, from, to);
    assert.equal(found.numerator * denominator, found.denominator * numerator, `${kind} from ${from} to ${to}`);
  }
  const { numerator, denominator } = dayCount("actualActualIsda", "2023-12-31", "2024-01-02");
  assert.ok(Math.abs(numerator / denominator - (1 / 365 + 1 / 366)) < 1e-15);
  refused(() => dayCount("30/360", "2024-01-31", "2024-03-31"));
});

test("holidays_of", () => {
  const target = "2024-01-01 2024-03-29 2024-04-01 2024-05-01 2024-12-25 2024-12-26";
  assert.equal(texts(BusinessCalendar.of("target", 2024, 2024).holidays).join(" "), target);
  // (Independence Day of 2026 is a Saturday, and kept on Friday)
  assert.equal(BusinessCalendar.of("usFederal", 2026, 2026).isOpen("2026-07-03"), false);
  assert.deepEqual(["2024-08-26", "2025-04-21", "2025-04-22"].map((it) => BusinessCalendar.of("englandAndWales", 2024, 2025).isOpen(it)), [false, false, true]);
  // (Christmas Day of 2021 is a Saturday: the exchange keeps it on Friday, and Fedwire is open then)
  assert.deepEqual(["nyse", "fedwire"].map((it) => BusinessCalendar.of(it, 2021, 2021).isOpen("2021-12-24")), [false, true]);
  // (31 October 2017, and Whit Monday of 2024)
  assert.equal(BusinessCalendar.of("germany", 2017, 2017).isOpen("2017-10-31"), false);
  assert.equal(BusinessCalendar.of("france", 2024, 2024).isOpen("2024-05-20"), false);
  // (in Japan 3 May 2026 is a Sunday, 22 September lies between two holidays, and the equinox of March 2027 is on a Sunday)
  const japan = BusinessCalendar.of("japan", 2026, 2027);
  assert.deepEqual(["2026-05-06", "2026-09-22", "2026-12-31", "2027-03-22"].map((it) => japan.isOpen(it)), [false, false, false, false]);
  const sundays = BusinessCalendar.of("target", 2022, 2022, { weekend: [7] });
  assert.deepEqual([sundays.weekend, sundays.isOpen("2022-01-01"), sundays.isOpen("2022-01-08")], [[7], false, true]);
  for (const [name, first, last] of [
    ["target", 300_000, 300_000], ["target", 2 ** 32 + 2024, 2 ** 32 + 2024], ["target", 2024 - 2 ** 32, 2024], ["target", 2_000, 2_400], ["euro", 2024, 2024],
  ]) {
    refused(() => BusinessCalendar.of(name, first, last));
  }
  // (years before the rules begin)
  for (const [name, first] of [["usFederal", 1971], ["target", 1999], ["englandAndWales", 1978]]) {
    assert.deepEqual(BusinessCalendar.of(name, 1900, first - 1).holidays, []);
    assert.equal(BusinessCalendar.of(name, 1900, first).holidays[0].year, first);
  }
});

test("holidays_first_year", () => {
  const firsts = { usFederal: 1971, target: 1999, englandAndWales: 1978, fedwire: 1971, nyse: 1998, germany: 1995, france: 1982, japan: 2007 };
  for (const [name, first] of Object.entries(firsts)) {
    const { firstYear, lastYear } = BusinessCalendar.of(name, first - 9, first);
    assert.deepEqual([firstYear, lastYear], [first, first], name);
  }
  // (New Year's Day of 2022 was kept on the last day of 2021)
  assert.equal(BusinessCalendar.of("usFederal", 2021, 2021).isOpen("2021-12-31"), false);
  assert.equal(BusinessCalendar.of("target", 262_142, 262_142).holidays[0].year, 262_142);
});

/** What an answer is refused with, which looks at another year than 2024 to 2026. */
const OTHER_YEAR = { name: "RangeError", message: "the holidays are known from 2024 to 2026 alone, and another year is looked at" };

test("is_open_day_within", () => {
  const target = BusinessCalendar.of("target", 2024, 2026);
  assert.deepEqual(["2024-01-01", "2026-12-31"].map((it) => target.isOpen(it)), [false, true]);
  for (const day of ["2023-12-31", "2027-01-01"]) {
    assert.throws(() => target.isOpen(day), OTHER_YEAR);
  }
  assert.throws(() => BusinessCalendar.of("target", 1990, 1998).isOpen("1998-06-01"), /from 1999 to 1998/);
  const late = new BusinessCalendar({ firstYear: 2024 });
  assert.deepEqual([late.firstYear, late.lastYear, late.isOpen("2024-01-01")], [2024, 262_142, true]);
  refused(() => late.isOpen("2023-12-31"));
  refused(() => new BusinessCalendar({ firstYear: 300_000 }));
  refused(() => new BusinessCalendar({ lastYear: 2024.5 }));
  const written = JSON.stringify(target);
  assert.equal(JSON.stringify(new BusinessCalendar(JSON.parse(written))), written);
  assert.match(written, /"firstYear":2024,"lastYear":2026}$/);
});

test("add_open_days_within", () => {
  const target = BusinessCalendar.of("target", 2024, 2026);
  assert.equal(`${target.add("2026-12-30", 1)}`, "2026-12-31");
  for (const [date, n] of [["2026-12-30", 2], ["2027-01-01", -1], ["2024-01-02", -1], ["2026-12-30", 1e9]]) {
    assert.throws(() => target.add(date, n), OTHER_YEAR);
  }
});

test("open_days_between_within", () => {
  const target = BusinessCalendar.of("target", 2024, 2026);
  // (261 days of 2026 are no weekends, and five of them holidays)
  assert.equal(target.between("2026-01-01", "2027-01-01"), 256);
  assert.equal(target.between("2027-01-01", "2026-01-01"), -256);
  assert.equal(target.between("2027-01-01", "2027-01-01"), 0);
  assert.throws(() => target.between("2026-01-01", "2027-01-02"), OTHER_YEAR);
  assert.throws(() => target.between("2026-01-01", "2023-12-31"), OTHER_YEAR);
});

test("roll_within", () => {
  const [one, two] = [2022, 2023].map((it) => new BusinessCalendar({ firstYear: 2022, lastYear: it }));
  // (a Saturday)
  for (const name of ["preceding", "modifiedFollowing", "modifiedPreceding", "nearestIsda"]) {
    assert.equal(`${one.roll("2022-12-31", name)}`, "2022-12-30", name);
  }
  refused(() => one.roll("2022-12-31", "following"));
  refused(() => one.roll("2022-12-31", "nearestQuantLib"));
  assert.deepEqual(["following", "nearestQuantLib"].map((it) => `${two.roll("2022-12-31", it)}`), ["2023-01-02", "2022-12-30"]);
  refused(() => one.roll("2023-01-01", "unadjusted"));
});

test("easter", () => {
  assert.deepEqual(texts([2024, 2025, 1961, 2038].map((it) => easter(it))), ["2024-03-31", "2025-04-20", "1961-04-02", "2038-04-25"]);
  refused(() => easter(300_000));
  refused(() => easter(2 ** 32 + 2024));
  refused(() => easter(2024.5));
});

test("holidays_check", () => {
  const days = Array.from({ length: 20_000 }, (_, index) => PlainDate.fromDayNumber(738_945 + index));
  assert.throws(() => new BusinessCalendar({ weekend: [], holidays: days }), { message: "holiday 1000 is one too many" });
  assert.equal(new BusinessCalendar({ weekend: [], holidays: days.slice(0, 1_000) }).holidays.length, 1_000);
});

test("holidays_fault_text", () => {
  const days = Array.from({ length: 1_001 }, (_, index) => PlainDate.fromDayNumber(738_945 + index));
  assert.throws(() => new BusinessCalendar({ weekend: [], holidays: days }), { name: "RangeError", message: "holiday 1000 is one too many" });
});

test("calendars as values", () => {
  const calendar = new BusinessCalendar({ weekend: [7, 6, 6], holidays: ["2024-04-01", "2024-03-30", "2024-03-29", "2024-04-01", "0001-01-01"] });
  assert.deepEqual([calendar.weekend, texts(calendar.holidays)], [[6, 7], ["0001-01-01", ...EASTER]]);
  assert.equal(Object.prototype.toString.call(calendar), "[object BusinessCalendar]");
  const written = JSON.stringify(calendar);
  assert.equal(written, '{"weekend":[6,7],"holidays":["0001-01-01","2024-03-29","2024-04-01"]}');
  assert.equal(JSON.stringify(new BusinessCalendar(JSON.parse(written))), written);
  const days = Array.from({ length: 1_001 }, (_, index) => PlainDate.fromDayNumber(738_945 + index));
  const most = new BusinessCalendar({ weekend: [], holidays: days.slice(1) });
  assert.equal(most.add(days[1], 0).dayNumber, 739_946);
  refused(() => new BusinessCalendar({ weekend: [], holidays: days }));
  refused(() => new BusinessCalendar({ weekend: [8] }));
  refused(() => new BusinessCalendar({ holidays: ["2024-02-30"] }));
});

test("rule_check", () => {
  const rule = new Rule("FREQ=MONTHLY;BYDAY=-1FR", "2024-01-01");
  assert.equal(`${rule} ${rule.start} ${inspect(rule)}`, "FREQ=MONTHLY;BYDAY=-1FR 2024-01-01 Rule FREQ=MONTHLY;BYDAY=-1FR from 2024-01-01");
  assert.equal(Object.prototype.toString.call(new Rule("freq=daily", rule.start)), "[object Rule]");
  assert.equal(JSON.stringify({ rule }), '{"rule":{"text":"FREQ=MONTHLY;BYDAY=-1FR","start":"2024-01-01"}}');
  refused(() => new Rule("FREQ=DAILY", "2024-02-30"));
});

test("rule_fault_text", () => {
  for (const [text, start, end] of [["FREQ=YEARLY;BYMONTH=13", 20, 22], ["FREQ=DAILY;BYMONTH=1,13,2", 21, 23], ["", 0, 0]]) {
    assert.throws(() => new Rule(text, "2024-01-01"), { name: "TextError", text, start, end });
  }
  assert.throws(() => new Rule("FREQ=YEARLY;BYMONTH=13", "2024-01-01"), /BYMONTH/);
});

test("rule_next", () => {
  const fridays = new Rule("FREQ=MONTHLY;BYDAY=-1FR", "2024-01-01");
  const found = ["2024-01-01", "2024-01-26", "2023-01-01"].map((it) => `${fridays.nextAfter(it)}`);
  assert.deepEqual(found, ["2024-01-26", "2024-02-23", "2024-01-26"]);
  assert.equal(new Rule("FREQ=DAILY;COUNT=3", "2024-01-01").nextAfter("2024-01-03"), undefined);
});

test("rule_prev", () => {
  const fridays = new Rule("FREQ=MONTHLY;BYDAY=-1FR", "2024-01-01");
  assert.deepEqual(["2024-03-01", "2024-02-23"].map((it) => `${fridays.previousBefore(it)}`), ["2024-02-23", "2024-01-26"]);
  assert.equal(fridays.previousBefore("2024-01-26"), undefined);
});

test("rule_is_instance", () => {
  const rule = new Rule("FREQ=MONTHLY;BYMONTHDAY=31", "2024-01-01");
  assert.deepEqual(["2024-01-31", "2024-02-29", "2024-03-31", "2023-12-31"].map((it) => rule.includes(it)), [true, false, true, false]);
});

test("rule_instances", () => {
  const daily = new Rule("FREQ=DAILY", "2024-02-01");
  for (const count of [0, 1, 63, 64, 65, 200]) {
    const found = [...daily.iterate({ until: PlainDate.from("2024-01-31").add({ days: count }) })];
    assert.equal(found.length, count);
    assert.ok(found.every((it, index) => it.dayNumber === daily.start.dayNumber + index));
  }
  assert.deepEqual(texts(daily.iterate({ from: "2024-02-29", until: "2024-03-01" })), ["2024-02-29", "2024-03-01"]);
  assert.deepEqual(texts(new Rule("FREQ=WEEKLY;COUNT=3", "2024-02-01")), ["2024-02-01", "2024-02-08", "2024-02-15"]);
  assert.deepEqual(texts(new Rule("FREQ=DAILY", "+262142-12-31")), ["+262142-12-31"]);
  refused(() => daily.iterate({ from: "2024-02-30" }));
});

/** Fridays and the last day of each month, from March 2024 on; 13 March is added, and the 29th left out. */
/** The least processor time of three calls, in milliseconds. */
function timeOf(call) {
  const times = [1, 2, 3].map(() => {
    const began = process.cpuUsage();
    call();
    return process.cpuUsage(began).user / 1_000;
  });
  return Math.min(...times);
}

test("long rules with COUNT", () => {
  const [days, start] = [30_000, "2024-01-01"];
  const last = PlainDate.from(start).add({ days: days - 1 });
  const until = new Rule(`FREQ=DAILY;UNTIL=${last}`.replaceAll("-", ""), start);
  const all = timeOf(() => [...until]);
  for (const text of [`FREQ=DAILY;COUNT=${days}`, `count=${days};freq=daily`]) {
    const counted = new Rule(text, start);
    const found = [...counted];
    assert.ok(found.length === days && found.every((it, index) => index === 0 || it.dayNumber === found[index - 1].dayNumber + 1));
    assert.ok(timeOf(() => [...counted]) < 5 * all + 5);
    const none = [...new RuleSet({ rules: [until], exceptRules: [counted] })];
    assert.deepEqual(none, []);
  }
});

const MEETINGS = new RuleSet({
  rules: [new Rule("FREQ=WEEKLY;BYDAY=FR", "2024-03-01"), new Rule("FREQ=MONTHLY;BYMONTHDAY=-1", "2024-03-01")],
  dates: ["2024-03-31", "2024-03-13", "2024-03-13"],
  exceptDates: ["2024-03-29"],
});

test("sets of rules", () => {
  const march = ["2024-03-01", "2024-03-08", "2024-03-13", "2024-03-15", "2024-03-22", "2024-03-31"];
  assert.deepEqual(texts(MEETINGS.iterate({ until: "2024-03-31" })), march);
  assert.deepEqual(texts(MEETINGS.iterate({ from: "2024-03-13", until: "2024-03-22" })), march.slice(2, 5));
  assert.deepEqual(texts(MEETINGS.iterate({ until: "2024-03-13" })), march.slice(0, 3));
  assert.deepEqual(texts(MEETINGS.iterate({ from: "2024-03-14", until: "2024-03-14" })), []);
  assert.deepEqual(march.map((it) => MEETINGS.includes(it)), march.map(() => true));
  assert.deepEqual(["2024-03-29", "2024-03-02", "2024-02-29"].map((it) => MEETINGS.includes(it)), [false, false, false]);
  assert.deepEqual(march.slice(0, -1).map((it) => `${MEETINGS.nextAfter(it)}`), march.slice(1));
  assert.deepEqual(march.slice(1).map((it) => `${MEETINGS.previousBefore(it)}`), march.slice(0, -1));
  assert.equal(MEETINGS.previousBefore("2024-03-01"), undefined);
  assert.deepEqual(JSON.parse(JSON.stringify(MEETINGS)), {
    rules: [{ text: "FREQ=WEEKLY;BYDAY=FR", start: "2024-03-01" }, { text: "FREQ=MONTHLY;BYMONTHDAY=-1", start: "2024-03-01" }],
    dates: ["2024-03-13", "2024-03-31"], exceptRules: [], exceptDates: ["2024-03-29"],
  });
  const walk = MEETINGS[Symbol.iterator]();
  assert.deepEqual([walk.next(), walk.next()].map((it) => `${it.value}`), march.slice(0, 2));
});

test("sets of rules of which all days are left out", () => {
  const [weekly, seldom] = ["FREQ=WEEKLY;BYDAY=MO", "FREQ=YEARLY;INTERVAL=1000;BYMONTH=3;BYMONTHDAY=2,3;COUNT=4"].map((it) => new Rule(it, "2024-01-01"));
  const [far, last] = ["+200000-03-03", "+262142-12-31"];
  const set = new RuleSet({ rules: [weekly, seldom], dates: [far], exceptRules: [weekly] });
  assert.deepEqual(texts(set), [...texts(seldom), far]);
  assert.deepEqual([`${set.nextAfter("3024-03-03")}`, set.nextAfter(far)], [far, undefined]);
  assert.deepEqual([`${set.previousBefore(far)}`, `${set.previousBefore(last)}`], ["3024-03-03", far]);
  const halves = ["2024-01-01", "2024-01-02"].map((it) => new Rule("FREQ=DAILY;INTERVAL=2", it));
  const none = new RuleSet({ rules: [new Rule("FREQ=DAILY", "2024-01-01")], exceptRules: halves });
  assert.deepEqual([none.nextAfter("2024-01-01"), none.previousBefore(last), texts(none)], [undefined, undefined, []]);
  assert.equal(set.nextAfter(last), undefined);
});

test("schedules in a zone, one after another", () => {
  const timeZone = new Zone("CET-1CEST,M3.5.0,M10.5.0/3");
  const inBerlin = (text) => ZonedDateTime.from(text, { timeZone });
  const [nightly, never] = [new Schedule("30 2 * * *"), new Schedule("0 0 30 2 *")];
  const nights = [...nightly.iterateInZone(inBerlin("2024-03-29T12:00"), { until: inBerlin("2024-04-01T02:30") })];
  assert.deepEqual(nights.map((it) => `${it}`), ["2024-03-30T02:30:00+01:00", "2024-03-31T03:00:00+02:00", "2024-04-01T02:30:00+02:00"]);
  assert.equal(`${nightly.previousInZone(nights[1])}`, `${nights[0]}`);
  assert.equal(`${nightly.previousInZone(inBerlin("2024-10-28T02:30"))}`, "2024-10-27T02:30:00+02:00");
  assert.deepEqual([never.previousInZone(nights[0]), [...never.iterateInZone(nights[0])]], [undefined, []]);
  for (const wrong of [undefined, "2024-03-31T03:00", new PlainDateTime(2024, 3, 31), { epochNanoseconds: 0n, timeZone }]) {
    for (const call of [() => nightly.nextInZone(wrong), () => nightly.previousInZone(wrong), () => nightly.iterateInZone(wrong)]) {
      assert.throws(call, { name: "TypeError", message: /ZonedDateTime/ });
    }
  }
});

test("sets of rules with few instances", () => {
  const [all, others] = ["", ";BYDAY=MO,TU,WE,TH,FR,SA"].map((it) => new Rule(`FREQ=DAILY;BYMONTH=2;BYMONTHDAY=29${it}`, "2024-01-01"));
  const sundays = new RuleSet({ rules: [all], exceptRules: [others] });
  assert.deepEqual(texts(sundays.iterate({ until: "2130-01-01" })), ["2032-02-29", "2060-02-29", "2088-02-29", "2128-02-29"]);
  const years = [...sundays.iterate({ until: "3000-12-31" })].map((it) => it.year);
  assert.deepEqual([years.length, years.at(-1)], [32, 2984]);
  assert.equal(sundays.previousBefore("+262000-01-01").dayOfWeek, 7);
});

test("sets of rules with an end", () => {
  const rules = [new Rule("FREQ=DAILY;COUNT=4", "2024-03-01")];
  const set = new RuleSet({ rules, exceptRules: [new Rule("FREQ=DAILY;INTERVAL=2", "2024-03-01")], exceptDates: ["2024-03-04"] });
  assert.deepEqual(texts(set), ["2024-03-02"]);
  assert.deepEqual([set.nextAfter("2024-03-02"), set.includes("2024-03-01"), set.includes("2024-03-02")], [undefined, false, true]);
  const few = new RuleSet({ rules, dates: ["2024-03-31"], exceptRules: [new Rule("FREQ=DAILY;COUNT=2", "2024-03-02")] });
  assert.deepEqual([texts(few), texts(few.iterate({ from: "2024-03-03" }))], [["2024-03-01", "2024-03-04", "2024-03-31"], ["2024-03-04", "2024-03-31"]]);
  assert.deepEqual(texts(new RuleSet({ dates: ["2024-03-04", "2024-03-01", "2024-03-04"] })), ["2024-03-01", "2024-03-04"]);
  assert.equal(`${new RuleSet({ dates: ["2024-03-04", "2024-03-01"] }).previousBefore("2024-03-05")}`, "2024-03-04");
  assert.deepEqual([texts(new RuleSet()), new RuleSet().nextAfter("2024-03-01"), new RuleSet({}).previousBefore("2024-03-01")], [[], undefined, undefined]);
  assert.deepEqual([texts(MEETINGS.dates), texts(MEETINGS.exceptDates), MEETINGS.rules.length, set.exceptRules.length], [["2024-03-13", "2024-03-31"], ["2024-03-29"], 2, 1]);
  set.rules.pop();
  assert.deepEqual([set.rules.length, `${set.rules[0]}`, Object.prototype.toString.call(set)], [1, "FREQ=DAILY;COUNT=4", "[object RuleSet]"]);
  for (const options of [{ rules: ["FREQ=DAILY"] }, { exceptRules: [7] }, { dates: [7] }, 7, { rules: 7 }, { dates: "2024-03-04" }]) {
    assert.throws(() => new RuleSet(options), TypeError);
  }
  refused(() => new RuleSet({ dates: ["2024-02-30"] }));
  refused(() => set.includes("2024-02-30"));
  refused(() => set.iterate({ from: "" }));
  assert.throws(() => set.iterate({ until: null }), TypeError);
});

/** What a text that is wrong throws: where, and why. */
const wrongFrom = (start, end, reason) => ({ name: "TextError", start, end, reason });

test("pattern_check", () => {
  const pattern = new Pattern("%d.%m.%Y");
  assert.equal(`${pattern} ${inspect(pattern)} ${Object.prototype.toString.call(pattern)}`, "%d.%m.%Y Pattern %d.%m.%Y [object Pattern]");
  assert.equal(JSON.stringify({ pattern }), '{"pattern":"%d.%m.%Y"}');
  assert.throws(() => new Pattern("%Y-%Q"), wrongFrom(3, 5, "byte 3: an unknown specifier"));
  assert.throws(() => new Pattern("100%"), wrongFrom(3, 4, "byte 3: the bytes end within a specifier"));
  assert.throws(() => new Pattern("\u{1f600}\ufeff%\u00e9"), { ...wrongFrom(3, 5, "byte 7: an unknown specifier"), text: "\u{1f600}\ufeff%\u00e9" });
  assert.throws(() => new Pattern("\ufeff%Q"), wrongFrom(1, 3, "byte 3: an unknown specifier"));
  // (the euro sign, of three bytes, lies across the end)
  const long = "x".repeat(57_343);
  assert.throws(() => new Pattern(`${long}\u20ac`), wrongFrom(57_343, 57_344, "longer than 57,344 bytes"));
  assert.equal(`${new Pattern(long)}`, long);
});

test("pattern_fault_text", () => {
  const fields = new Pattern("%d.%m.%Y");
  assert.throws(() => fields.parseDate("1.13.2024"), wrongFrom(2, 9, "byte 2: the field has no such value"));
  assert.throws(() => new Pattern("%F %R").parseDateTime("2024-02-29T13:00"), wrongFrom(10, 16, "byte 10: the pattern has no such text there"));
});

test("format_date", () => {
  const date = new PlainDate(2024, 2, 29);
  for (const [pattern, wanted] of [
    ["%d.%m.%Y", "29.02.2024"], ["%A %-e %B, week %V of %G, day %j", "Thursday 29 February, week 09 of 2024, day 060"], ["", ""],
    ["\ufeff%-d. M\u00e4rz \u{1f600} 100%%", "\ufeff29. M\u00e4rz \u{1f600} 100%"], ["x".repeat(1_000), "x".repeat(1_000)],
  ]) {
    assert.equal(new Pattern(pattern).format(date), wanted);
  }
  assert.equal(new Pattern("%Y %m").format(new PlainDate(-1, 3, 1)), "-0001 03");
  assert.throws(() => new Pattern("%F %H").format(date), { name: "RangeError", message: /^"%F %H": it asks for what 2024-02-29 lacks/ });
  refused(() => new Pattern("%z").format(date));
  refused(() => new Pattern("x".repeat(1_001)).format(date));
  for (const value of ["2024-02-29", undefined, { year: 2024, month: 2, day: 29 }]) {
    assert.throws(() => new Pattern("%F").format(value), TypeError);
  }
});

test("format_date_time", () => {
  assert.equal(new Pattern("%I:%M %p, %s").format(new PlainDateTime(2024, 3, 1, 13)), "01:00 PM, 1709298000");
  assert.equal(new Pattern("%T%.f").format(PlainDateTime.from("2024-02-29T23:59:60.5")), "23:59:60.500");
  assert.equal(new Pattern("%F").format(new PlainDateTime(2024, 3, 1, 13)), "2024-03-01");
  refused(() => new Pattern("%T %z").format(new PlainDateTime(2024, 3, 1, 13)));
});

test("parse_date", () => {
  assert.equal(`${new Pattern("%d %b %Y").parseDate("29 feb 2024")}`, "2024-02-29");
  assert.equal(`${new Pattern("%Y%m%d").parseDate(20240229)} ${new Pattern("\ufeff%G-W%V-%u").parseDate("\ufeff2024-W09-4")}`, "2024-02-29 2024-02-29");
  assert.ok(new Pattern("%F").parseDate("2024-02-29") instanceof PlainDate);
  const pattern = new Pattern("%d.%m.%Y");
  for (const [text, start, reason] of [
    ["29.", 3, "byte 3: the text ends too soon"], ["29.2.2024x", 9, "byte 9: the text goes on behind the end of the pattern"],
    ["29-2", 2, "byte 2: the pattern has no such text there"], ["29.13", 3, "byte 3: the field has no such value"],
    ["29.2.2023", 9, "byte 9: no value fits all fields"],
  ]) {
    assert.throws(() => pattern.parseDate(text), { ...wrongFrom(start, text.length, reason), text, message: `${JSON.stringify(text)}: ${reason}` });
  }
  assert.throws(() => new Pattern("%d.%m.").parseDate("29.2."), wrongFrom(0, 5, "byte 0: the fields do not suffice for the value"));
  // (a place is one of the string, and never within a character: the first bytes of both letters are the same)
  assert.throws(() => new Pattern("\u{1f600}\u00e9%F").parseDate("\u{1f600}\u00e82024-02-29"), wrongFrom(2, 13, "byte 5: the pattern has no such text there"));
  assert.throws(() => pattern.parseDate("1".repeat(57_345)), wrongFrom(57_344, 57_345, "longer than 57,344 bytes"));
});

test("parse_date_time", () => {
  assert.equal(`${new Pattern("%F %R").parseDateTime("2024-03-01 13:00")}`, "2024-03-01T13:00:00");
  assert.equal(`${new Pattern("%FT%T%.f").parseDateTime("2024-02-29T23:59:60.5")}`, "2024-02-29T23:59:60.5");
  assert.equal(`${new Pattern("%s").parseDateTime("0")}`, "1970-01-01T00:00:00");
  assert.throws(() => new Pattern("%F %R").parseDateTime("2024-03-01 25:00"), wrongFrom(11, 16, "byte 11: the field has no such value"));
  assert.throws(() => new Pattern("%F").parseDateTime("2024-03-01"), wrongFrom(0, 10, "byte 0: the fields do not suffice for the value"));
});

test("pattern_names_offset", () => {
  assert.throws(() => new Pattern("%F %R %z").parseDateTime("2024-03-01 13:00 +0530"), { name: "RangeError", message: /^"%F %R %z": it reads an offset/ });
  assert.equal(`${new Pattern("%F %R %Z").parseDateTime("2024-03-01 13:00 CET")}`, "2024-03-01T13:00:00");
});

test("parse_zoned", () => {
  for (const [by, text, wanted] of [
    ["%F %R %z", "2024-03-01 13:00 +0530", "2024-03-01T13:00:00+05:30"], ["%FT%T%.f%:z", "2024-02-29T12:00:00.5-09:30", "2024-02-29T12:00:00.5-09:30"],
    ["%+", "2024-03-01T00:00:00Z", "2024-03-01T00:00:00+00:00"], ["%s %z", "0 +0530", "1970-01-01T05:30:00+05:30"], ["%s", "0", "1970-01-01T00:00:00+00:00"],
  ]) {
    const found = new Pattern(by).parseZonedDateTime(text);
    assert.ok(found instanceof ZonedDateTime);
    assert.equal(found.toString({ timeZoneName: "never" }), wanted);
  }
  assert.equal(new Pattern("%F %T %::z").parseZonedDateTime("2024-03-01 13:00:00 -01:00:30").offsetNanoseconds, -3_630e9);
  // (an instant has no leap second)
  assert.equal(new Pattern("%F %T %z").parseZonedDateTime("2024-02-29 23:59:60 +0000").epochNanoseconds, 1_709_251_199_000_000_000n);
  assert.throws(() => new Pattern("%F %R %z").parseZonedDateTime("2024-03-01 13:00"), wrongFrom(16, 16, "byte 16: the text ends too soon"));
  assert.throws(() => new Pattern("%F %R").parseZonedDateTime("2024-03-01 13:00"), wrongFrom(0, 16, "byte 0: the fields do not suffice for the value"));
});

/** Central Europe by its rule. */
const BERLIN = new Zone("CET-1CEST,M3.5.0,M10.5.0/3");

/** A TZif file of version 1: UTC up to 1970-01-01T00:01:00, and an hour ahead from then on. */
function smallFile() {
  const bytes = new Uint8Array(69);
  const put = (at, text) => bytes.set(new TextEncoder().encode(text), at);
  put(0, "TZif");
  bytes.set([1, 0, 0, 0, 2, 0, 0, 0, 8, 0, 0, 0, 60, 1, 0, 0, 0, 0, 0, 0, 0, 0, 14, 16, 1, 4], 35);
  put(61, "GMT\0BST\0");
  return bytes;
}

/** The instant of a text in Berlin. */
const inBerlin = (text, options) => ZonedDateTime.from(text, { timeZone: BERLIN, ...options });

test("zone_check", () => {
  assert.deepEqual([`${BERLIN}`, BERLIN.name, JSON.stringify(BERLIN)], ["CET-1CEST,M3.5.0,M10.5.0/3", undefined, `"${BERLIN}"`]);
  for (const [text, start, end] of [["EST5EDT", 7, 7], ["EST", 3, 3], ["5", 0, 1], ["EST5EDT,M3.2.0,M13.1.0", 15, 22], ["ä", 0, 1]]) {
    assert.throws(() => new Zone(text), (wrong) => wrong instanceof TextError && wrong.text === text && wrong.start === start && wrong.end === end);
  }
  const file = smallFile();
  assert.deepEqual([`${new Zone(file)}`, `${new Zone(file.buffer, "Here/There")}`], ["a TZif file", "Here/There"]);
  assert.ok(new Zone(file).equals(new Zone(file)) && !new Zone(file).equals(BERLIN) && !new Zone(file, "A").equals(new Zone(file, "B")));
  refused(() => new Zone(file.subarray(0, 60)));
  refused(() => new Zone(file, "../there"));
  refused(() => new Zone("A".repeat(70_000)));
  assert.throws(() => new Zone(7), TypeError);
  assert.throws(() => Zone.from(file), TypeError);
});

test("zone_fault_text", () => {
  for (const [given, reason] of [
    ["EST5EDT", "the days of daylight time are missing"],
    ["EST", "an offset is missing"],
    [smallFile().subarray(0, 60), "the file is cut off"],
    [new TextEncoder().encode("XXX24"), "the offset is a day or more"],
  ]) {
    assert.throws(() => new Zone(given), (wrong) => wrong.reason === reason);
  }
  for (const [given, isHinted] of [["Europe/Berlin", true], ["UTC", true], ["Etc/GMT+1", true], ["EST5EDT", false], ["XXX24", false], ["Here there", false]]) {
    assert.throws(() => new Zone(given), (wrong) => wrong.message.includes("readFileSync(`/usr/share/zoneinfo/${name}`)") === isHinted);
  }
});

test("zone_offset_at", () => {
  const changes = [1_711_846_799n, 1_711_846_800n, 1_729_990_799n, 1_729_990_800n, 1_711_846_799n];
  assert.deepEqual(changes.map((it) => BERLIN.offsetAt(it)), [3_600, 7_200, 7_200, 3_600, 3_600]);
  const file = new Zone(smallFile());
  assert.deepEqual([59n, 60n, 0n].map((it) => file.offsetAt(it)), [0, 3_600, 0]);
  for (const [second, wrong] of [[2n ** 63n, RangeError], [-(2n ** 70n), RangeError], [5, TypeError], [null, TypeError]]) {
    for (const call of ["offsetAt", "offsetsOfLocal", "nextChange"]) {
      assert.throws(() => BERLIN[call](second), wrong);
    }
  }
  // (another zone takes the room of the first)
  assert.deepEqual([BERLIN, file, BERLIN].map((it) => it.offsetAt(1_720_000_000n)), [7_200, 3_600, 7_200]);
  // (a text has the offset in whole minutes)
  const odd = new ZonedDateTime(0n, "LMT-0:53:28");
  assert.deepEqual([`${odd}`, odd.offset], ["1970-01-01T00:53:28+00:53", "+00:53:28"]);
  assert.ok([`${odd}`, "1970-01-01T00:53:28+00:53:28"].every((it) => odd.equals(ZonedDateTime.from(it, { timeZone: odd.timeZone }))));
  assert.equal(`${new ZonedDateTime(-1n, "NST3:30")}`, "1969-12-31T20:29:59.999999999-03:30");
  refused(() => new ZonedDateTime(-8_334_601_228_800_000_000_000n, "HST10"));
});

test("zone_offsets_of_local", () => {
  const seconds = (text) => BigInt(PlainDateTime.from(text).unixSeconds);
  for (const [local, offsets] of [
    ["2024-03-31T01:59:59", [3_600]], ["2024-03-31T02:00:00", []], ["2024-03-31T02:59:59", []], ["2024-03-31T03:00:00", [7_200]],
    ["2024-10-27T01:59:59", [7_200]], ["2024-10-27T02:00:00", [7_200, 3_600]], ["2024-10-27T02:59:59", [7_200, 3_600]],
    ["2024-10-27T03:00:00", [3_600]],
  ]) {
    assert.deepEqual(BERLIN.offsetsOfLocal(seconds(local)), offsets);
  }
});

test("disambiguation", () => {
  const [gap, fold] = ["2024-03-31T02:30", "2024-10-27T02:30"];
  const all = (text) => ["compatible", "earlier", "later"].map((it) => `${inBerlin(text, { disambiguation: it })}`);
  assert.deepEqual(all(gap), ["2024-03-31T03:30:00+02:00", "2024-03-31T01:30:00+01:00", "2024-03-31T03:30:00+02:00"]);
  assert.deepEqual(all(fold), ["2024-10-27T02:30:00+02:00", "2024-10-27T02:30:00+02:00", "2024-10-27T02:30:00+01:00"]);
  refused(() => inBerlin(gap, { disambiguation: "reject" }));
  refused(() => inBerlin(fold, { disambiguation: "reject" }));
  refused(() => inBerlin(fold, { disambiguation: "first" }));
  assert.equal(`${inBerlin("2024-07-01", { disambiguation: "reject" })}`, "2024-07-01T00:00:00+02:00");
});

test("texts of zoned date-times", () => {
  const named = new Zone("CET-1CEST,M3.5.0,M10.5.0/3", "Europe/Berlin");
  const read = (text, options) => `${ZonedDateTime.from(text, { timeZone: named, ...options })}`;
  assert.equal(read("2024-10-27T02:30+01:00[Europe/Berlin]"), "2024-10-27T02:30:00+01:00[Europe/Berlin]");
  assert.equal(read("2024-10-27T00:30Z"), "2024-10-27T02:30:00+02:00[Europe/Berlin]");
  refused(() => read("2024-07-01T12:00+01:00"));
  refused(() => read("2024-07-01T12:00[Europe/Paris]"));
  refused(() => read("2024-07-01T12:00+24:00"));
  refused(() => read("noon"));
  assert.equal(read("2024-07-01T12:00[!Europe/Berlin][u-ca=ISO8601][foo=bar]"), "2024-07-01T12:00:00+02:00[Europe/Berlin]");
  for (const brackets of ["[u-ca=hebrew]", "[!foo=bar]", "[Europe/Berlin][Europe/Berlin]", "[u-ca=iso8601][Europe/Berlin]", "[]"]) {
    refused(() => read(`2024-07-01T12:00${brackets}`));
  }
  // (such a text is refused at once)
  refused(() => read(`${"T".repeat(1e6)}[`));
  assert.equal(read("2024-07-01T12:00+01:00", { offset: "use" }), "2024-07-01T13:00:00+02:00[Europe/Berlin]");
  assert.equal(read("2024-07-01T12:00+01:00", { offset: "ignore" }), "2024-07-01T12:00:00+02:00[Europe/Berlin]");
  assert.equal(read("2024-07-01T12:00+01:00", { offset: "prefer" }), "2024-07-01T12:00:00+02:00[Europe/Berlin]");
  assert.throws(() => ZonedDateTime.from("2024-07-01"), TypeError);
  assert.throws(() => ZonedDateTime.from(7, { timeZone: named }), TypeError);
  const noon = ZonedDateTime.from({ year: 2024, month: 7, day: 1, hour: 12, timeZone: named });
  assert.deepEqual([noon.offset, noon.offsetNanoseconds, noon.timeZoneId, noon.hour, noon.dayOfWeek], ["+02:00", 7.2e12, "Europe/Berlin", 12, 1]);
  assert.equal(noon.toString({ timeZoneName: "never" }), "2024-07-01T12:00:00+02:00");
  assert.equal(noon.toString({ timeZoneName: "never", offset: "never" }), "2024-07-01T12:00:00");
  const shown = { timeZoneName: "critical", offset: "auto", calendarName: "critical", fractionalSecondDigits: "auto" };
  assert.equal(noon.toString(shown), "2024-07-01T12:00:00+02:00[!Europe/Berlin][!u-ca=iso8601]");
  for (const options of [{ offset: "always" }, { timeZoneName: "always" }, { calendarName: "never!" }, { fractionalSecondDigits: 3 }]) {
    refused(() => noon.toString(options));
  }
  refused(() => noon.toInstant().toString({ timeZone: noon.timeZone }));
  assert.deepEqual([JSON.stringify(noon), inspect(noon)], [`"${noon}"`, `ZonedDateTime ${noon}`]);
  assert.deepEqual([`${noon.toInstant()}`, `${noon.toPlainDateTime()}`, `${noon.toPlainDate()}`], ["2024-07-01T10:00:00Z", "2024-07-01T12:00:00", "2024-07-01"]);
  assert.ok(noon.toLocaleString("en").endsWith(" +02:00"));
  assert.throws(() => noon < noon, TypeError);
});

test("rounding of zoned date-times", () => {
  for (const [text, options, wanted] of [
    ["2024-07-01T12:34:56.5", "hour", "2024-07-01T13:00:00+02:00"],
    ["2024-07-01T12:34:56.5", { smallestUnit: "minutes", roundingIncrement: 15, roundingMode: "ceil" }, "2024-07-01T12:45:00+02:00"],
    ["2024-07-01T12:34:56.5", { smallestUnit: "nanosecond" }, "2024-07-01T12:34:56.5+02:00"],
    ["2024-12-31T23:30", "hour", "2025-01-01T00:00:00+01:00"],
    // (the clock skips 02:00 and shows 02:30 twice: once it is so late by either offset)
    ["2024-03-31T01:30", "hour", "2024-03-31T03:00:00+02:00"],
    ["2024-10-27T02:20+02:00", { smallestUnit: "minute", roundingIncrement: 30 }, "2024-10-27T02:30:00+02:00"],
    ["2024-10-27T02:20+01:00", { smallestUnit: "minute", roundingIncrement: 30 }, "2024-10-27T02:30:00+01:00"],
    ["2024-10-27T02:45+02:00", "hour", "2024-10-27T03:00:00+01:00"],
    // (these days have 23 and 25 hours)
    ["2024-03-31T12:29:59", "day", "2024-03-31T00:00:00+01:00"],
    ["2024-03-31T12:30", "days", "2024-04-01T00:00:00+02:00"],
    ["2024-10-27T11:29:59", "day", "2024-10-27T00:00:00+02:00"],
    ["2024-10-27T11:30", "day", "2024-10-28T00:00:00+01:00"],
    ["2024-10-27T23:59", { smallestUnit: "day", roundingMode: "trunc" }, "2024-10-27T00:00:00+02:00"],
  ]) {
    assert.equal(`${inBerlin(text).round(options)}`, wanted, text);
  }
  const noon = inBerlin("2024-07-01T12:00");
  assert.ok(noon.round("hour").equals(noon) && noon.round("hour").timeZone === noon.timeZone);
  for (const options of [{}, "week", { smallestUnit: "day", roundingIncrement: 2 }, { smallestUnit: "hour", roundingMode: "up" }]) {
    refused(() => noon.round(options));
  }
  assert.throws(() => noon.round(), TypeError);
});

test("moves of zoned date-times", () => {
  const start = inBerlin("2024-03-30T02:30");
  assert.equal(`${start.add({ days: 1 })}`, "2024-03-31T03:30:00+02:00");
  assert.equal(`${start.add({ hours: 24 })}`, "2024-03-31T03:30:00+02:00");
  assert.equal(`${start.add({ days: 2 })}`, "2024-04-01T02:30:00+02:00");
  assert.equal(`${start.add({ hours: 48 })}`, "2024-04-01T03:30:00+02:00");
  assert.equal(`${start.add({ months: 1, hours: 1 })}`, "2024-04-30T03:30:00+02:00");
  assert.equal(`${start.subtract({ months: 1 })}`, "2024-02-29T02:30:00+01:00");
  assert.equal(`${start.until(start.add({ days: 2 }))}`, "PT47H");
  assert.equal(`${start.since(start.add({ days: 2 }), { largestUnit: "minutes" })}`, "-PT2820M");
  assert.deepEqual(["2024-03-31", "2024-10-27", "2024-07-01"].map((it) => inBerlin(it).hoursInDay), [23, 25, 24]);
  assert.equal(`${inBerlin("2024-03-31T12:00").startOfDay()}`, "2024-03-31T00:00:00+01:00");
  // (in Beirut the clock skips the midnight of 31 March)
  const beirut = new Zone("EET-2EEST,M3.5.0/0,M10.5.0/0");
  assert.equal(`${ZonedDateTime.from("2024-03-31T12:00", { timeZone: beirut }).startOfDay()}`, "2024-03-31T01:00:00+03:00");
  const fold = inBerlin("2024-10-27T02:30+01:00");
  assert.equal(`${fold.with({ minute: 45 })}`, "2024-10-27T02:45:00+01:00");
  assert.equal(`${fold.with({ offset: "+02:00" })}`, "2024-10-27T02:30:00+02:00");
  assert.equal(`${fold.with({ day: 28 })}`, "2024-10-28T02:30:00+01:00");
  assert.equal(`${start.withTimeZone("HST10")}`, "2024-03-29T15:30:00-10:00");
  assert.equal(ZonedDateTime.compare(start, start.withTimeZone("HST10")), 0);
  assert.ok(!start.equals(start.withTimeZone("HST10")) && start.equals(inBerlin("2024-03-30T02:30")));
  assert.equal(ZonedDateTime.compare(start, fold), -1);
  assert.equal(`${ZonedDateTime.from(start, { timeZone: "JST-9" })}`, "2024-03-30T10:30:00+09:00");
  assert.equal(`${ZonedDateTime.from(start.toInstant(), { timeZone: BERLIN })}`, `${start}`);
  assert.equal(start.epochMilliseconds, Number(start.epochNanoseconds / 1_000_000n));
});

test("zone_holds_until", () => {
  assert.equal(`${inBerlin("2024-03-30").getTimeZoneTransition("next")}`, "2024-03-31T03:00:00+02:00");
  assert.equal(ZonedDateTime.from("2024-03-30", { timeZone: "HST10" }).getTimeZoneTransition({ direction: "next" }), null);
  refused(() => inBerlin("2024-03-30").getTimeZoneTransition("previous"));
  assert.deepEqual([BERLIN.nextChange(1_711_846_799n), BERLIN.nextChange(1_711_846_800n)], [1_711_846_800n, 1_729_990_800n]);
  assert.deepEqual([new Zone(smallFile()).nextChange(0n), new Zone(smallFile()).nextChange(60n)], [60n, undefined]);
});

test("zone_schedule_next", () => {
  const [nightly, hourly] = [new Schedule("30 2 * * *"), new Schedule("30 * * * *")];
  assert.equal(`${nightly.nextInZone(inBerlin("2024-03-30T12:00"))}`, "2024-03-31T03:00:00+02:00");
  assert.equal(`${nightly.nextInZone(inBerlin("2024-03-31T03:00"))}`, "2024-04-01T02:30:00+02:00");
  const first = inBerlin("2024-10-27T02:30");
  assert.equal(`${nightly.nextInZone(first)}`, "2024-10-28T02:30:00+01:00");
  assert.equal(`${hourly.nextInZone(first)}`, "2024-10-27T02:30:00+01:00");
  assert.equal(new Schedule("0 0 30 2 *").nextInZone(first), undefined);
});

test("zone_schedule_prev", () => {
  const [nightly, hourly] = [new Schedule("30 2 * * *"), new Schedule("30 * * * *")];
  assert.equal(`${nightly.previousInZone(inBerlin("2024-04-01T02:30"))}`, "2024-03-31T03:00:00+02:00");
  assert.equal(`${nightly.previousInZone(inBerlin("2024-10-28T02:30"))}`, "2024-10-27T02:30:00+02:00");
  assert.equal(`${hourly.previousInZone(inBerlin("2024-10-27T03:00"))}`, "2024-10-27T02:30:00+01:00");
  assert.equal(new Schedule("0 0 30 2 *").previousInZone(inBerlin("2024-10-28T02:30")), undefined);
});

test("zones of this machine, beside Intl", { skip: !existsSync("/usr/share/zoneinfo/Europe/Berlin") }, () => {
  for (const name of ["Europe/Berlin", "America/New_York", "Australia/Lord_Howe", "Africa/Casablanca", "Asia/Kathmandu", "Pacific/Apia"]) {
    const zone = new Zone(readFileSync(`/usr/share/zoneinfo/${name}`), name);
    const intl = new Intl.DateTimeFormat("en", { timeZone: name, timeZoneName: "longOffset" });
    for (let second = 0; second < 2_500_000_000; second += 3_333_333) {
      const shown = intl.formatToParts(1_000 * second).find((it) => it.type === "timeZoneName").value.slice(3) || "+00:00";
      assert.equal(new ZonedDateTime(BigInt(second) * 1_000_000_000n, zone).offset, shown, `${name} at ${second}`);
    }
  }
});

const NIGHTLY_LINES = "DTSTART;TZID=Europe/Berlin:20240330T023000\nRRULE:FREQ=DAILY;BYHOUR=2,17\n";
const MONTHLY_LINES =
  "DTSTART;TZID=Europe/Berlin:20240131T090000\r\nRRULE:FREQ=MONTHLY;COUNT=4\r\n" +
  "RDATE;TZID=Europe/Berlin:20240201T090000\r\nEXDATE;TZID=Europe/Berlin:20240531T090000\r\n";

/** What a TextError says of a call, and where. */
function saidOf(call) {
  try {
    call();
  } catch (error) {
    assert.ok(error instanceof TextError);
    return [error.reason, error.start, error.end];
  }
  return undefined;
}

test("text_check", () => {
  assert.equal(`${new CalendarText(NIGHTLY_LINES, BERLIN)}`, NIGHTLY_LINES);
  assert.deepEqual(saidOf(() => new CalendarText("DTSTART:20240131T0900", BERLIN)), ["no date and no date-time as 20240131T090000", 8, 21]);
  assert.throws(() => new CalendarText(NIGHTLY_LINES, 1), TypeError);
});

test("text_fault_text", () => {
  assert.deepEqual(saidOf(() => new CalendarText("RRULE:FREQ=DAILY", BERLIN)), ["DTSTART is missing", 16, 16]);
});

test("text_zone", () => {
  assert.equal(CalendarText.zoneName(NIGHTLY_LINES), "Europe/Berlin");
  assert.equal(CalendarText.zoneName("DTSTART:20240131T090000"), undefined);
});

test("text_next", () => {
  const nights = new CalendarText(NIGHTLY_LINES, BERLIN);
  assert.equal(`${nights.nextAfter(inBerlin("2024-01-01T00:00"))}`, "2024-03-30T02:30:00+01:00");
  assert.equal(`${nights.nextAfter(inBerlin("2024-03-30T17:30"))}`, "2024-03-31T03:30:00+02:00");
  assert.equal(new CalendarText("DTSTART:20240131T090000", BERLIN).nextAfter(inBerlin("2024-01-31T09:00")), undefined);
  assert.throws(() => nights.nextAfter("2024-01-01"), TypeError);
});

test("text_prev", () => {
  const nights = new CalendarText(NIGHTLY_LINES, BERLIN);
  assert.equal(`${nights.previousBefore(inBerlin("2024-03-31T03:30"))}`, "2024-03-30T17:30:00+01:00");
  assert.equal(nights.previousBefore(inBerlin("2024-03-30T02:30")), undefined);
});

test("text_is_instance", () => {
  const meetings = new CalendarText(MONTHLY_LINES, BERLIN);
  assert.ok(meetings.includes(inBerlin("2024-07-31T09:00")));
  assert.ok(!meetings.includes(inBerlin("2024-05-31T09:00")));
});

test("text_instances", () => {
  const meetings = new CalendarText(MONTHLY_LINES, BERLIN);
  const wanted = ["2024-02-01T09:00:00+01:00", "2024-03-31T09:00:00+02:00", "2024-07-31T09:00:00+02:00"];
  assert.deepEqual(texts(meetings.iterate(inBerlin("2024-01-31T09:00"))), wanted);
  assert.deepEqual(texts(meetings.iterate(inBerlin("2024-01-31T09:00"), { until: inBerlin("2024-03-31T09:00") })), wanted.slice(0, 2));
  const hourly = new CalendarText("DTSTART:20240101T000000\nRRULE:FREQ=HOURLY;COUNT=200", BERLIN);
  assert.equal([...hourly.iterate(inBerlin("2023-01-01T00:00"))].length, 200);
});

test("timed_schedule_check", () => {
  for (const [text, dialect, ...wanted] of [
    ["0,60 * * * * *", "seconds", "second, byte 2: a number that is out of range", 2, 4],
    ["0 0 24 * * *", "seconds", "hour, byte 4: a number that is out of range", 4, 6],
    ["0 0 0 1 * MON", "quartz", "weekday, byte 10: not just one field of days is ?", 10, 13],
    ["0 0 0 1 * ? 2100", "quartz", "year, byte 12: a number that is out of range", 12, 16],
    ["0 0 ? * 7", "robfig", "weekday, byte 8: a number that is out of range", 8, 9],
  ]) {
    assert.deepEqual(saidOf(() => new TimedSchedule(text, { dialect })), wanted);
  }
  refused(() => new TimedSchedule("@daily", { dialect: "posix" }));
});

test("timed_schedule_fault_text", () => {
  assert.deepEqual(saidOf(() => new TimedSchedule("61 * * * * *", { dialect: "seconds" })), ["second, byte 0: a number that is out of range", 0, 2]);
  assert.deepEqual(saidOf(() => new TimedSchedule("0 0 0 ? * ?", { dialect: "quartz" })), ["weekday, byte 10: not just one field of days is ?", 10, 11]);
});

test("timed_schedule_next", () => {
  const quarters = new TimedSchedule("*/15 30 4 * * *");
  assert.equal(`${quarters.nextAfter("2024-02-09T04:30:15")}`, "2024-02-09T04:30:30");
  const found = quarters.iterate("2024-02-09T04:30:15", { until: "2024-02-10T04:30:00" });
  assert.deepEqual(texts(found), ["2024-02-09T04:30:30", "2024-02-09T04:30:45", "2024-02-10T04:30:00"]);
  const weekdays = new TimedSchedule("0 30 4 ? * MON-FRI 2024-2026", { dialect: "quartz" });
  assert.equal(weekdays.nextAfter("2026-12-31T04:30"), undefined);
  for (const [dialect, next] of [["robfig", "2024-02-21T04:30:00"], ["crontab", "2024-03-01T04:30:00"]]) {
    assert.equal(`${new TimedSchedule("30 4 */20 * FRI", { dialect }).nextAfter("2024-02-16T04:30")}`, next);
  }
});

test("timed_schedule_prev", () => {
  assert.equal(`${new TimedSchedule("*/15 30 4 * * *").previousBefore("2024-02-09T04:30:15")}`, "2024-02-09T04:30:00");
});

test("timed_schedule_is_due", () => {
  const daily = new TimedSchedule("@daily", { dialect: "crontab" });
  assert.ok(daily.isDue("2024-03-01T00:00"));
  assert.ok(!daily.isDue("2024-03-01T00:00:01"));
});
