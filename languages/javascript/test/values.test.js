/** What the package does besides: orders, differences by units, durations, and values that print. */

import { strict as assert } from "node:assert";
import { inspect } from "node:util";
import { test } from "node:test";

import * as all from "proved-calendar";

const { Duration, PlainDate, PlainDateTime } = all;

const refused = (call) => assert.throws(call, RangeError);

test("orders", () => {
  assert.deepEqual(
    ["2024-03-01", "2024-02-29", "-000001-01-01"].map((it) => PlainDate.compare("2024-02-29", it)),
    [-1, 0, 1],
  );
  const times = ["2016-12-31T23:59:59.999", "2016-12-31T23:59:60", "2016-12-31T23:59:60.5", "2017-01-01T00:00:00"];
  for (const [index, one] of times.entries()) {
    for (const [place, other] of times.entries()) {
      assert.equal(PlainDateTime.compare(one, other), Math.sign(index - place));
      assert.equal(PlainDateTime.from(one).equals(other), index === place);
    }
  }
  assert.ok(new PlainDate(2024, 2, 29).equals({ year: 2024, month: 2, day: 29 }));
  assert.throws(() => new PlainDate(2024, 2, 29) < new PlainDate(2024, 3, 1), TypeError);
  assert.throws(() => +PlainDateTime.from("2024-02-29"), TypeError);
  assert.throws(() => +new Duration(), TypeError);
});

test("differences by units", () => {
  for (const [from, to, unit, text] of [
    ["2024-01-31", "2024-02-29", "month", "P29D"], ["2024-01-31", "2024-03-01", "month", "P1M1D"], ["2024-02-29", "2025-02-28", "year", "P11M30D"],
    ["2024-02-29", "2028-02-29", "years", "P4Y"], ["2024-02-29", "2024-03-15", "weeks", "P2W1D"], ["2024-03-15", "2024-02-29", "auto", "-P15D"],
    ["2024-03-31", "2024-02-29", "month", "-P1M"], ["2024-03-30", "2024-02-29", "month", "-P1M"], ["2024-03-28", "2024-02-29", "month", "-P28D"], ["2024-02-29", "2024-02-29", "year", "PT0S"],
    ["-262143-01-01", "+262142-12-31", "year", "P524285Y11M30D"],
  ]) {
    assert.equal(`${PlainDate.from(from).until(to, { largestUnit: unit })}`, text);
    assert.equal(`${PlainDate.from(from).since(to, { largestUnit: unit }).negated()}`, text);
  }
  refused(() => PlainDate.from("2024-02-29").until("2025-02-28", { largestUnit: "hour" }));
});

test("durations", () => {
  for (const text of ["PT0S", "P1Y2M3W4DT5H6M7.008009001S", "-PT0.5S", "P4294967295Y", "PT9007199254740991.999999999S", "P7W", "-P1DT1S"]) {
    assert.equal(`${Duration.from(text)}`, text);
    assert.equal(`${Duration.from(text).negated().negated()}`, text);
    assert.equal(JSON.stringify(Duration.from(text)), `"${text}"`);
  }
  assert.equal(`${Duration.from("+p1dt2h")}`, "P1DT2H");
  assert.equal(`${Duration.from({ seconds: 90, milliseconds: 1_500 })}`, "PT91.5S");
  const { seconds, milliseconds, sign, blank } = Duration.from({ seconds: -90, milliseconds: -1_500 });
  assert.deepEqual([seconds, milliseconds, sign, blank, new Duration().blank], [-90, -1_500, -1, false, true]);
  assert.equal(`${Duration.from({ days: -1 }).abs()}`, "P1D");
  for (const text of ["", "P", "PT", "P1", "1D", "P1DT", "P1.5D", "P1H", "PT1.1234567890S", "P4294967296Y", "PT9007199254740992S", "P-1D"]) {
    refused(() => Duration.from(text));
  }
  for (const fields of [{ days: 1, hours: -1 }, { days: 1.5 }, { days: NaN }, { months: 2 ** 32 }, { seconds: 2 ** 53 }, { seconds: -(2 ** 53) }]) {
    refused(() => Duration.from(fields));
  }
  for (const item of [{}, null, 7, { day: 1 }]) {
    assert.throws(() => Duration.from(item), TypeError);
  }
});

test("sums of durations", () => {
  for (const [one, other, sum] of [
    ["PT1.5S", "PT1.5S", "PT3S"], ["P1D", "PT25H", "P2DT1H"], ["PT50M", "PT20M", "PT70M"], ["PT1H", "-PT1S", "PT59M59S"], ["P1D", "-P1D", "PT0S"],
  ]) {
    assert.equal(`${Duration.from(one).add(other)}`, sum);
    assert.equal(`${Duration.from(one).subtract(Duration.from(other).negated())}`, sum);
  }
  refused(() => Duration.from("P1M").add("P1D"));
  refused(() => Duration.from("P1W").add("P1D"));
  assert.deepEqual(["PT1H", "PT60M", "PT61M"].map((it) => Duration.compare("PT60M", it)), [0, 0, -1]);
  assert.equal(Duration.compare("P1M", "P1M"), 0);
  refused(() => Duration.compare("P1M", "P30D"));
  assert.equal(`${Duration.fromNanoseconds(90_061_000_000_001n)}`, "P1DT1H1M1.000000001S");
  assert.equal(Duration.from("P1Y1MT1S").totalMonths, 13);
});

test("printing", () => {
  assert.equal(inspect(new PlainDate(2024, 2, 29)), "PlainDate 2024-02-29");
  assert.equal(inspect(PlainDateTime.from("2016-12-31T23:59:60.5")), "PlainDateTime 2016-12-31T23:59:60.5");
  assert.equal(inspect(Duration.from("PT1H")), "Duration PT1H");
  assert.equal(Object.prototype.toString.call(new PlainDate(2024, 2, 29)), "[object PlainDate]");
  assert.deepEqual([new PlainDate(2024, 2, 29).monthCode, new PlainDate(2024, 2, 29).calendarId], ["M02", "iso8601"]);
});

test("months by their codes, and calendars", () => {
  const named = { year: 2024, monthCode: "M02", day: 29 };
  assert.equal(`${PlainDate.from(named)}`, "2024-02-29");
  assert.equal(`${PlainDate.from({ ...named, month: 2, calendar: "ISO8601" })}`, "2024-02-29");
  assert.equal(`${PlainDateTime.from({ ...named, hour: 7 })}`, "2024-02-29T07:00:00");
  for (const one of [new PlainDate(2024, 1, 31), new PlainDateTime(2024, 1, 31)]) {
    assert.equal(`${one.with({ monthCode: "M02" }).toPlainDate?.() ?? one.with({ monthCode: "M02" })}`, "2024-02-29");
    assert.equal(one.with({ monthCode: "M12", month: 12 }).month, 12);
    refused(() => one.with({ monthCode: "M02", month: 3 }));
    refused(() => one.with({ monthCode: "M13" }));
    refused(() => one.with({ day: 1, calendarId: "hebrew" }));
    assert.throws(() => one.with({ day: 1, calendar: "iso8601" }), TypeError);
    assert.throws(() => one.with({ day: 1, timeZone: "UTC" }), TypeError);
    assert.throws(() => one.with({}), TypeError);
    assert.throws(() => one.with(null), TypeError);
  }
  for (const it of [PlainDate, PlainDateTime]) {
    for (const monthCode of ["M00", "M13", "M2", "m02", "M02L", "M02 ", "", "02", 2, null]) {
      refused(() => it.from({ ...named, monthCode }));
    }
    for (const other of [{ month: 3 }, { month: 14 }, { calendar: "hebrew" }, { calendarId: "hebrew" }, { calendar: "" }]) {
      refused(() => it.from({ ...named, ...other }));
    }
    assert.throws(() => it.from({ year: 2024, day: 29 }), TypeError);
  }
});

test("calendars that constructors are given, and annotations", () => {
  assert.equal(`${new PlainDate(2024, 2, 29, "ISO8601")}`, "2024-02-29");
  assert.equal(`${new PlainDateTime(2024, 2, 29, 12, 0, 0, 0, 0, 0, "iso8601")}`, "2024-02-29T12:00:00");
  for (const name of ["nonsense", "gregory", "hebrew", ""]) {
    refused(() => new PlainDate(2024, 2, 29, name));
    refused(() => new PlainDateTime(2024, 2, 29, 12, 0, 0, 0, 0, 0, name));
    refused(() => PlainDate.from(`2024-02-29[u-ca=${name}]`));
  }
  assert.throws(() => new PlainDate(2024, 2, 29, null), TypeError);
  const [date, moment] = [new PlainDate(2024, 2, 29), new PlainDateTime(2024, 2, 29, 12)];
  for (const [calendarName, annotation] of [["auto", ""], ["never", ""], ["always", "[u-ca=iso8601]"], ["critical", "[!u-ca=iso8601]"]]) {
    assert.equal(date.toString({ calendarName }), `2024-02-29${annotation}`);
    assert.equal(moment.toString({ calendarName }), `2024-02-29T12:00:00${annotation}`);
    assert.equal(PlainDate.from(date.toString({ calendarName })).equals(date), true);
    assert.equal(PlainDateTime.from(moment.toString({ calendarName })).equals(moment), true);
  }
  refused(() => date.toString({ calendarName: "sometimes" }));
  refused(() => moment.toString({ calendarName: "toString" }));
});

test("options that are none", () => {
  const [date, time] = [new PlainDate(2024, 2, 29), new PlainDateTime(2024, 2, 29)];
  for (const it of [PlainDate, PlainDateTime]) {
    for (const item of [date, time, "2024-02-29", { year: 2024, month: 2, day: 29 }]) {
      refused(() => it.from(item, { overflow: "bad" }));
      assert.throws(() => it.from(item, 5), TypeError);
      assert.throws(() => it.from(item, null), TypeError);
      assert.equal(it.from(item, { overflow: "reject" }).day, 29);
    }
  }
  for (const it of [time, Duration.from("PT1.5S")]) {
    refused(() => it.toString({ smallestUnit: "second" }));
    refused(() => it.toString({ fractionalSecondDigits: 3 }));
    refused(() => it.toString({ roundingMode: "ceil" }));
    assert.equal(it.toString({}), `${it}`);
  }
  for (const it of [date, time, Duration.from("PT1S")]) {
    assert.throws(() => it.toString(5), TypeError);
  }
  for (const largestUnit of ["autos", "dayss", "s", ""]) {
    refused(() => date.until(date, { largestUnit }));
    refused(() => time.until(time, { largestUnit }));
  }
  refused(() => date.until(date, { roundingMode: "ceil" }));
});

test("nanoseconds beyond a Number", () => {
  assert.equal(Duration.fromNanoseconds(2n ** 53n + 1n, "nanosecond").nanoseconds, 2 ** 53);
  assert.equal(Duration.fromNanoseconds(2n ** 53n + 1n, "second").totalNanoseconds, 2n ** 53n + 1n);
});

test("rounding", () => {
  for (const [text, options, rounded] of [
    ["PT1H29M59S", "hour", "PT1H"], ["PT1H30M", "hour", "PT2H"], ["-PT1H30M", "hour", "-PT2H"], ["PT90M", { largestUnit: "hour" }, "PT1H30M"],
    ["PT1.5S", { smallestUnit: "second", roundingMode: "halfEven" }, "PT2S"], ["PT2.5S", { smallestUnit: "second", roundingMode: "halfEven" }, "PT2S"],
    ["-PT1.1S", { smallestUnit: "second", roundingMode: "ceil" }, "-PT1S"], ["-PT1.1S", { smallestUnit: "second", roundingMode: "floor" }, "-PT2S"],
    ["PT7M", { smallestUnit: "minute", roundingIncrement: 15 }, "PT0S"], ["PT8M", { smallestUnit: "minute", roundingIncrement: 15 }, "PT15M"],
    ["PT36H", "day", "P2D"], ["P1DT30M", { largestUnit: "hours", smallestUnit: "hours", roundingMode: "expand" }, "PT25H"],
  ]) {
    assert.equal(`${Duration.from(text).round(options)}`, rounded);
  }
  for (const [text, unit, total] of [["PT90M", "hour", 1.5], ["-PT90M", "day", -0.0625], ["P1DT1S", "second", 86_401], ["PT0.1S", "hours", 0.1 / 3_600]]) {
    assert.equal(Duration.from(text).total({ unit }), total);
    assert.equal(Duration.from(text).total(unit), total);
  }
  for (const [text, options, rounded] of [
    ["2024-02-29T23:30:00", "hour", "2024-03-01T00:00:00"], ["2024-02-29T12:00:00", "day", "2024-03-01T00:00:00"],
    ["2024-02-29T11:52:30", { smallestUnit: "minute", roundingIncrement: 15 }, "2024-02-29T12:00:00"],
    ["2024-02-29T11:59:59.999", { smallestUnit: "second", roundingMode: "trunc" }, "2024-02-29T11:59:59"],
    ["2016-12-31T23:59:60.25", "minute", "2017-01-01T00:00:00"], ["2016-12-31T23:59:60.75", { smallestUnit: "second", roundingMode: "floor" }, "2016-12-31T23:59:59"],
  ]) {
    assert.equal(`${PlainDateTime.from(text).round(options)}`, rounded);
  }
  for (const options of [{}, { smallestUnit: "fortnight" }, { smallestUnit: "hour", roundingIncrement: 5 }, { smallestUnit: "hour", roundingMode: "up" }, { largestUnit: "second", smallestUnit: "hour" }]) {
    refused(() => Duration.from("PT1H").round(options));
  }
  refused(() => Duration.from("P1M").round("day"));
  refused(() => Duration.from("P1W").total("day"));
  refused(() => PlainDateTime.from("+262142-12-31T23:59").round("hour"));
  refused(() => PlainDateTime.from("2024-02-29").round({ smallestUnit: "day", roundingIncrement: 2 }));
  assert.throws(() => Duration.from("PT1H").round(), TypeError);
});

test("short texts, and texts in the words of a language", () => {
  for (const [text, whole] of [
    ["20240229", "2024-02-29T00:00:00"], ["2024-02-29T12", "2024-02-29T12:00:00"], ["20240229T1230", "2024-02-29T12:30:00"],
    ["2024-02-29 12:30", "2024-02-29T12:30:00"], ["20240229t123045,5", "2024-02-29T12:30:45.5"], ["+0120240229T12", "+012024-02-29T12:00:00"],
  ]) {
    assert.equal(`${PlainDateTime.from(text)}`, whole);
    assert.equal(`${PlainDate.from(text)}`, whole.slice(0, whole.indexOf("T")));
  }
  for (const text of ["2024-0229", "202402-29", "2024-02-29T", "2024-02-29T1", "2024-02-29T12:3045", "2024-02-29T12.5", "-000000-01-01", "24-02-29"]) {
    refused(() => PlainDate.from(text));
    refused(() => PlainDateTime.from(text));
  }
  const [date, moment] = [new PlainDate(2024, 2, 29), PlainDateTime.from("2016-12-31T23:59:60.5")];
  assert.equal(date.toLocaleString("en-US"), "2/29/2024");
  assert.equal(date.toLocaleString("de-DE", { dateStyle: "long" }), "29. Februar 2024");
  assert.equal(date.toLocaleString("en-GB", { weekday: "long" }), "Thursday");
  assert.equal(moment.toLocaleString("de-DE"), "31.12.2016, 23:59:59");
  assert.equal(new PlainDate(-262_143, 1, 1).toLocaleString("en-US", { year: "numeric", era: "short" }), "262144 BC");
  assert.throws(() => date.toLocaleString("en-US", { timeStyle: "short" }), TypeError);
});

/** What an engine says of itself, and not of a value. */
const RAW = /is not a function|not iterable|Symbol\.iterator|cannot (read|destructure|mix|convert undefined|convert null|perform)|of undefined|is undefined|private/i;

/** Values that serve no call, or few. */
const JUNK = [undefined, null, 7, "x", {}, [], true, NaN, () => 1, new Date(0), new Uint8Array(2)];

/** Calls the function with each two values; what it throws has to say what is wanted. */
function refuseClearly(name, call) {
  for (const one of JUNK) {
    for (const other of JUNK) {
      try {
        call(one, other);
      } catch (error) {
        assert.ok(error instanceof RangeError || error instanceof TypeError, `${name}: ${error}`);
        assert.doesNotMatch(error.message, RAW, name);
      }
    }
  }
}

test("what is wrong is told in words", () => {
  const zone = new all.Zone("CET-1CEST,M3.5.0,M10.5.0/3", "Europe/Berlin");
  const date = new PlainDate(2024, 2, 29);
  const values = {
    date, moment: PlainDateTime.from(date), duration: Duration.from("PT1H"), instant: new all.Instant(0n), zone,
    zoned: all.ZonedDateTime.from("2024-02-29T12:00", { timeZone: zone }), schedule: new all.Schedule("@daily"), rule: new all.Rule("FREQ=DAILY;COUNT=3", date),
    set: new all.RuleSet({ dates: [date] }), calendar: new all.BusinessCalendar(), pattern: new all.Pattern("%F"),
  };
  for (const [name, it] of Object.entries(values)) {
    const members = Object.getOwnPropertyNames(Object.getPrototypeOf(it)).filter((member) => !/^constructor$|^toLocaleString$|^(next|previous)Due$/.test(member));
    for (const member of members.filter((it_member) => typeof Object.getOwnPropertyDescriptor(Object.getPrototypeOf(it), it_member).value === "function")) {
      refuseClearly(`${name}.${member}`, (...given) => it[member](...given));
    }
  }
  const kinds = Object.entries(all).filter(([, it]) => typeof it === "function" && /^[A-Z]/.test(it.name));
  for (const [name, kind] of kinds.filter(([it]) => it !== "TextError")) {
    refuseClearly(`new ${name}`, (...given) => new kind(...given));
    for (const member of Object.getOwnPropertyNames(kind).filter((it) => typeof kind[it] === "function")) {
      refuseClearly(`${name}.${member}`, (...given) => kind[member](...given));
    }
  }
  for (const [name, call] of [...Object.entries(all.columns), ["dayCount", all.dayCount], ["easter", all.easter], ["isLeapYear", all.isLeapYear]]) {
    if (typeof call === "function") {
      refuseClearly(name, call);
    }
  }
});
