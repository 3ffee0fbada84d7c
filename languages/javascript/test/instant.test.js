/** Instants, with answers that are known from outside. */

import { strict as assert } from "node:assert";
import { inspect } from "node:util";
import { test } from "node:test";

import { Instant } from "proved-calendar";

const refused = (call) => assert.throws(call, RangeError);

test("texts of instants", () => {
  for (const [text, nanoseconds, written] of [
    ["1970-01-01T00:00Z", 0n, "1970-01-01T00:00:00Z"],
    ["2024-02-29T12:00:00.5+01:00", 1_709_204_400_500_000_000n, "2024-02-29T11:00:00.5Z"],
    ["2024-02-29T12:00-05:30[America/New_York]", 1_709_227_800_000_000_000n, "2024-02-29T17:30:00Z"],
    ["20240229t12-0530", 1_709_227_800_000_000_000n, "2024-02-29T17:30:00Z"],
    ["1969-12-31T23:59:59.999999999z", -1n, "1969-12-31T23:59:59.999999999Z"],
    ["2016-12-31T23:59:60.25Z", 1_483_228_799_250_000_000n, "2016-12-31T23:59:59.25Z"],
    ["20161231T235960Z", 1_483_228_799_000_000_000n, "2016-12-31T23:59:59Z"],
    ["1970-01-01 00:00:00+00:00:01.5", -1_500_000_000n, "1969-12-31T23:59:58.5Z"],
    ["-262143-01-01T00:00Z", -8_334_601_228_800_000_000_000n, "-262143-01-01T00:00:00Z"],
    ["+262142-12-31T23:59:59.999999999Z", 8_210_266_876_799_999_999_999n, "+262142-12-31T23:59:59.999999999Z"],
  ]) {
    const instant = Instant.from(text);
    assert.deepEqual([instant.epochNanoseconds, `${instant}`, JSON.stringify(instant)], [nanoseconds, written, `"${written}"`]);
    assert.equal(`${Instant.from(instant)} ${inspect(instant)}`, `${written} Instant ${written}`);
  }
  for (const text of ["", "2024-02-29", "2024-02-29Z", "2024-02-29T12:00", "2024-02-30T12:00Z", "2024-02-29T12:60Z", "2024-02-29T12:00+24:00",
    "2024-02-29T12:00+01:60", "2024-02-29T12:00+1", "-262143-01-01T00:00+00:01"]) {
    refused(() => Instant.from(text));
  }
  for (const item of [undefined, null, 7, 7n, {}]) {
    assert.throws(() => Instant.from(item), TypeError);
  }
  assert.equal(`${Instant.from("2024-02-29T12:00Z[!UTC][u-ca=hebrew][foo=bar]")}`, "2024-02-29T12:00:00Z");
  for (const brackets of ["[!foo=bar]", "[UTC][UTC]", "[foo=bar][UTC]"]) {
    refused(() => Instant.from(`2024-02-29T12:00Z${brackets}`));
  }
  // (such a text is refused at once)
  refused(() => Instant.from(`${"[".repeat(1e6)}Z`));
});

test("milliseconds and nanoseconds", () => {
  assert.deepEqual([-1n, 0n, 1_999_999n, -1_000_001n].map((it) => new Instant(it).epochMilliseconds), [-1, 0, 1, -2]);
  assert.equal(Instant.fromEpochMilliseconds(-1).epochNanoseconds, -1_000_000n);
  assert.equal(Instant.fromEpochNanoseconds(7n).epochNanoseconds, 7n);
  for (const number of [0.5, NaN, Infinity, 1e300]) {
    refused(() => Instant.fromEpochMilliseconds(number));
  }
  refused(() => new Instant(8_210_266_876_800_000_000_000n));
  refused(() => new Instant(-8_334_601_228_800_000_000_001n));
  assert.throws(() => new Instant(7), TypeError);
});

test("moves and distances of instants", () => {
  const [one, other] = [Instant.from("2024-02-29T12:00Z"), Instant.from("2024-03-01T13:01:01.5Z")];
  assert.equal(`${one.add({ hours: 25, minutes: 1, seconds: 1, milliseconds: 500 })}`, `${other}`);
  assert.equal(`${other.subtract("PT25H1M1.5S")}`, `${one}`);
  assert.deepEqual([`${one.until(other)}`, `${one.since(other)}`], ["PT90061.5S", "-PT90061.5S"]);
  assert.equal(`${one.until(other, { largestUnit: "hours" })}`, "PT25H1M1.5S");
  assert.deepEqual([Instant.compare(one, other), Instant.compare(other, one), one.equals(`${one}`)], [-1, 1, true]);
  for (const fields of [{ days: 1 }, { weeks: 1 }, { months: 1 }, { hours: 5e9 }]) {
    refused(() => one.add(fields));
  }
  refused(() => one.until(other, { largestUnit: "day" }));
  assert.throws(() => one < other, TypeError);
});

test("rounding of instants", () => {
  for (const [text, options, wanted] of [
    ["2024-02-29T12:30Z", "hour", "2024-02-29T13:00:00Z"], ["1969-12-31T12:30Z", "hour", "1969-12-31T13:00:00Z"],
    ["1969-12-31T12:30Z", { smallestUnit: "hour", roundingMode: "halfTrunc" }, "1969-12-31T12:00:00Z"],
    ["1969-12-31T12:59Z", { smallestUnit: "hour", roundingMode: "trunc" }, "1969-12-31T12:00:00Z"],
    ["1969-12-31T12:00:01Z", { smallestUnit: "hour", roundingMode: "expand" }, "1969-12-31T13:00:00Z"],
    ["1969-12-31T13:30Z", { smallestUnit: "hour", roundingMode: "halfEven" }, "1969-12-31T14:00:00Z"],
    ["1969-12-31T12:30Z", { smallestUnit: "hour", roundingMode: "halfEven" }, "1969-12-31T12:00:00Z"],
    ["2024-02-29T12:30Z", { smallestUnit: "hour", roundingIncrement: 24 }, "2024-03-01T00:00:00Z"],
    ["2024-02-29T12:30:29.5Z", { smallestUnit: "second", roundingIncrement: 30 }, "2024-02-29T12:30:30Z"],
  ]) {
    assert.equal(`${Instant.from(text).round(options)}`, wanted);
  }
  for (const options of ["day", {}, { smallestUnit: "hour", roundingIncrement: 7 }, { smallestUnit: "hour", roundingIncrement: 0 },
    { smallestUnit: "hour", roundingIncrement: 48 }]) {
    refused(() => new Instant(0n).round(options));
  }
});

test("instants in words", () => {
  assert.equal(Instant.from("2024-02-29T12:00Z").toLocaleString("en-US", { timeZone: "Asia/Tokyo", dateStyle: "long" }), "February 29, 2024");
});
