#!/usr/bin/env python3
"""Measures columns in JavaScript beside the calls for one date, by node, in one run.

    benches/javascript_columns.py [COUNT] [ROUNDS]        (200,000 dates and nine rounds if left out)

It needs node and what the package for JavaScript needs. What a column has is first compared with what the calls for each date give. Both
take turns in each round, and the best one counts, by processor time. A row has the nanoseconds a date of a column, and how many times as long the calls
for one date take. These make the same arrays, of dates and texts that are there already.
"""
import subprocess
import sys
import tempfile

TOP = __file__.rsplit("/", 2)[0]
sys.path[:0] = [TOP, f"{TOP}/tools"]
from packages import javascript  # noqa: E402

SCRIPT = """
import { strict as assert } from "node:assert";
import { BusinessCalendar, columns, PlainDate } from "./proved-calendar/src/index.js";

const [count, rounds] = process.argv.slice(2).map(Number);
let state = 7;
const draw = (most) => {
  state = (state * 1_103_515_245 + 12_345) % 2 ** 31;
  return Math.floor((state / 2 ** 31) * most);
};
const column = Int32Array.from({ length: count }, () => 657_073 + draw(146_097));
const dates = Array.from(column, (it) => PlainDate.fromDayNumber(it));
const texts = dates.map(String);
const calendar = new BusinessCalendar({ holidays: Array.from({ length: 500 }, (_, index) => PlainDate.fromDayNumber(700_000 + 101 * index)) });
const numbers = (call) => Int32Array.from(dates, call);
const calls = {
  "years": [() => columns.years(column), () => numbers((it) => it.year)],
  "fields": [() => columns.fields(column).days, () => {
    const days = new Uint8Array(count);
    const [years, months] = [new Int32Array(count), new Uint8Array(count)];
    for (const [index, it] of dates.entries()) {
      years[index] = it.year;
      months[index] = it.month;
      days[index] = it.day;
    }
    return days;
  }],
  "daysOfWeek": [() => columns.daysOfWeek(column), () => Uint8Array.from(dates, (it) => it.dayOfWeek)],
  "addMonths": [() => columns.addMonths(column, 13), () => numbers((it) => it.add({ months: 13 }).dayNumber)],
  "addDays": [() => columns.addDays(column, 13), () => numbers((it) => it.add({ days: 13 }).dayNumber)],
  "texts": [() => columns.texts(column), () => dates.map(String)],
  "fromTexts": [() => columns.fromTexts(texts), () => Int32Array.from(texts, (it) => PlainDate.from(it).dayNumber)],
  "addOpenDays": [() => columns.addOpenDays(column, 20, calendar), () => numbers((it) => calendar.add(it, 20).dayNumber)],
};
for (const [name, both] of Object.entries(calls)) {
  assert.deepEqual(both[0](), both[1]());
  const best = [Infinity, Infinity];
  for (let round = 0; round < rounds; round += 1) {
    for (const [side, call] of both.entries()) {
      const began = process.cpuUsage();
      call();
      const { user, system } = process.cpuUsage(began);
      best[side] = Math.min(best[side], user + system);
    }
  }
  console.log(`| \\`${name}\\` | ${((best[0] * 1_000) / count).toFixed(1)} | ${(best[1] / best[0]).toFixed(1)} |`);
}
"""


def main():
    count, rounds = (*sys.argv[1:], *("200000", "9")[len(sys.argv) - 1:])
    with tempfile.TemporaryDirectory(prefix="javascript-columns-") as room:
        package = javascript.make_package(TOP, f"{TOP}/languages/javascript", javascript.modules(TOP), f"{room}/proved-calendar")
        assert package
        with open(f"{room}/measure.mjs", "w", encoding="utf-8") as it:
            it.write(SCRIPT)
        print("| Call | A date, ns | Ratio, one by one |\n|---|---|---|", flush=True)
        return subprocess.run(["node", "measure.mjs", count, rounds], cwd=room).returncode


if __name__ == "__main__":
    sys.exit(main())
