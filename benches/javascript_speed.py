#!/usr/bin/env python3
"""Measures calls of the package for JavaScript beside Chromium's own Temporal, in one run: how many times as fast ours are.

    benches/javascript_speed.py [ROUNDS]        (21 rounds if left out)

Each call is made on the same drawn arguments by both, and the answers are compared first, as texts. Then they take turns: in each
round both make 2,000 calls, and the best round counts, by the time of the page's clock.
"""
import sys
import tempfile

sys.path[:0] = [__file__.rsplit("/", 2)[0] + it for it in ("", "/tools")]
from checks.shared import chromium  # noqa: E402
from packages import javascript  # noqa: E402

TOP = __file__.rsplit("/", 2)[0]

SCRIPT = """(async (rounds) => {
  const own = await import("index");
  let state = 7;
  const draw = (count) => {
    state = (state * 1_103_515_245 + 12_345) % 2 ** 31;
    return Math.floor((state / 2 ** 31) * count);
  };
  const drawn = Array.from({ length: 2_000 }, () => ({
    year: 1800 + draw(400), month: 1 + draw(12), day: 1 + draw(28), hour: draw(24), minute: draw(60), days: draw(100_000) - 50_000, months: draw(400),
  }));
  const of = (it) => drawn.map((a) => {
    const date = new it.PlainDate(a.year, a.month, a.day);
    const moment = new it.PlainDateTime(a.year, a.month, a.day, a.hour, a.minute);
    const later = date.add({ days: Math.abs(a.days) });
    return { ...a, date, moment, later, text: `${date}`, momentText: `${moment}`, laterMoment: moment.add({ hours: a.days }) };
  });
  const calls = {
    "new PlainDate": (it, a) => new it.PlainDate(a.year, a.month, a.day),
    "PlainDate.from": (it, a) => it.PlainDate.from(a.text),
    "PlainDate.compare": (it, a) => it.PlainDate.compare(a.date, a.later),
    "date.dayOfWeek": (it, a) => a.date.dayOfWeek,
    "date.toString": (it, a) => a.date.toString(),
    "date.add days": (it, a) => a.date.add({ days: a.days }),
    "date.add months": (it, a) => a.date.add({ months: a.months }),
    "date.until": (it, a) => a.date.until(a.later),
    "date.until months": (it, a) => a.date.until(a.later, { largestUnit: "month" }),
    "PlainDateTime.from": (it, a) => it.PlainDateTime.from(a.momentText),
    "moment.toString": (it, a) => a.moment.toString(),
    "moment.add": (it, a) => a.moment.add({ hours: a.days, minutes: a.days }),
    "moment.until": (it, a) => a.moment.until(a.laterMoment),
    "moment.round": (it, a) => a.moment.round("hour"),
    "new Duration": (it, a) => new it.Duration(0, a.months, 0, a.day, a.hour, a.minute),
  };
  const sides = [[own, of(own)], [Temporal, of(Temporal)]];
  const rows = [];
  for (const [name, call] of Object.entries(calls)) {
    const [ours, theirs] = sides.map(([it, args]) => args.map((a) => `${call(it, a)}`).join());
    const best = [Infinity, Infinity];
    for (let round = 0; round < rounds; round += 1) {
      for (const [side, [it, args]] of sides.entries()) {
        const began = performance.now();
        for (const a of args) {
          call(it, a);
        }
        best[side] = Math.min(best[side], (performance.now() - began) / args.length);
      }
    }
    rows.push([name, ours === theirs, ...best.map((it) => 1e6 * it)]);
  }
  return rows;
})"""


def main():
    rounds = int(sys.argv[1]) if sys.argv[1:] else 21
    with tempfile.TemporaryDirectory(prefix="javascript-") as room, chromium.Chromium() as page:
        page.open(javascript.make(TOP, None, room)[1])
        rows = page.run(f"{SCRIPT}({rounds})")
        told = page.run("navigator.userAgent.match(/Chrome\\/[0-9]+/)[0]")
    print(f"{'':18} {'ns':>8} {'Temporal':>9} {'ratio':>6}    ({told})")
    for name, is_same, ours, theirs in rows:
        print(f"{name:18} {ours:8,.0f} {theirs:9,.0f} {theirs / ours:6.1f}{'' if is_same else '    the answers differ'}")
    return 0 if all(it[1] for it in rows) else 1


if __name__ == "__main__":
    sys.exit(main())
