/**
 * Compares the package with a browser's own Temporal, call by call, over drawn dates, times and durations of the years
 * that Temporal has. It stands as an expression whose value is how often they answered alike, and the first answers
 * that differ.
 *
 * Left out is what is otherwise on purpose: leap seconds, which Temporal has not, and forms of texts and differences
 * that the package does not offer.
 */
(async (seed, rounds) => {
  const own = await import("index");
  let state = seed;
  // (a generator of 31 bits, so that a run can be had again)
  const draw = (count) => {
    state = (state * 1_103_515_245 + 12_345) % 2 ** 31;
    return Math.floor((state / 2 ** 31) * count);
  };
  const among = (...items) => items[draw(items.length)];
  const year = () => among(1900 + draw(300), draw(540_000) - 270_000, draw(12_000) - 1_000, 4 * draw(600), 100 * draw(24));
  const date = () => ({ year: year(), month: among(1 + draw(12), 1 + draw(12), draw(15)), day: among(1 + draw(28), 28 + draw(5), draw(33)) });
  const time = () => ({
    hour: draw(24), minute: draw(60), second: draw(60), millisecond: among(0, draw(1_000)), microsecond: among(0, draw(1_000)),
    nanosecond: among(0, 0, draw(1_000)),
  });
  const UNITS = ["years", "months", "weeks", "days", "hours", "minutes", "seconds", "milliseconds", "microseconds", "nanoseconds"];
  const duration = (units) => {
    const sign = among(1, 1, -1);
    const fields = {};
    for (const unit of units) {
      if (draw(3) === 0) {
        fields[unit] = sign * among(draw(4), draw(70), draw(20_000));
      }
    }
    return Object.keys(fields).length ? fields : { [units[0]]: sign };
  };

  const answered = (call) => {
    try {
      const answer = call();
      return typeof answer === "object" ? `${answer}` : answer;
    } catch (refused) {
      return refused instanceof RangeError || refused instanceof TypeError ? refused.name : `${refused.stack}`;
    }
  };
  const FIELDS = [
    "year", "month", "monthCode", "day", "dayOfWeek", "dayOfYear", "weekOfYear", "yearOfWeek", "daysInMonth", "daysInYear", "inLeapYear",
    "daysInWeek", "monthsInYear", "calendarId",
  ];
  const overflow = () => among(undefined, {}, { overflow: "constrain" }, { overflow: "reject" });
  const exact = UNITS.slice(3);
  const texts = (text) => among(text, text, text.slice(0, draw(text.length + 1)), text.replace(/\d/, among("", "0", "x", "12")), `${text} `, `-${text}`);

  /** Calls whose answers have to be the same of both. */
  const calls = [
    (it, a) => it.PlainDate.from(a.date, a.overflow),
    (it, a) => new it.PlainDate(a.date.year, a.date.month, a.date.day),
    (it, a) => new it.PlainDate(a.date.year, a.date.month, a.date.day, a.calendar),
    (it, a) => new it.PlainDateTime(2024, 2, 29, 0, 0, 0, 0, 0, 0, a.calendar),
    (it, a) => it.PlainDate.from(a.date).toString(a.annotation),
    (it, a) => it.PlainDateTime.from({ ...a.date, ...a.time }).toString(a.annotation),
    (it, a) => it.PlainDate.from(a.date)[a.field],
    (it, a) => it.PlainDate.from(a.text),
    (it, a) => it.PlainDate.from(a.date).with({ [a.part]: a.number }, a.overflow),
    (it, a) => it.PlainDate.from(a.date).add(a.duration, a.overflow),
    (it, a) => it.PlainDate.from(a.date).subtract(a.duration, a.overflow),
    (it, a) => it.PlainDate.from(a.date).until(a.other, { largestUnit: a.unit }),
    (it, a) => it.PlainDate.from(a.date).since(a.other, { largestUnit: a.unit }),
    (it, a) => it.PlainDate.compare(a.date, a.other),
    (it, a) => it.PlainDate.from(a.date).equals(a.other),
    (it, a) => it.PlainDate.from(a.date).toPlainDateTime(),
    (it, a) => it.PlainDateTime.from({ ...a.date, ...a.time }, a.overflow),
    (it, a) => it.PlainDateTime.from({ ...a.date, ...a.time })[a.field],
    (it, a) => it.PlainDateTime.from({ ...a.date, ...a.time })[a.clock],
    (it, a) => it.PlainDateTime.from(`2024-02-29T${a.clockText}`),
    (it, a) => it.PlainDateTime.from({ ...a.date, ...a.time }).with({ [a.clock]: a.number }, a.overflow),
    (it, a) => it.PlainDateTime.from({ ...a.date, ...a.time }).add(a.duration, a.overflow),
    (it, a) => it.PlainDateTime.from({ ...a.date, ...a.time }).subtract(a.duration, a.overflow),
    (it, a) => it.PlainDateTime.from({ ...a.date, ...a.time }).until({ ...a.other, ...a.otherTime }, { largestUnit: a.exactUnit }),
    (it, a) => it.PlainDateTime.from({ ...a.date, ...a.time }).since({ ...a.other, ...a.otherTime }, { largestUnit: a.exactUnit }),
    (it, a) => it.PlainDateTime.compare({ ...a.date, ...a.time }, { ...a.date, ...a.otherTime }),
    (it, a) => it.Duration.from(a.duration),
    (it, a) => it.Duration.from(a.durationText),
    (it, a) => it.Duration.from(a.duration)[a.durationField],
    (it, a) => it.Duration.from(a.exact).add(a.otherExact),
    (it, a) => it.Duration.from(a.exact).subtract(a.otherExact),
    (it, a) => it.Duration.compare(a.exact, a.otherExact),
    (it, a) => it.Duration.from(a.duration).negated(),
    (it, a) => it.Duration.from(a.duration).abs(),
    (it, a) => it.Duration.from(a.exact).round(a.rounding),
    (it, a) => it.Duration.from(a.exact).total(a.rounding.smallestUnit),
    (it, a) => it.PlainDateTime.from({ ...a.date, ...a.time }).round(a.rounding),
    (it, a) => it.PlainDateTime.from(a.shortText),
    (it, a) => it.PlainDate.from(a.shortText),
    (it, a) => new it.Instant(a.epoch),
    (it, a) => it.Instant.from(a.instantText),
    (it, a) => it.Instant.from(a.instantText).epochMilliseconds,
    (it, a) => it.Instant.fromEpochMilliseconds(Number(a.epoch / 1_000_000n)),
    (it, a) => new it.Instant(a.epoch).add(a.exact),
    (it, a) => new it.Instant(a.epoch).subtract({ hours: a.number, nanoseconds: a.number }),
    (it, a) => new it.Instant(a.epoch).until(new it.Instant(a.otherEpoch), { largestUnit: a.clockUnit }),
    (it, a) => new it.Instant(a.epoch).since(new it.Instant(a.otherEpoch), { largestUnit: a.clockUnit }),
    (it, a) => new it.Instant(a.epoch).round(a.rounding),
    (it, a) => it.Instant.compare(new it.Instant(a.epoch), it.Instant.from(a.instantText)),
    (it, a) => it.PlainDate.from(a.date).toLocaleString(a.language),
    (it, a) => it.PlainDateTime.from({ ...a.date, ...a.time }).toLocaleString(a.language),
  ];
  const isBeyond = (fields) => fields.year < -271_820 || fields.year > 275_759 || fields.year < -262_143 || fields.year > 262_142;
  let alike = 0;
  const differ = [];
  for (let round = 0; round < rounds; round += 1) {
    const given = {
      date: date(), other: date(), time: time(), otherTime: time(), overflow: overflow(), field: among(...FIELDS),
      clock: among("hour", "minute", "second", "millisecond", "microsecond", "nanosecond"), part: among("year", "month", "day"),
      duration: duration(UNITS), calendar: among(undefined, "iso8601", "ISO8601", "nonsense", "", null, 8601),
      annotation: among(undefined, {}, null, ...["auto", "always", "never", "critical", "sometimes", undefined].map((it) => ({ calendarName: it }))),
      exact: duration(exact), otherExact: duration(exact), unit: among("day", "weeks", "month", "years", "auto"),
      exactUnit: among("auto", "day", "hours", "minute", "seconds", "millisecond"), durationField: among(...UNITS, "sign", "blank"),
    };
    given.rounding = { smallestUnit: among("day", "hours", "minute", "second", "milliseconds", "microsecond", "nanosecond") };
    given.rounding.roundingMode = among("ceil", "floor", "expand", "trunc", "halfCeil", "halfFloor", "halfExpand", "halfTrunc", "halfEven", undefined);
    given.rounding.roundingIncrement = among(1, 1, 2, 5, 12, 15, 20, 500);
    given.language = among("en-US", "de-DE", "fr-FR", "ja-JP", "sv-SE");
    const epoch = () => BigInt(among(draw(2 ** 31), draw(4_000_000) * 1_000_000 - 2_000_000_000_000)) * among(1n, 1_000n, 1_000_000n) + BigInt(draw(1_000));
    [given.epoch, given.otherEpoch, given.clockUnit] = [epoch(), epoch(), among("auto", "hour", "minutes", "second", "milliseconds", "nanosecond")];
    const offset = among("Z", "z", "+01:00", "-05:30", "+0545", "-08", "+23:59:59.5", "+24:00", "", "+1", "[Europe/Berlin]", "Z[Asia/Tokyo][u-ca=iso8601]");
    given.instantText = `${among("2024-02-29T12:30:15.25", "1969-12-31t23:59:59,999", "20240229T123015", "2016-12-31T23:59:60", "2024-02-29", "2024-02-29T12:60")}${offset}`;
    given.shortText = texts(among("20240229", "2024-02-29T12", "2024-02-29 12:30", "20240229T1230", "20240229t123059,25", "+0120240229T12", "-000000-01-01"));
    // (a leap second is a second of its own here, and 59 for Temporal)
    given.number = given.clock === "second" ? draw(60) : among(draw(13), draw(40), draw(1_100));
    const sampled = answered(() => Temporal.PlainDate.from(given.date));
    given.text = texts(`${sampled.includes("-") ? sampled : "2024-02-29"}${among("", "", "[u-ca=iso8601]", "[!u-ca=iso8601]", "[u-ca=nonsense]")}`);
    given.clockText = `${among("12:34:56", "00:00:00", "23:59:59", "24:00:00", "12:60:00")}${among("", ".5", ".123456789", ".000000001", ".250", ".")}`;
    given.durationText = texts(`${Temporal.Duration.from(given.duration)}`);
    if (isBeyond(given.date) || isBeyond(given.other)) {
      continue;
    }
    for (const [index, call] of calls.entries()) {
      const [ours, theirs] = [answered(() => call(own, given)), answered(() => call(Temporal, given))];
      // (where theirs ends before the ends of this calendar, or the other way round, one of both refuses)
      const isEnd = (ours === "RangeError") !== (theirs === "RangeError") && Math.abs(given.date.year) > 200_000;
      if (ours === theirs) {
        alike += 1;
      } else if (!isEnd && differ.length < 20) {
        differ.push(`${call}: ${JSON.stringify(given)}: here ${ours}, Temporal ${theirs}`);
      }
    }
  }
  return { alike, differ };
})
