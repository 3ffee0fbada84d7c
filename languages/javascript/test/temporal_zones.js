/**
 * Compares date-times in zones with those of a browser's own Temporal, call by call, over drawn local times and instants of the years
 * 1900 to 2100, half of them near a change. It stands as an expression whose value is how often they answered alike, and the first
 * answers that differ. Of each zone it is given the bytes of the file, in base64.
 */
(async (seed, rounds, files) => {
  const own = await import("index");
  const zones = Object.entries(files).map(([name, text]) => new own.Zone(Uint8Array.from(atob(text), (it) => it.charCodeAt(0)), name));
  let state = seed;
  // (a generator of 31 bits, so that a run can be had again)
  const draw = (count) => {
    state = (state * 1_103_515_245 + 12_345) % 2 ** 31;
    return Math.floor((state / 2 ** 31) * count);
  };
  const among = (...items) => items[draw(items.length)];
  const answered = (call) => {
    try {
      return `${call()}`;
    } catch (wrong) {
      return wrong.name === "TextError" ? "RangeError" : wrong.name;
    }
  };
  /** A date-time of a local time, or of an instant, by each side. */
  const ofLocal = (a, options) => [
    () => own.ZonedDateTime.from(a.local, { timeZone: a.zone, ...options }),
    () => Temporal.PlainDateTime.from(a.local).toZonedDateTime(a.zone.name, options),
  ];
  const ofInstant = (nanoseconds, a) => [
    () => new own.ZonedDateTime(nanoseconds, a.zone), () => new Temporal.ZonedDateTime(nanoseconds, a.zone.name),
  ];
  const both = ([ours, theirs], call) => [() => call(ours()), () => call(theirs())];
  const calls = {
    from: (a) => ofLocal(a, a.choice),
    instant: (a) => ofInstant(a.epoch, a),
    offset: (a) => [
      () => own.ZonedDateTime.from(`${a.local}${a.offset}`, { timeZone: a.zone, ...a.choice, offset: a.use }),
      () => Temporal.ZonedDateTime.from(`${a.local}${a.offset}[${a.zone.name}]`, { ...a.choice, offset: a.use }),
    ],
    add: (a) => both(ofInstant(a.epoch, a), (it) => it.add(a.duration)),
    subtract: (a) => both(ofInstant(a.epoch, a), (it) => it.subtract(a.duration)),
    until: (a) => [
      () => ofInstant(a.epoch, a)[0]().until(ofInstant(a.other, a)[0](), { largestUnit: a.unit }),
      () => ofInstant(a.epoch, a)[1]().until(ofInstant(a.other, a)[1](), { largestUnit: a.unit }),
    ],
    round: (a) => both(ofInstant(a.epoch, a), (it) => it.round(a.rounding)),
    startOfDay: (a) => both(ofInstant(a.epoch, a), (it) => it.startOfDay()),
    hoursInDay: (a) => both(ofInstant(a.epoch, a), (it) => it.hoursInDay),
    with: (a) => both(ofInstant(a.epoch, a), (it) => it.with({ [a.field]: a.number })),
    fields: (a) => both(ofInstant(a.epoch, a), (it) => [it.year, it.dayOfWeek, it.hour, it.nanosecond, it.offset, it.offsetNanoseconds, it.timeZoneId]),
    plain: (a) => both(ofInstant(a.epoch, a), (it) => [it.toInstant(), it.toPlainDateTime(), it.toPlainDate(), it.epochMilliseconds]),
    next: (a) => both(ofInstant(a.epoch, a), (it) => it.getTimeZoneTransition("next")),
  };
  let alike = 0;
  const differ = [];
  for (let round = 0; round < rounds; round += 1) {
    const zone = among(...zones);
    const second = BigInt(draw(2 ** 31) - 2 ** 30) * 2n + BigInt(draw(2));
    const change = zone.nextChange(second);
    const near = change !== undefined && draw(2) && change < 4_000_000_000n ? change + BigInt(draw(20_000) - 10_000) : second;
    const local = own.PlainDateTime.fromUnix(Number(near) + among(0, zone.offsetAt(near)), among(0, draw(1e9)));
    const given = {
      zone, local: `${local}`, epoch: near * 1_000_000_000n + BigInt(among(0, draw(1e9))),
      other: (near + BigInt(draw(40_000_000) - 20_000_000)) * 1_000_000_000n,
      choice: { disambiguation: among("compatible", "earlier", "later", "reject", undefined, "first") },
      use: among("reject", "use", "ignore", "prefer", undefined), offset: among("+01:00", "+02:00", "-05:00", "-04:00", "+10:30", "+11:00", "Z"),
      duration: { [among("years", "months", "weeks", "days")]: draw(30) - 0, [among("hours", "minutes", "nanoseconds")]: draw(100) },
      rounding: {
        smallestUnit: among("day", "hours", "minute", "second", "nanosecond", "week"), roundingIncrement: among(1, 1, 2, 12, 15, 20),
        roundingMode: among("ceil", "floor", "expand", "trunc", "halfCeil", "halfFloor", "halfExpand", "halfTrunc", "halfEven", undefined),
      },
      unit: among("auto", "hours", "minute", "second", "nanoseconds"), field: among("hour", "minute", "day", "month"), number: draw(26),
    };
    for (const [name, call] of Object.entries(calls)) {
      const [ours, theirs] = call(given).map(answered);
      if (ours === theirs) {
        alike += 1;
      } else if (differ.length < 20) {
        const shown = JSON.stringify({ ...given, epoch: `${given.epoch}`, other: `${given.other}` });
        differ.push(`${name} of ${shown}: here ${ours}, Temporal ${theirs}`);
      }
    }
  }
  return { alike, differ };
})
