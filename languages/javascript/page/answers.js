/** The answers of caltool, line by line, by the calls of the package. */

import { Duration, PlainDate, PlainDateTime } from "../src/index.js";
import { textOfDate, textOfDateTime } from "../src/library.js";

export const WEEKDAYS = ["Mon", "Tue", "Wed", "Thu", "Fri", "Sat", "Sun"];

/** A line has at most so many bytes. */
const LONGEST_LINE = 120;

/** The day number of 1 January 1970. */
const EPOCH_DAY = 719_163;

/** The nanoseconds of a second. */
const SECOND = 1_000_000_000n;

/** The least and the greatest number of a type. */
const [I32, U32] = [
  [-(2n ** 31n), 2n ** 31n - 1n],
  [0n, 2n ** 32n - 1n],
];
const [I64, U8, WEEKDAY] = [
  [-(2n ** 63n), 2n ** 63n - 1n],
  [0n, 255n],
  [1n, 7n],
];
const MONTHS = [1n - 2n ** 32n, 2n ** 32n - 1n];
const DATE = [I32, U32, U32];
const MOMENT = [...DATE, U32, U32, U32, U32];

/** A number of which only matters whether it leads beyond the calendar, as one that a duration can have. */
const clippedNumber = (number, most) => (number > most ? most : number < -most ? -most : number);

/** The year as caltool writes it: with a sign below 0 and above 9999. */
export const yearText = (year) =>
  `${year < 0 ? "-" : year > 9999 ? "+" : ""}${`${Math.abs(year)}`.padStart(4, "0")}`;

/** The names of an ISO week and of a day of the year. */
export const weekText = (date) => `${yearText(date.yearOfWeek)}-W${`${date.weekOfYear}`.padStart(2, "0")}`;
export const dateText = (date) => textOfDate(date.dayNumber);

/** What a call answers, or none where it throws a RangeError. */
function orNone(call) {
  try {
    return call();
  } catch (refused) {
    if (refused instanceof RangeError) {
      return "none";
    }
    throw refused;
  }
}

const lineOf = (date) =>
  `${dateText(date)} ${date.dayNumber} ${WEEKDAYS[date.dayOfWeek - 1]} ${weekText(date)} ${date.dayOfYear}`;

const dateOf = ([year, month, day]) => new PlainDate(year, month, day);

function momentOf([year, month, day, hour, minute, second, nanos]) {
  if (hour > 23 || minute > 59 || second > 59) {
    throw new RangeError("no time of day");
  }
  const days = new PlainDate(year, month, day).dayNumber - EPOCH_DAY;
  return PlainDateTime.fromUnix(86_400 * days + 3_600 * hour + 60 * minute + second, nanos);
}

/** The text of a length of time, as caltool writes it. */
function durationText(duration) {
  return duration.blank ? "P0D" : `${Duration.fromNanoseconds(duration.totalNanoseconds, "second")}`;
}

function moveOf(numbers, [seconds, nanos]) {
  const start = momentOf(numbers);
  if (nanos >= SECOND) {
    throw new RangeError("a second has fewer nanoseconds");
  }
  const length = clippedNumber(seconds, 10n ** 15n) * SECOND + nanos;
  const end = start.add(Duration.fromNanoseconds(length, "second"));
  return textOfDateTime({ seconds: end.unixSeconds, nanos: end.unixNanoseconds });
}

function weekOf(date, start) {
  const passed = (date.dayOfWeek - start + 7) % 7;
  const first = orNone(() => dateText(date.firstOfWeek(start)));
  return `${first} ${orNone(() => dateText(date.add({ days: 6 - passed })))}`;
}

function setOf(start, days) {
  const members = [1, 2, 3, 4, 5, 6, 7].filter((it) => days.includes(it));
  const walk = [...members.filter((it) => it >= start), ...members.filter((it) => it < start)];
  const names = (weekdays) => weekdays.map((it) => WEEKDAYS[it - 1]);
  return [`[${names(members).join(", ")}]`, ...names(walk)].join(" ");
}

/**
 * Of each command: the types of its numbers, of which the last may come any number of times (`many`), and its answer.
 */
const COMMANDS = {
  ymd: { types: DATE, answer: (it) => lineOf(dateOf(it)) },
  yo: { types: [I32, U32], answer: (it) => lineOf(PlainDate.fromDayOfYear(...it)) },
  iwd: { types: [I32, U32, WEEKDAY], answer: (it) => lineOf(PlainDate.fromWeek(...it)) },
  day: { types: [I32], answer: ([it]) => lineOf(PlainDate.fromDayNumber(it)) },
  wom: { types: [I32, U32, WEEKDAY, U8], answer: (it) => lineOf(PlainDate.fromWeekdayOfMonth(...it)) },
  days: {
    types: [...DATE, I64],
    answer: (it, exact) => lineOf(dateOf(it).add({ days: Number(clippedNumber(exact[3], 10n ** 9n)) })),
  },
  months: { types: [...DATE, MONTHS], answer: (it) => lineOf(dateOf(it).add({ months: it[3] })) },
  week: { types: [...DATE, WEEKDAY], answer: (it) => weekOf(dateOf(it), it[3]) },
  move: { types: [...MOMENT, I64, U32], answer: (it, exact) => moveOf(it, exact.slice(7)) },
  diff: { types: [...MOMENT, ...MOMENT], answer: (it) => durationText(momentOf(it).since(momentOf(it.slice(7)))) },
  since: { types: [...DATE, ...DATE], answer: (it) => `${dateOf(it).yearsSince(dateOf(it.slice(3)))}` },
  set: { types: [WEEKDAY, WEEKDAY], many: true, answer: ([start, ...days]) => setOf(start, days) },
  on: { types: [...DATE, WEEKDAY], many: true, answer: (it) => lineOf(dateOf(it).firstOn(...it.slice(3))) },
  every: { types: [...DATE, I32, U32], answer: (it) => lineOf(dateOf(it).everyMonths(it[3], it[4])) },
};

/** What caltool answers to a line. */
export function answerOf(line) {
  const [name, ...words] = line.split(" ");
  const isLine = new TextEncoder().encode(line).length <= LONGEST_LINE && Object.hasOwn(COMMANDS, name);
  if (!isLine || !words.every((it) => /^-?[0-9]+$/.test(it))) {
    return "error";
  }
  const { types, many, answer } = COMMANDS[name];
  const listed = many ? [...types.slice(0, -1), ...Array(Math.max(words.length - types.length + 1, 0)).fill(types.at(-1))] : types;
  const numbers = words.map((it) => BigInt(it.replace("-", "")) * (it.startsWith("-") ? -1n : 1n));
  const isTyped = (it, index) => listed[index][0] <= it && it <= listed[index][1];
  if (numbers.length !== listed.length || !numbers.every(isTyped)) {
    return "error";
  }
  return orNone(() => answer(numbers.map(Number), numbers));
}
