/** A unit of differences, in the singular or the plural. */
type Unit<Name extends string> = Name | `${Name}s`;

/** What becomes of a month or a day that lies too high: it is clipped, or refused by a RangeError. */
export interface OverflowOptions {
  overflow?: "constrain" | "reject";
}

/** The largest unit of a difference. */
export interface DifferenceOptions<Name extends string> {
  largestUnit?: "auto" | Unit<Name>;
}

/** Units of which a duration is made: whole numbers, none below 0 if another is above. */
export interface DurationFields {
  years?: number;
  months?: number;
  weeks?: number;
  days?: number;
  hours?: number;
  minutes?: number;
  seconds?: number;
  milliseconds?: number;
  microseconds?: number;
  nanoseconds?: number;
}

/** The calendar name of a date (ISO 8601). */
export interface DateFields {
  year: number;
  month: number;
  /** From `M01` to `M12`: that of the month. */
  monthCode?: string;
  day: number;
  calendar?: "iso8601";
}

/** The calendar name of a date, its month by its code. */
export interface CodedDateFields extends Omit<DateFields, "month" | "monthCode"> {
  month?: number;
  monthCode: string;
}

/** What a clock shows; the second 60 is a leap second. */
export interface TimeFields {
  hour?: number;
  minute?: number;
  second?: number;
  millisecond?: number;
  microsecond?: number;
  nanosecond?: number;
}

export type DurationLike = Duration | DurationFields | string;
export type DateLike = PlainDate | PlainDateTime | DateFields | CodedDateFields | string;
export type DateTimeLike = PlainDateTime | PlainDate | ((DateFields | CodedDateFields) & TimeFields) | string;

/** How a number between two multiples is rounded. */
export type RoundingMode = "ceil" | "floor" | "expand" | "trunc" | "halfCeil" | "halfFloor" | "halfExpand" | "halfTrunc" | "halfEven";

/** To which multiple of which unit is rounded. */
export interface RoundingOptions {
  smallestUnit?: Unit<ExactUnit>;
  roundingIncrement?: number;
  roundingMode?: RoundingMode;
}

type ExactUnit = "day" | "hour" | "minute" | "second" | "millisecond" | "microsecond" | "nanosecond";

/** A length of time: years, months and weeks, which a calendar measures, and days of 24 hours and shorter units. */
export class Duration {
  constructor(
    years?: number,
    months?: number,
    weeks?: number,
    days?: number,
    hours?: number,
    minutes?: number,
    seconds?: number,
    milliseconds?: number,
    microseconds?: number,
    nanoseconds?: number,
  );
  static from(item: DurationLike): Duration;
  static fromNanoseconds(nanoseconds: bigint | number, largestUnit?: ExactUnit): Duration;
  static compare(one: DurationLike, other: DurationLike): -1 | 0 | 1;
  readonly years: number;
  readonly months: number;
  readonly weeks: number;
  readonly days: number;
  readonly hours: number;
  readonly minutes: number;
  readonly seconds: number;
  readonly milliseconds: number;
  readonly microseconds: number;
  readonly nanoseconds: number;
  readonly sign: -1 | 0 | 1;
  readonly blank: boolean;
  /** The months of years and months. */
  readonly totalMonths: number;
  /** The nanoseconds of days and shorter units. */
  readonly exactNanoseconds: bigint;
  /** The nanoseconds of all fields; RangeError if there are years, months or weeks. */
  readonly totalNanoseconds: bigint;
  negated(): Duration;
  abs(): Duration;
  add(other: DurationLike): Duration;
  subtract(other: DurationLike): Duration;
  round(options: Unit<ExactUnit> | (RoundingOptions & DifferenceOptions<ExactUnit>)): Duration;
  total(options: Unit<ExactUnit> | { unit: Unit<ExactUnit> }): number;
  toString(): string;
  toLocaleString(locales?: string | string[], options?: object): string;
  toJSON(): string;
  valueOf(): never;
  readonly [Symbol.toStringTag]: "Duration";
}

/** What a text says of the calendar: "always" writes `[u-ca=iso8601]` behind it, "critical" `[!u-ca=iso8601]`. */
export interface TextOptions {
  calendarName?: "auto" | "always" | "never" | "critical";
}

/** What is asked of a date. */
interface Named {
  readonly calendarId: "iso8601";
  readonly year: number;
  /** From 1 for January to 12. */
  readonly month: number;
  /** From `M01` to `M12`. */
  readonly monthCode: string;
  /** The day of the month, from 1. */
  readonly day: number;
  /** The weekday, from 1 for Monday to 7. */
  readonly dayOfWeek: number;
  /** The day of the year, from 1 to 366. */
  readonly dayOfYear: number;
  /** The ISO week, from 1 to 53. */
  readonly weekOfYear: number;
  /** The year of the ISO week: that of its Thursday. */
  readonly yearOfWeek: number;
  readonly daysInWeek: 7;
  readonly daysInMonth: number;
  readonly daysInYear: number;
  readonly monthsInYear: 12;
  readonly inLeapYear: boolean;
}

/** A date of the proleptic Gregorian calendar, from 1 January of year -262143 to 31 December of year 262142. */
export class PlainDate implements Named {
  constructor(isoYear: number, isoMonth: number, isoDay: number, calendar?: "iso8601");
  static from(item: DateLike, options?: OverflowOptions): PlainDate;
  /** The date of a day number, in which 1 January of year 1 is 1. */
  static fromDayNumber(number: number): PlainDate;
  /** The date of a year and a day of it from 1 to 366 (ISO 8601 ordinal date). */
  static fromDayOfYear(year: number, dayOfYear: number): PlainDate;
  /** The date of an ISO year, a week of it and a weekday from 1 for Monday to 7 (ISO 8601 week date). */
  static fromWeek(yearOfWeek: number, weekOfYear: number, dayOfWeek: number): PlainDate;
  /** The n-th day of a month with a weekday, counted from 1. */
  static fromWeekdayOfMonth(year: number, month: number, dayOfWeek: number, n: number): PlainDate;
  static compare(one: DateLike, other: DateLike): -1 | 0 | 1;
  readonly calendarId: "iso8601";
  /** The day number, in which 1 January of year 1 is 1. */
  readonly dayNumber: number;
  readonly year: number;
  readonly month: number;
  readonly monthCode: string;
  readonly day: number;
  readonly dayOfWeek: number;
  readonly dayOfYear: number;
  readonly weekOfYear: number;
  readonly yearOfWeek: number;
  readonly daysInWeek: 7;
  readonly daysInMonth: number;
  readonly daysInYear: number;
  readonly monthsInYear: 12;
  readonly inLeapYear: boolean;
  with(parts: Partial<Omit<DateFields, "calendar">>, options?: OverflowOptions): PlainDate;
  add(duration: DurationLike, options?: OverflowOptions): PlainDate;
  subtract(duration: DurationLike, options?: OverflowOptions): PlainDate;
  until(other: DateLike, options?: DifferenceOptions<"year" | "month" | "week" | "day">): Duration;
  since(other: DateLike, options?: DifferenceOptions<"year" | "month" | "week" | "day">): Duration;
  /** The date `index` times so many months later in one move, so that a 31st comes back after a shorter month. */
  everyMonths(months: number, index: number): PlainDate;
  /** The whole years since an earlier date. From 29 February they are whole on 1 March. */
  yearsSince(base: DateLike): number;
  /** The first day of this date's week, where weeks begin on a weekday from 1 for Monday to 7. */
  firstOfWeek(start?: number): PlainDate;
  /** The first date from this one on, itself counted, that falls on one of the weekdays. */
  firstOn(...daysOfWeek: number[]): PlainDate;
  equals(other: DateLike): boolean;
  toPlainDateTime(time?: TimeFields): PlainDateTime;
  toString(options?: TextOptions): string;
  toLocaleString(locales?: string | string[], options?: Intl.DateTimeFormatOptions): string;
  toJSON(): string;
  valueOf(): never;
  readonly [Symbol.toStringTag]: "PlainDate";
}

/** A date with a time of day, to the nanosecond, in no time zone; the time may lie in a leap second. */
export class PlainDateTime implements Named {
  constructor(
    isoYear: number,
    isoMonth: number,
    isoDay: number,
    hour?: number,
    minute?: number,
    second?: number,
    millisecond?: number,
    microsecond?: number,
    nanosecond?: number,
    calendar?: "iso8601",
  );
  static from(item: DateTimeLike, options?: OverflowOptions): PlainDateTime;
  /**
   * The date-time with these seconds since 1970, and nanoseconds past them; 1,000,000,000 and more lie in the leap
   * second that follows.
   */
  static fromUnix(seconds: number, nanoseconds?: number): PlainDateTime;
  static compare(one: DateTimeLike, other: DateTimeLike): -1 | 0 | 1;
  readonly calendarId: "iso8601";
  readonly year: number;
  readonly month: number;
  readonly monthCode: string;
  readonly day: number;
  readonly hour: number;
  readonly minute: number;
  /** From 0 to 59; 60 in a leap second. */
  readonly second: number;
  readonly millisecond: number;
  readonly microsecond: number;
  readonly nanosecond: number;
  readonly dayOfWeek: number;
  readonly dayOfYear: number;
  readonly weekOfYear: number;
  readonly yearOfWeek: number;
  readonly daysInWeek: 7;
  readonly daysInMonth: number;
  readonly daysInYear: number;
  readonly monthsInYear: 12;
  readonly inLeapYear: boolean;
  /** The seconds since 1970-01-01T00:00:00, leap seconds not counted. */
  readonly unixSeconds: number;
  /** The nanoseconds past them; 1,000,000,000 and more lie in the leap second that follows. */
  readonly unixNanoseconds: number;
  with(parts: Partial<Omit<DateFields, "calendar"> & TimeFields>, options?: OverflowOptions): PlainDateTime;
  add(duration: DurationLike, options?: OverflowOptions): PlainDateTime;
  subtract(duration: DurationLike, options?: OverflowOptions): PlainDateTime;
  until(other: DateTimeLike, options?: DifferenceOptions<ExactUnit>): Duration;
  since(other: DateTimeLike, options?: DifferenceOptions<ExactUnit>): Duration;
  round(options: Unit<ExactUnit> | RoundingOptions): PlainDateTime;
  equals(other: DateTimeLike): boolean;
  toPlainDate(): PlainDate;
  toString(options?: TextOptions): string;
  toLocaleString(locales?: string | string[], options?: Intl.DateTimeFormatOptions): string;
  toJSON(): string;
  valueOf(): never;
  readonly [Symbol.toStringTag]: "PlainDateTime";
}

/** An instant, to the nanosecond, counted from 1970-01-01T00:00:00Z without leap seconds. */
export class Instant {
  constructor(epochNanoseconds: bigint);
  /** The instant of a text with an offset, such as `2024-02-29T12:00:00+01:00`, or of an instant. */
  static from(item: Instant | string): Instant;
  static fromEpochMilliseconds(milliseconds: number): Instant;
  static fromEpochNanoseconds(nanoseconds: bigint): Instant;
  static compare(one: Instant | string, other: Instant | string): -1 | 0 | 1;
  readonly epochMilliseconds: number;
  readonly epochNanoseconds: bigint;
  /** RangeError for days and longer units. */
  add(duration: DurationLike): Instant;
  subtract(duration: DurationLike): Instant;
  until(other: Instant | string, options?: DifferenceOptions<Exclude<ExactUnit, "day">>): Duration;
  since(other: Instant | string, options?: DifferenceOptions<Exclude<ExactUnit, "day">>): Duration;
  round(options: Unit<Exclude<ExactUnit, "day">> | RoundingOptions): Instant;
  equals(other: Instant | string): boolean;
  toString(): string;
  toLocaleString(locales?: string | string[], options?: Intl.DateTimeFormatOptions): string;
  toJSON(): string;
  valueOf(): never;
  readonly [Symbol.toStringTag]: "Instant";
}

/** Whether a year, which may lie beyond those of dates, has 366 days. */
export function isLeapYear(year: number): boolean;

/** The days from a weekday on to the first of some weekdays, 0 to 6; undefined if there are none of them. */
export function daysUntil(dayOfWeek: number, ...daysOfWeek: number[]): number | undefined;

/** The version of the library, such as `0.2.0-dev`. */
export function version(): string;

/** A text is wrong, from the place `start` on and before `end`; both are the same if something is missing there. */
export class TextError extends RangeError {
  readonly text: string;
  readonly start: number;
  readonly end: number;
  /** What is wrong. */
  readonly reason: string;
}

/** What the fields of a schedule list, each as numbers in order. */
export interface ScheduleFields {
  minutes: number[];
  hours: number[];
  days: number[];
  months: number[];
  /** From 0 for Sunday. */
  weekdays: number[];
  /** How many days follow: 0 for `L`, 3 for `L-3`. */
  daysFromEnd: number[];
  /** The days of `15W`: the workday that is nearest. */
  nearestWorkdays: number[];
  /** The weekdays of `5L`: the last one of the month. */
  lastWeekdays: number[];
  /** The weekday and its place in the month of `5#2`. */
  nthWeekdays: [number, number][];
  /** Whether `LW` is listed: the last workday of the month. */
  hasLastWorkday: boolean;
  /** Whether a day of the month or a weekday is enough. */
  isEither: boolean;
}

/** A cron schedule, such as `30 4 1,15 * fri`. It is due at the beginning of minutes. */
export class Schedule {
  /** Throws a TextError if the text is no schedule. */
  constructor(text: string);
  static from(item: Schedule | string): Schedule;
  readonly fields: ScheduleFields;
  /** The first date-time after another at which it is due; undefined if there is none. */
  nextAfter(start: DateTimeLike): PlainDateTime | undefined;
  /** The last date-time before another at which it is due; undefined if there is none. */
  previousBefore(start: DateTimeLike): PlainDateTime | undefined;
  isDue(moment: DateTimeLike): boolean;
  /** The date-times after another at which it is due, in order, up to `until`, which counts. */
  iterate(start: DateTimeLike, options?: { until?: DateTimeLike }): IterableIterator<PlainDateTime>;
  /** The first instant after another at which it fires in a zone; undefined if there is none. */
  nextInZone(start: ZonedDateTime): ZonedDateTime | undefined;
  previousInZone(start: ZonedDateTime): ZonedDateTime | undefined;
  iterateInZone(start: ZonedDateTime, options?: { until?: ZonedDateTime }): IterableIterator<ZonedDateTime>;
  /** Whether another schedule lists the same. */
  equals(other: Schedule | string): boolean;
  toString(): string;
  toJSON(): string;
  readonly [Symbol.toStringTag]: "Schedule";
}

/** A cron schedule with seconds. `crontab` has the five fields of a Schedule, `seconds` one in front, `quartz` years behind, and `robfig` those of Go. */
export class TimedSchedule {
  /** Throws a TextError if the text is no schedule of the dialect. */
  constructor(text: string, options?: { dialect?: "crontab" | "seconds" | "quartz" | "robfig" });
  readonly dialect: "crontab" | "seconds" | "quartz" | "robfig";
  /** The first date-time after another at which it is due; undefined if there is none. */
  nextAfter(start: DateTimeLike): PlainDateTime | undefined;
  /** The last date-time before another at which it is due; undefined if there is none. */
  previousBefore(start: DateTimeLike): PlainDateTime | undefined;
  isDue(moment: DateTimeLike): boolean;
  /** The date-times after another at which it is due, in order, up to `until`, which counts. */
  iterate(start: DateTimeLike, options?: { until?: DateTimeLike }): IterableIterator<PlainDateTime>;
  toString(): string;
  toJSON(): string;
  readonly [Symbol.toStringTag]: "TimedSchedule";
}

/** The instants of the text of a calendar (RFC 5545) in a zone: DTSTART, a local time, and RRULE, RDATE and EXDATE. */
export class CalendarText {
  /** Throws a TextError if the text means no recurrence in the zone. */
  constructor(text: string, timeZone: Zone | string);
  /** The name of the zone in which a text has its local times; undefined if it names none. */
  static zoneName(text: string): string | undefined;
  readonly timeZone: Zone;
  /** The first instant after another; undefined if there is none. */
  nextAfter(start: ZonedDateTime | Instant): ZonedDateTime | undefined;
  /** The last instant before another; undefined if there is none. */
  previousBefore(start: ZonedDateTime | Instant): ZonedDateTime | undefined;
  includes(instant: ZonedDateTime | Instant): boolean;
  /** The instants after another, in order, up to `until`, which counts. */
  iterate(start: ZonedDateTime | Instant, options?: { until?: ZonedDateTime | Instant }): IterableIterator<ZonedDateTime>;
  toString(): string;
  toJSON(): string;
  readonly [Symbol.toStringTag]: "CalendarText";
}

/** A recurrence rule of RFC 5545 from a start on, such as `FREQ=MONTHLY;BYDAY=-1FR`. Its instances are days. */
export class Rule implements Iterable<PlainDate> {
  /** Throws a TextError if the text is no rule. */
  constructor(text: string, start: DateLike);
  readonly start: PlainDate;
  /** The first instance after a date; undefined if there is none. */
  nextAfter(date: DateLike): PlainDate | undefined;
  /** The last instance before a date; undefined if there is none. */
  previousBefore(date: DateLike): PlainDate | undefined;
  /** Whether a date is an instance. */
  includes(date: DateLike): boolean;
  /** The instances in order, from a date on and up to another; both count. */
  iterate(options?: { from?: DateLike; until?: DateLike }): IterableIterator<PlainDate>;
  [Symbol.iterator](): IterableIterator<PlainDate>;
  toString(): string;
  /** The text and the start, which the constructor takes. */
  toJSON(): { text: string; start: string };
  readonly [Symbol.toStringTag]: "Rule";
}

/** What a set of rules is made of. */
export interface RuleSetParts {
  rules?: Iterable<Rule>;
  /** Dates that are added (RDATE). */
  dates?: Iterable<DateLike>;
  exceptRules?: Iterable<Rule>;
  /** Dates that are left out (EXDATE). */
  exceptDates?: Iterable<DateLike>;
}

/** The instances of some rules and some dates, but for those of other rules and other dates. Each day comes once. */
export class RuleSet implements Iterable<PlainDate> {
  constructor(parts?: RuleSetParts);
  readonly rules: Rule[];
  /** The dates that are added, in order, each once. */
  readonly dates: PlainDate[];
  readonly exceptRules: Rule[];
  /** The dates that are left out, in order, each once. */
  readonly exceptDates: PlainDate[];
  /** The first instance after a date; undefined if there is none. */
  nextAfter(date: DateLike): PlainDate | undefined;
  /** The last instance before a date; undefined if there is none. */
  previousBefore(date: DateLike): PlainDate | undefined;
  /** Whether a date is an instance. */
  includes(date: DateLike): boolean;
  /** The instances in order, from a date on and up to another; both count. */
  iterate(options?: { from?: DateLike; until?: DateLike }): IterableIterator<PlainDate>;
  [Symbol.iterator](): IterableIterator<PlainDate>;
  /** The four lists, as JSON has their rules and dates. */
  toJSON(): {
    rules: { text: string; start: string }[];
    dates: string[];
    exceptRules: { text: string; start: string }[];
    exceptDates: string[];
  };
  readonly [Symbol.toStringTag]: "RuleSet";
}

/** A pattern, such as `%d.%m.%Y`, by the specifiers of chrono's `format`, with English names. */
export class Pattern {
  /** Throws a TextError if the text is no pattern. */
  constructor(text: string);
  /** RangeError if the pattern asks for what the value lacks, or the text has more than 1,000 bytes. */
  format(value: PlainDate | PlainDateTime): string;
  /** Throws a TextError if the text has no date by the pattern. */
  parseDate(text: string): PlainDate;
  /** Throws a TextError if the text has no date-time by the pattern, and a RangeError if the pattern reads an offset. */
  parseDateTime(text: string): PlainDateTime;
  /** The instant in a zone of the text's offset. Throws a TextError if the text has none by the pattern. */
  parseZonedDateTime(text: string): ZonedDateTime;
  toString(): string;
  toJSON(): string;
  readonly [Symbol.toStringTag]: "Pattern";
}

/** Where a closed date goes (ISDA 2006, section 4.12). */
export type Roll =
  | "unadjusted"
  | "following"
  | "preceding"
  | "modifiedFollowing"
  | "modifiedPreceding"
  | "nearestIsda"
  | "nearestQuantLib";

/** How the part of a year is counted (ISDA 2006, section 4.16). */
export type DayCount = "actualActualIsda" | "actual360" | "actual365Fixed" | "thirty360" | "thirtyE360";

/** Open days: each day but those of a weekend and holidays. */
export class BusinessCalendar {
  /**
   * The weekend has weekdays from 1 for Monday to 7, and is [6, 7] if left out. RangeError above 1,000 holidays. If the holidays are those of
   * some years alone, an answer that looks at another year is a RangeError.
   */
  constructor(options?: { weekend?: number[]; holidays?: Iterable<DateLike>; firstYear?: number; lastYear?: number });
  /**
   * The calendar with the known holidays of some years. An answer that looks at another year is a RangeError. So is one before the rules
   * begin: in 1971 (usFederal, fedwire), 1978 (englandAndWales), 1982 (france), 1995 (germany), 1998 (nyse), 1999 (target) and 2007 (japan).
   */
  static of(
    name: "usFederal" | "target" | "englandAndWales" | "fedwire" | "nyse" | "germany" | "france" | "japan",
    firstYear: number,
    lastYear: number,
    options?: { weekend?: number[] },
  ): BusinessCalendar;
  readonly weekend: number[];
  /** The first and the last year of which the holidays are known; undefined if the calendar has no years. */
  readonly firstYear: number | undefined;
  readonly lastYear: number | undefined;
  /** The holidays that are not on the weekend, in order. */
  readonly holidays: PlainDate[];
  isOpen(date: DateLike): boolean;
  /** The n-th open day after a date; the first one from the date on if n is 0. */
  add(date: DateLike, n: number): PlainDate;
  /** How many days are open from one date on and before another. */
  between(from: DateLike, to: DateLike): number;
  roll(date: DateLike, roll: Roll): PlainDate;
  /** The weekend, the holidays and the years, if there are any: what the constructor takes. */
  toJSON(): { weekend: number[]; holidays: string[]; firstYear: number | undefined; lastYear: number | undefined };
  readonly [Symbol.toStringTag]: "BusinessCalendar";
}

/** The part of a year from one date to another by a day count: a fraction that is not reduced. */
export function dayCount(kind: DayCount, from: DateLike, to: DateLike): { numerator: number; denominator: number };

/** Easter Sunday of a year, as the Gregorian churches have it. */
export function easter(year: number): PlainDate;

/** A time zone: the text of a POSIX rule, such as `CET-1CEST,M3.5.0,M10.5.0/3`, or the bytes of a TZif file. */
export class Zone {
  /** Throws a TextError if it is no zone. The name, such as `Europe/Berlin`, is shown in texts. */
  constructor(source: string | ArrayBuffer | ArrayBufferView, name?: string);
  static from(item: Zone | string): Zone;
  readonly name: string | undefined;
  /** How many seconds the clock is ahead of UTC at a second since 1970. */
  offsetAt(second: bigint): number;
  /** The offsets at all instants at which the clock shows a local second: 0, 1 or 2. */
  offsetsOfLocal(local: bigint): number[];
  /** The next second at which the offset changes; undefined if there is none. */
  nextChange(second: bigint): bigint | undefined;
  equals(other: Zone | string): boolean;
  toString(): string;
  toJSON(): string;
  readonly [Symbol.toStringTag]: "Zone";
}

/** What becomes of a local time that the clock skips or shows twice, and of an offset that is not the zone's. */
export interface ZonedOptions extends OverflowOptions {
  disambiguation?: "compatible" | "earlier" | "later" | "reject";
  offset?: "reject" | "use" | "ignore" | "prefer";
}

/** An instant in a zone. */
export class ZonedDateTime {
  constructor(epochNanoseconds: bigint, timeZone: Zone | string);
  /** The option `timeZone` has the zone, unless the item is a ZonedDateTime or has one. */
  static from(
    item: ZonedDateTime | Instant | DateTimeLike | ((DateFields | CodedDateFields) & TimeFields & { timeZone: Zone | string; offset?: string }),
    options?: ZonedOptions & { timeZone?: Zone | string },
  ): ZonedDateTime;
  static compare(one: ZonedDateTime, other: ZonedDateTime): -1 | 0 | 1;
  readonly epochNanoseconds: bigint;
  readonly epochMilliseconds: number;
  readonly timeZone: Zone;
  readonly timeZoneId: string;
  /** Such as `+01:00`. */
  readonly offset: string;
  readonly offsetNanoseconds: number;
  readonly hoursInDay: number;
  readonly calendarId: "iso8601";
  readonly year: number;
  readonly month: number;
  readonly monthCode: string;
  readonly day: number;
  readonly dayOfWeek: number;
  readonly dayOfYear: number;
  readonly weekOfYear: number;
  readonly yearOfWeek: number;
  readonly daysInWeek: number;
  readonly daysInMonth: number;
  readonly daysInYear: number;
  readonly monthsInYear: number;
  readonly inLeapYear: boolean;
  readonly hour: number;
  readonly minute: number;
  readonly second: number;
  readonly millisecond: number;
  readonly microsecond: number;
  readonly nanosecond: number;
  toInstant(): Instant;
  toPlainDateTime(): PlainDateTime;
  toPlainDate(): PlainDate;
  withTimeZone(timeZone: Zone | string): ZonedDateTime;
  startOfDay(): ZonedDateTime;
  with(parts: Partial<Omit<DateFields, "calendar"> & TimeFields> & { offset?: string }, options?: ZonedOptions): ZonedDateTime;
  /** As `PlainDateTime.round` of what the clock shows. The offset stays if the clock has it there. A day is as long as the zone has it. */
  round(options: Unit<ExactUnit> | RoundingOptions): ZonedDateTime;
  /** Years to days by what the clock shows, and then hours and shorter units by the line of time. */
  add(duration: DurationLike, options?: OverflowOptions): ZonedDateTime;
  subtract(duration: DurationLike, options?: OverflowOptions): ZonedDateTime;
  until(other: ZonedDateTime, options?: { largestUnit?: string }): Duration;
  since(other: ZonedDateTime, options?: { largestUnit?: string }): Duration;
  getTimeZoneTransition(direction: "next" | { direction: "next" }): ZonedDateTime | null;
  equals(other: ZonedDateTime): boolean;
  toString(options?: { offset?: "auto" | "never"; timeZoneName?: "auto" | "never" }): string;
  toJSON(): string;
  toLocaleString(locales?: string | string[], options?: Intl.DateTimeFormatOptions): string;
  valueOf(): never;
  readonly [Symbol.toStringTag]: "ZonedDateTime";
}

/**
 * Columns of dates: an `Int32Array` of day numbers, each as `PlainDate.dayNumber` has it. Nothing is thrown for an element: `NO_DATE`
 * stands for no date, year or number of days, and 0 for no month, day, week or weekday. RangeError for columns of different lengths.
 */
export declare namespace columns {
  /** The number of no date: -2147483648. */
  const NO_DATE: number;
  function years(dates: Int32Array): Int32Array;
  /** From 1 to 366. */
  function daysOfYear(dates: Int32Array): Uint16Array;
  /** From 1 for Monday to 7. */
  function daysOfWeek(dates: Int32Array): Uint8Array;
  function fields(dates: Int32Array): { years: Int32Array; months: Uint8Array; days: Uint8Array };
  /** The ISO weeks, and the years that they belong to. */
  function isoWeeks(dates: Int32Array): { yearsOfWeek: Int32Array; weeksOfYear: Uint8Array };
  /** How many elements are dates. */
  function countDates(dates: Int32Array): number;
  /** The text of each date, such as `2024-02-29`; the empty text for a year outside 0 to 9999. */
  function texts(dates: Int32Array): string[];
  /** The same as ten bytes each; ten zeros for a year outside 0 to 9999. */
  function textBytes(dates: Int32Array): Uint8Array;
  /** The date of each text such as `2024-02-29`, in an array or as ten bytes each. What is another text, or none, is no date. */
  function fromTexts(texts: readonly (string | null | undefined)[] | Uint8Array): Int32Array;
  /** The date of each year, month and day of the month. */
  function fromFields(years: Int32Array, months: Uint8Array, days: Uint8Array): Int32Array;
  /** The date so many days later: as many for each, or a column of them. */
  function addDays(dates: Int32Array, days: number | Int32Array): Int32Array;
  /** The date so many months later. If that month is too short, it is its last day. */
  function addMonths(dates: Int32Array, months: number): Int32Array;
  /** The days from each base to the date at its place; the bases are a column, or one date. */
  function daysBetween(dates: Int32Array, bases: Int32Array | DateLike): Int32Array;
  /** The first date from each on, itself counted, that falls on one of the weekdays. */
  function firstOn(dates: Int32Array, ...daysOfWeek: number[]): Int32Array;
  /** The days from 1 January 1970 to each date, as Arrow's date32 has them. */
  function unixDays(dates: Int32Array): Int32Array;
  /** The same as numbers of 64 bits, of which the least stands for no date. */
  function unixDays64(dates: Int32Array): BigInt64Array;
  function fromUnixDays(days: Int32Array | BigInt64Array): Int32Array;
  /** Whether each element is an open day, as 1 or 0. Here and below, a day of another year than those of the calendar is a RangeError. */
  function isOpen(dates: Int32Array, calendar: BusinessCalendar): Uint8Array;
  /** The n-th open day after each date, as `BusinessCalendar.add` finds it. */
  function addOpenDays(dates: Int32Array, n: number, calendar: BusinessCalendar): Int32Array;
  /** How many days are open from each date on and before the other at its place; the others are a column, or one date. */
  function openDaysBetween(from: Int32Array, to: Int32Array | DateLike, calendar: BusinessCalendar): Int32Array;
  /** The date that each date goes to by a roll. */
  function roll(dates: Int32Array, roll: Roll, calendar: BusinessCalendar): Int32Array;
}
