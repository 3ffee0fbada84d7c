/** Open days, and the parts of years that day counts give. */

import {
  addOpenDays, easterOf, faultOfHolidays, firstYearOf, holidaysOf, isOpenDay, MOST_HOLIDAYS, openDaysBetween, rolled, yearPart,
} from "./layers.js";
import { NONE } from "./library.js";
import { between, clipped, isInt32, listOf, optionsOf, whole } from "./numbers.js";
import { PlainDate, setOf } from "./plain_date.js";

/** Where a closed date goes, in the order of the library (ISDA 2006, section 4.12). */
export const ROLLS = [
  "unadjusted", "following", "preceding", "modifiedFollowing", "modifiedPreceding", "nearestIsda", "nearestQuantLib",
];

/** The calendars whose holidays are known, in the order of the library. */
const KNOWN = ["usFederal", "target", "englandAndWales", "fedwire", "nyse", "germany", "france", "japan"];

/** The day counts, in the order of the library (ISDA 2006, section 4.16). */
const DAY_COUNTS = ["actualActualIsda", "actual360", "actual365Fixed", "thirty360", "thirtyE360"];

/** No two dates are so many days apart. */
const MOST_DAYS = 2 ** 31;

/** Saturday and Sunday. */
const USUAL_WEEKEND = [6, 7];

/** The first and the last year of the calendar. */
const [FIRST_YEAR, LAST_YEAR] = [-262_143, 262_142];

/** A year of an option, or the one that is meant if it is left out; RangeError if there is no such year. */
const yearOf = (year, usual) => between(whole(year ?? usual, "year"), "year", FIRST_YEAR, LAST_YEAR);

/** A RangeError: an answer looks at another year than the first and the last one, of which the holidays are known. */
export const otherYear = ([first, last]) => new RangeError(`the holidays are known from ${first} to ${last} alone, and another year is looked at`);

/** The number of a name in a list; RangeError if it is not there. */
export function placeOf(name, names, what) {
  const place = names.indexOf(name);
  if (place < 0) {
    throw new RangeError(`${what} ${String(name)}: it is one of ${names.join(", ")}`);
  }
  return place;
}

/** The weekend of a calendar, its holidays and its years, as the library takes them; a TypeError for what is no calendar. */
export let closedOf;

/** A calendar of open days: each day but those of a weekend and holidays. */
export class BusinessCalendar {
  #weekend;
  #holidays;
  #years;

  static {
    closedOf = (calendar) => {
      if (!(calendar instanceof BusinessCalendar)) {
        throw new TypeError("a BusinessCalendar is wanted");
      }
      return calendar.#days;
    };
  }

  /**
   * The calendar of a weekend, which is a list of weekdays from 1 for Monday to 7, and of holidays. It is Saturday and Sunday, and no
   * holiday, if left out. Holidays come in any order; those on the weekend are left out. RangeError above 1,000 of them.
   *
   * If the holidays are those of some years alone, `firstYear` and `lastYear` say so. An answer that looks at another year is a RangeError.
   */
  constructor(options) {
    const given = optionsOf(options);
    const weekend = listOf(given.weekend ?? USUAL_WEEKEND, "weekend");
    const isOnWeekend = (date) => weekend.map(Number).includes(date.dayOfWeek);
    const dates = listOf(given.holidays ?? [], "holidays").map((it) => PlainDate.from(it)).filter((it) => !isOnWeekend(it));
    this.#weekend = setOf(weekend);
    this.#holidays = Int32Array.from(new Set(dates.map((it) => it.dayNumber))).sort();
    const shown = { weekend: this.#weekend, holidays: this.#holidays.subarray(0, MOST_HOLIDAYS + 1) };
    const fault = faultOfHolidays(shown);
    if (fault !== undefined) {
      throw new RangeError(fault);
    }
    const { firstYear, lastYear } = given;
    this.#years = firstYear === undefined && lastYear === undefined ? undefined : [yearOf(firstYear, FIRST_YEAR), yearOf(lastYear, LAST_YEAR)];
  }

  /**
   * The calendar with the holidays of some years that a name stands for: `usFederal`, `target` (the euro's payment system),
   * `englandAndWales`, `fedwire`, `nyse` (the New York Stock Exchange), `germany` (holidays of all its states), `france` or `japan` (its banks;
   * with equinoxes up to 2099). RangeError for too many holidays. An answer that looks at another year, or at one before the rules begin,
   * is a RangeError too.
   */
  static of(name, firstYear, lastYear, options) {
    const weekend = listOf(optionsOf(options).weekend ?? USUAL_WEEKEND, "weekend");
    const [first, last] = [whole(firstYear, "year"), whole(lastYear, "year")];
    const place = placeOf(name, KNOWN, "calendar");
    // (a day of the next year can be kept in the last one)
    const next = last < first || last === LAST_YEAR ? last : last + 1;
    const numbers = isInt32(first) && isInt32(next) ? holidaysOf(place, first, next, setOf(weekend)) : undefined;
    if (numbers === undefined) {
      throw new RangeError(`the holidays from ${first} to ${last}: too many, or no such years`);
    }
    const end = new PlainDate(last, 12, 31).dayNumber;
    const holidays = Array.from(numbers.filter((it) => it <= end), (it) => PlainDate.fromDayNumber(it));
    return new BusinessCalendar({ weekend, holidays, firstYear: Math.max(first, firstYearOf(place)), lastYear: last });
  }

  /** The weekend, the holidays and the years as the library takes them. */
  get #days() {
    return { weekend: this.#weekend, holidays: this.#holidays, years: this.#years };
  }

  /** The date that a function of the library answers; RangeError, which says why, if none. */
  #found(number, why) {
    if (number === NONE) {
      throw this.#years === undefined ? new RangeError(why()) : otherYear(this.#years);
    }
    return PlainDate.fromDayNumber(number);
  }

  /** What a function of the library answers; RangeError, which names the years, if it looks at another one. */
  #known(answer) {
    if (answer === undefined) {
      throw otherYear(this.#years);
    }
    return answer;
  }

  /** The first year of which the holidays are known; undefined if the calendar has no years. */
  get firstYear() {
    return this.#years?.[0];
  }

  /** The last year of which the holidays are known; undefined if the calendar has no years. */
  get lastYear() {
    return this.#years?.[1];
  }

  /** The weekdays of the weekend, from 1 for Monday to 7. */
  get weekend() {
    return [1, 2, 3, 4, 5, 6, 7].filter((it) => this.#weekend & (1 << (it - 1)));
  }

  /** The holidays that are not on the weekend, in order. */
  get holidays() {
    return Array.from(this.#holidays, (it) => PlainDate.fromDayNumber(it));
  }

  /** Whether a date is open: neither on the weekend nor a holiday. */
  isOpen(date) {
    return this.#known(isOpenDay(this.#days, PlainDate.from(date).dayNumber));
  }

  /**
   * The n-th open day after a date, or the -n-th before it if n is below 0. It is the first open day from the date on if n is 0.
   * RangeError if the calendar ends before.
   */
  add(date, n) {
    const [from, days] = [PlainDate.from(date), clipped(whole(n, "open days"), -MOST_DAYS, MOST_DAYS)];
    const number = addOpenDays(this.#days, from.dayNumber, BigInt(days));
    return this.#found(number, () => `${from} moved by ${n} open days lies beyond the calendar`);
  }

  /** How many days are open from one date on and before another; below 0 if the second is the earlier. */
  between(from, to) {
    return this.#known(openDaysBetween(this.#days, PlainDate.from(from).dayNumber, PlainDate.from(to).dayNumber));
  }

  /** The date that a date goes to by a roll, such as `modifiedFollowing`. An open date stays. RangeError if there is no such day. */
  roll(date, roll) {
    const [from, place] = [PlainDate.from(date), placeOf(roll, ROLLS, "roll")];
    return this.#found(rolled(this.#days, from.dayNumber, place), () => `${from} has no open day by the roll ${roll}`);
  }

  /** The weekend, the holidays and the years, if there are any: what the constructor takes. */
  toJSON() {
    const holidays = this.holidays.map((it) => it.toJSON());
    return { weekend: this.weekend, holidays, firstYear: this.firstYear, lastYear: this.lastYear };
  }

  get [Symbol.toStringTag]() {
    return "BusinessCalendar";
  }
}

/** The part of a year from one date to another by a day count, such as `thirty360`: a fraction that is not reduced. */
export function dayCount(kind, from, to) {
  const [start, end] = [PlainDate.from(from).dayNumber, PlainDate.from(to).dayNumber];
  const [numerator, denominator] = yearPart(placeOf(kind, DAY_COUNTS, "day count"), start, end);
  return { numerator, denominator };
}

/** Easter Sunday of a year, as the Gregorian churches have it; RangeError if the calendar has no such year. */
export function easter(year) {
  const named = whole(year, "year");
  const number = isInt32(named) ? easterOf(named) : NONE;
  if (number === NONE) {
    throw new RangeError(`year ${named}: the calendar does not have it`);
  }
  return PlainDate.fromDayNumber(number);
}
