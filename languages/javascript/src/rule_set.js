/** Sets of recurrence rules. */

import { listOf, optionsOf } from "./numbers.js";
import { PlainDate } from "./plain_date.js";
import { hasCount, LAST, Rule } from "./rule.js";

/** The rules of a list; a TypeError for another value. */
function rulesOf(list) {
  const rules = listOf(list, "rules");
  if (rules.some((it) => !(it instanceof Rule))) {
    throw new TypeError("a set of rules is made of Rules");
  }
  return rules;
}

/** Dates in order, each once. */
function sorted(list) {
  const dates = listOf(list, "dates").map((it) => PlainDate.from(it)).sort(PlainDate.compare);
  return dates.filter((it, index) => index === 0 || !it.equals(dates[index - 1]));
}

const isAmong = (dates, date) => dates.some((it) => it.equals(date));

/** The days after which the calendar repeats: 400 years. And no year has more. */
const [CYCLE, YEAR] = [146_097, 366];

const isEndless = (rule) => !hasCount(rule) && !/UNTIL=/i.test(`${rule}`);
const intervalOf = (rule) => Number(/INTERVAL=([0-9]+)/i.exec(`${rule}`)?.[1] ?? 1);
const gcd = (one, other) => (other === 0 ? one : gcd(other, one % other));

/**
 * A stretch of days that endless rules leave out.
 *
 * Endless rules repeat with the calendar, after as many cycles as their intervals need. So once all days of one such time are left out, no
 * day of an endless rule is an instance, from `begin` on.
 */
class Stretch {
  #exceptRules;
  #most;
  #begin;
  #first;
  isOver = false;

  constructor(rules, exceptRules) {
    this.#exceptRules = exceptRules.filter(isEndless);
    const endless = [...this.#exceptRules, ...rules.filter(isEndless)];
    const interval = endless.map(intervalOf).reduce((one, other) => (one / gcd(one, other)) * other, 1);
    this.#begin = Math.max(0, ...endless.map((it) => it.start.dayNumber)) + YEAR * interval;
    this.#most = CYCLE * interval;
  }

  /** Whether a date is left out so. The dates are asked about in order. */
  has(date) {
    const isLeftOut = this.#exceptRules.some((it) => it.includes(date));
    const day = date.dayNumber;
    if (!isLeftOut || day < this.#begin) {
      this.#first = undefined;
    } else if (Math.abs(day - (this.#first ??= day)) > this.#most) {
      this.isOver = true;
    }
    return isLeftOut;
  }

  /** Where to look before a date for a rule: before the time of which all days of endless rules are left out. */
  place(rule, date) {
    const isInside = this.isOver && isEndless(rule) && date.dayNumber > this.#begin;
    return isInside ? PlainDate.fromDayNumber(this.#begin) : date;
  }
}

/**
 * The dates that a set leaves out, which are asked about in order.
 *
 * A rule with COUNT is counted from its start whenever it is asked. So its instances are walked along.
 */
class LeftOut {
  #rules;
  #days;
  #walks;

  constructor(rules, dates, options) {
    this.#rules = rules.filter((it) => !hasCount(it));
    this.#days = new Set(dates.map((it) => it.dayNumber));
    this.#walks = rules.filter(hasCount).map((rule) => ({ walk: rule.iterate(options), day: -Infinity }));
  }

  #isNext(it, day) {
    while (it.day < day) {
      it.day = it.walk.next().value?.dayNumber ?? Infinity;
    }
    return it.day === day;
  }

  /** Whether a date is left out. */
  has(date) {
    const day = date.dayNumber;
    return this.#days.has(day) || this.#walks.some((it) => this.#isNext(it, day)) || this.#rules.some((it) => it.includes(date));
  }
}

/** The earliest of some dates if the sign is 1, or the latest if it is -1. Some may be undefined; it is too if all are. */
function extreme(dates, sign) {
  const [found] = dates.filter((it) => it !== undefined).sort((one, other) => sign * PlainDate.compare(one, other));
  return found;
}

/**
 * The instances of some rules and some dates (RDATE), but for those of other rules and other dates (EXDATE).
 *
 * Each day comes once. The rules are asked by proved functions; what they answer is merged here.
 */
export class RuleSet {
  #rules;
  #dates;
  #exceptRules;
  #exceptDates;

  /** The set of some rules and dates, and of what is left out, each of which may be missing. A TypeError for what is no Rule. */
  constructor(options) {
    const { rules = [], dates = [], exceptRules = [], exceptDates = [] } = optionsOf(options);
    this.#rules = rulesOf(rules);
    this.#dates = sorted(dates);
    this.#exceptRules = rulesOf(exceptRules);
    this.#exceptDates = sorted(exceptDates);
  }

  get rules() {
    return [...this.#rules];
  }

  /** The dates that are added, in order, each once. */
  get dates() {
    return [...this.#dates];
  }

  get exceptRules() {
    return [...this.#exceptRules];
  }

  /** The dates that are left out, in order, each once. */
  get exceptDates() {
    return [...this.#exceptDates];
  }

  #isLeftOut(date) {
    return isAmong(this.#exceptDates, date) || this.#exceptRules.some((it) => it.includes(date));
  }

  /** The first instance after a date; undefined if there is none. */
  nextAfter(date) {
    const { dayNumber } = PlainDate.from(date);
    return dayNumber === LAST ? undefined : this.iterate({ from: PlainDate.fromDayNumber(dayNumber + 1) }).next().value;
  }

  /** The last instance before a date; undefined if there is none. */
  previousBefore(date) {
    const stretch = new Stretch(this.#rules, this.#exceptRules);
    let found = PlainDate.from(date);
    do {
      const earlier = this.#dates.filter((it) => PlainDate.compare(it, found) < 0).at(-1);
      found = extreme([...this.#rules.map((it) => it.previousBefore(stretch.place(it, found))), earlier], -1);
    } while (found && (stretch.has(found) || this.#isLeftOut(found)));
    return found;
  }

  /** Whether a date is an instance. */
  includes(date) {
    const asked = PlainDate.from(date);
    return (isAmong(this.#dates, asked) || this.#rules.some((it) => it.includes(asked))) && !this.#isLeftOut(asked);
  }

  /** The instances in order, from a date on and up to another; both count. They are all if no option is given. */
  iterate(options) {
    const { from, until } = optionsOf(options);
    const [first, last] = [from, until].map((it) => (it === undefined ? it : PlainDate.from(it)));
    const isWithin = (it) => !(first && PlainDate.compare(it, first) < 0) && !(last && PlainDate.compare(it, last) > 0);
    const walks = this.#rules.map((it) => it.iterate({ from: first, until: last }));
    const leftOut = new LeftOut(this.#exceptRules, this.#exceptDates, { from: first, until: last });
    return this.#merged(walks, this.#dates.filter(isWithin).values(), leftOut);
  }

  [Symbol.iterator]() {
    return this.iterate();
  }

  /** What walks over the rules and some dates, all in order, give together, each once. */
  *#merged(ofRules, dates, leftOut) {
    const stretch = new Stretch(this.#rules, this.#exceptRules);
    const walks = [...ofRules, dates];
    const heads = walks.map((it) => it.next().value);
    const next = (index) => (stretch.isOver && index < ofRules.length && isEndless(this.#rules[index]) ? undefined : walks[index].next().value);
    let found = extreme(heads, 1);
    while (found) {
      if (!stretch.has(found) && !leftOut.has(found)) {
        yield found;
      }
      for (const [index, it] of heads.entries()) {
        heads[index] = it?.equals(found) ? next(index) : it;
      }
      found = extreme(heads, 1);
    }
  }

  /** The four lists, as JSON has their rules and dates. */
  toJSON() {
    const lists = { rules: this.#rules, dates: this.#dates, exceptRules: this.#exceptRules, exceptDates: this.#exceptDates };
    return Object.fromEntries(Object.entries(lists).map(([name, list]) => [name, list.map((it) => it.toJSON())]));
  }

  get [Symbol.toStringTag]() {
    return "RuleSet";
  }
}
