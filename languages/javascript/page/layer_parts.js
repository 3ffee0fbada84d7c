/** What the page shows of schedules and of open days, and where a text is wrong. */

import { BusinessCalendar, PlainDate, Rule, TextError } from "../src/index.js";
import { counted, element, MONTHS, spoken } from "./parts.js";
import { listed } from "./words.js";

/** So many times are shown of a schedule. */
const SHOWN = 5;

/** The nanoseconds of a second. */
const SECOND = 1_000_000_000n;

/** So many days of a rule are told one by one. */
const TOLD = 12;

/** The places of a text's words, between blanks, commas and semicolons. */
const WORDS = /[^\s,;]+/g;

/** A text with its wrong part marked, and what is wrong with it; where something is missing a blank is marked. */
export function faultNodes({ text, start, end, reason }) {
  const wrong = element("mark", {}, text.slice(start, end) || "\u00a0");
  const line = element("code", { className: "at", ariaHidden: "true" }, text.slice(0, start), wrong, text.slice(end));
  // (the place is marked, so the number of the byte is not told)
  return [line, element("span", {}, reason.replace(/,? ?\bbyte \d+/, "").replace(/^: /, ""))];
}

/** The time of day in words: seconds only if there are some. */
const clock = (moment) => moment.toString().slice(-8).replace(/:00$/, "");

/** The time that a schedule plans in the gap that ends at a moment; undefined if the moment is a time of its own. */
function skippedBefore(schedule, moment) {
  const shown = moment.toPlainDateTime();
  if (schedule.isDue(shown)) {
    return undefined;
  }
  const second = moment.epochNanoseconds / SECOND;
  const ahead = moment.timeZone.offsetAt(second) - moment.timeZone.offsetAt(second - 1n);
  return schedule.nextAfter(shown.subtract({ seconds: ahead + 1 }));
}

/** Which of two it is, of a time that the clock shows twice; the empty text for another. */
function whichOf(moment) {
  const ahead = moment.offsetNanoseconds / 1e9;
  const offsets = moment.timeZone.offsetsOfLocal(moment.epochNanoseconds / SECOND + BigInt(ahead));
  return offsets.length < 2 ? "" : `, the ${offsets[0] === ahead ? "first" : "second"} of two`;
}

/** One of the times at which a schedule is due: what the clock shows, its offset and its name, and how far it is. */
function dueItem(moment, start, name, skipped) {
  const shown = moment.toPlainDateTime();
  const days = start.toPlainDate().until(shown.toPlainDate()).days;
  const distance = days === 0 ? "the same day" : `${counted(days, "day")} later`;
  const zone = element("span", { className: "zone" }, /^[-+]/.test(name) ? moment.offset : `${name} ${moment.offset}`);
  const small = element("small", {}, `${distance}${whichOf(moment)}${skipped ? `, for ${clock(skipped)}` : ""}`);
  const item = element("li", {}, element("strong", {}, clock(shown)), " ", zone, " ", element("span", {}, spoken(shown)), " ", small);
  item.dataset.moment = moment.toString({ timeZoneName: "never" });
  return item;
}

/** That the clock skips some times, in words; the empty text if it skips none. */
function skippedInWords([first, ...others]) {
  if (first === undefined) {
    return "";
  }
  const more = others.length > 0 ? `, and a time on ${counted(others.length, "more day")}` : "";
  return `The clock skips ${clock(first)} on ${spoken(first)}${more}, so it is due as the gap ends.`;
}

/** Shows the next times after a moment at which a schedule is due, and which times the clock skips. Answers how many times there are. */
export function showDue(list, note, schedule, start, nameAt) {
  const due = [];
  for (const moment of schedule.iterateInZone(start)) {
    due.push({ moment, skipped: skippedBefore(schedule, moment) });
    if (due.length === SHOWN) {
      break;
    }
  }
  const nameOf = ({ epochNanoseconds }) => nameAt(Number(epochNanoseconds / SECOND));
  list.replaceChildren(...due.map(({ moment, skipped }) => dueItem(moment, start, nameOf(moment), skipped)));
  note.textContent = skippedInWords(due.map((it) => it.skipped).filter(Boolean));
  return due.length;
}

/** The dates of a text, between blanks, commas or semicolons; a TextError that has the place of the first wrong one. */
export function datesOfText(text) {
  return Array.from(text.matchAll(WORDS), (found) => {
    try {
      return PlainDate.from(found[0]);
    } catch (refused) {
      throw refused instanceof RangeError ? new TextError(text, found.index, found.index + found[0].length, "no date") : refused;
    }
  });
}

/** Shows how many days are open between two dates, and where both go if they are closed. */
export function showOpenDays(output, from, to, weekend, holidays) {
  const calendar = new BusinessCalendar({ weekend, holidays });
  const items = [from, to].map((date) => {
    const isOpen = calendar.isOpen(date);
    return element("li", {}, `${spoken(date)} is ${isOpen ? "open" : `closed; ${openDayAfter(calendar, date)}`}`);
  });
  const open = element("strong", {}, counted(calendar.between(from, to), "open day"));
  output.replaceChildren(open, element("ul", {}, ...items));
}

/** The open day that follows a closed one, in words. */
function openDayAfter(calendar, date) {
  try {
    return `the next open day is ${spoken(calendar.roll(date, "following"))}`;
  } catch (refused) {
    if (!(refused instanceof RangeError)) {
      throw refused;
    }
    return "no open day follows";
  }
}

/** A month of a year as a small table, with some days marked; days of the month have their number alone. */
function smallMonth(year, month, marked) {
  const first = new PlainDate(year, month, 1);
  const days = [...Array(first.dayOfWeek - 1).fill(0), ...Array.from({ length: first.daysInMonth }, (_, index) => index + 1)];
  const rows = Array.from({ length: Math.ceil(days.length / 7) }, (_, week) => days.slice(7 * week, 7 * week + 7));
  const cells = (row) => row.map((day) => {
    const isMarked = marked.has(day);
    const cell = element("td", {}, isMarked ? element("mark", {}, `${day}`) : day || "");
    if (isMarked) {
      cell.dataset.date = `${first.with({ day })}`;
    }
    return cell;
  });
  const body = element("tbody", {}, ...rows.map((row) => element("tr", {}, ...cells(row))));
  return element("table", { className: "small" }, element("caption", {}, MONTHS[month - 1]), body);
}

/** Shows a year with the days of a rule marked, and says which they are. */
export function showYear(sheet, words, text, start, year) {
  const rule = new Rule(text, start);
  const [first, last] = [new PlainDate(year, 1, 1), new PlainDate(year, 12, 31)];
  const days = [...rule.iterate({ from: first, until: last })];
  const marked = MONTHS.map(() => new Set());
  days.forEach((it) => marked[it.month - 1].add(it.day));
  sheet.replaceChildren(...marked.map((it, index) => smallMonth(year, index + 1, it)));
  const told = days.slice(0, TOLD).map((it) => `${it.day} ${MONTHS[it.month - 1]}`);
  const more = days.length > TOLD ? [`${days.length - TOLD} more`] : [];
  const next = rule.nextAfter(last);
  const lines = [days.length ? listed([...told, ...more]) : undefined, next && `the next one after ${year} is ${spoken(next)}`].filter(Boolean);
  const list = element("ul", {}, ...lines.map((it) => element("li", {}, it)));
  words.replaceChildren(element("strong", {}, `${counted(days.length, "day")} in ${year}`), list);
}
