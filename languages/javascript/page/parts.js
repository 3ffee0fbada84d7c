/** What the page shows of dates: the sheet of a month, the distance of two dates, a row of dates. */

import { PlainDate } from "../src/index.js";
import { dateText, WEEKDAYS, weekText, yearText } from "./answers.js";

export const MONTHS = [
  "January", "February", "March", "April", "May", "June", "July", "August", "September", "October", "November", "December",
];
export const LONG_WEEKDAYS = ["Monday", "Tuesday", "Wednesday", "Thursday", "Friday", "Saturday", "Sunday"];

/** An element with some properties and children. */
export function element(tag, properties = {}, ...children) {
  const made = Object.assign(document.createElement(tag), properties);
  made.append(...children);
  return made;
}

/** A number of things in words. */
export const counted = (number, thing) => `${number.toLocaleString("en")} ${thing}${Math.abs(number) === 1 ? "" : "s"}`;

/** A date in words. */
export const spoken = (date) =>
  `${LONG_WEEKDAYS[date.dayOfWeek - 1]} ${date.day} ${MONTHS[date.month - 1]} ${yearText(date.year)}`;

/** What a day is called. */
export const namesOf = (date) => ({
  "Calendar date": dateText(date),
  "Weekday": LONG_WEEKDAYS[date.dayOfWeek - 1],
  "Week date": `${weekText(date)}-${date.dayOfWeek}`,
  "Day of the year": `${yearText(date.year)}-${`${date.dayOfYear}`.padStart(3, "0")}`,
  "Day number": date.dayNumber.toLocaleString("en"),
});

/** The cell of a day: a button for one of the month, a number for one beside it. */
function cellOf(date, selected, today, select) {
  if (date.month !== selected.month) {
    return element("td", {}, element("span", { ariaHidden: "true" }, `${date.day}`));
  }
  const isSelected = date.equals(selected);
  const small = element("small", {}, `${date.dayOfYear}`.padStart(3, "0"));
  const label = `${spoken(date)}, week ${date.weekOfYear}, day ${date.dayOfYear} of the year, day number ${date.dayNumber}`;
  const button = element("button", { type: "button", tabIndex: isSelected ? 0 : -1, ariaLabel: label }, `${date.day}`, small);
  button.dataset.date = dateText(date);
  button.addEventListener("click", () => select(date));
  const cell = element("td", { ariaSelected: `${isSelected}` }, button);
  cell.setAttribute("role", "gridcell");
  cell.classList.toggle("free", date.dayOfWeek > 5);
  cell.classList.toggle("today", date.equals(today));
  return cell;
}

/** The date so many days on; undefined beyond the calendar. */
function daysOn(date, days) {
  try {
    return date.add({ days });
  } catch {
    return undefined;
  }
}

/** Shows the month of a date as a sheet, a row for each ISO week, and says what the date is called. */
export function showMonth(table, names, selected, today, select) {
  table.caption.textContent = `${MONTHS[selected.month - 1]} ${yearText(selected.year)}`;
  const heads = [["Wk", "ISO week"], ...WEEKDAYS.map((it, index) => [it, LONG_WEEKDAYS[index]])];
  table.tHead.rows[0].replaceChildren(...heads.map(([text, abbr]) => element("th", { scope: "col", abbr }, text)));
  const first = selected.with({ day: 1 });
  const rows = [];
  for (let start = 1 - first.dayOfWeek; start < selected.daysInMonth; start += 7) {
    const week = element("th", { scope: "row" }, `W${`${daysOn(first, Math.max(start, 0)).weekOfYear}`.padStart(2, "0")}`);
    const days = WEEKDAYS.map((_, index) => daysOn(first, start + index));
    const cells = days.map((it) => (it ? cellOf(it, selected, today, select) : element("td")));
    rows.push(element("tr", {}, week, ...cells));
  }
  table.tBodies[0].replaceChildren(...rows);
  const pairs = Object.entries(namesOf(selected)).map(([name, text]) => element("div", {}, element("dt", {}, name), element("dd", {}, text)));
  names.replaceChildren(...pairs);
}

/** Where a key leads in the sheet: a duration, and undefined for other keys. */
export function moveOfKey(key, date) {
  const moves = {
    ArrowLeft: { days: -1 }, ArrowRight: { days: 1 }, ArrowUp: { days: -7 }, ArrowDown: { days: 7 },
    PageUp: { months: -1 }, PageDown: { months: 1 }, Home: { days: 1 - date.dayOfWeek }, End: { days: 7 - date.dayOfWeek },
  };
  return moves[key];
}

/** A duration of years, months and days, or of weeks and days, in words. */
function inWords(duration) {
  const parts = ["years", "months", "weeks", "days"].filter((it) => duration[it] !== 0);
  const words = parts.map((it) => counted(Math.abs(duration[it]), it.slice(0, -1)));
  return words.length > 1 ? `${words.slice(0, -1).join(", ")} and ${words.at(-1)}` : (words[0] ?? "no day");
}

/** Shows how far it is from one date to another. */
export function showBetween(output, from, to) {
  const days = from.until(to).days;
  const lines = [
    `${spoken(from)} to ${spoken(to)}`,
    `${days < 0 ? "back " : ""}${inWords(from.until(to, { largestUnit: "year" }))}`,
    `${days < 0 ? "back " : ""}${inWords(from.until(to, { largestUnit: "week" }))}`,
  ];
  const list = element("ul", {}, ...lines.map((it) => element("li", {}, it)));
  output.replaceChildren(element("strong", {}, counted(days, "day")), list);
}

/** The dates every so many months from the first on, as far as the calendar reaches. */
function datesFrom(start, step, count) {
  const dates = [];
  try {
    for (let index = 0; index < count; index += 1) {
      dates.push(start.everyMonths(step, index));
    }
  } catch (refused) {
    if (!(refused instanceof RangeError)) {
      throw refused;
    }
  }
  return dates;
}

/** Shows the dates every so many months from the first on as leaves in a row, and answers how many there are. */
export function showRow(list, start, step, count) {
  const dates = datesFrom(start, step, count);
  const leaves = dates.map((date, index) => {
    const days = index === 0 ? "start" : counted(dates[index - 1].until(date).days, "day");
    const isShort = date.day !== start.day;
    const part = (className, text) => element("div", { className, ariaHidden: "true" }, text);
    const leaf = element(
      "li",
      { className: isShort ? "short" : "" },
      part("month", `${MONTHS[date.month - 1].slice(0, 3)} ${yearText(date.year)}`),
      part("day", `${date.day}`),
      part("weekday", LONG_WEEKDAYS[date.dayOfWeek - 1]),
      part("gap", days),
      element("span", { className: "spoken" }, `${spoken(date)}${isShort ? ", the last day of its month" : ""}, ${days}`),
    );
    leaf.dataset.date = dateText(date);
    return leaf;
  });
  list.replaceChildren(...leaves);
  return dates.length;
}

/** The date of a text; a RangeError that says what is wrong with it. */
export function dateOfText(text) {
  return PlainDate.from(text.trim());
}
