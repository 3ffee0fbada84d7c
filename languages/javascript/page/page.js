/** Ties what is typed to what is shown. */

import { BusinessCalendar, PlainDate, Schedule, TextError, ZonedDateTime } from "../src/index.js";
import { answerOf } from "./answers.js";
import { datesOfText, faultNodes, showDue, showOpenDays, showYear } from "./layer_parts.js";
import { dateOfText, element, LONG_WEEKDAYS, MONTHS, moveOfKey, showBetween, showMonth, showRow } from "./parts.js";
import { scheduleInWords } from "./words.js";
import { DATABASE, isZone, NAMES, zoneOf } from "./zones.js";

/** The commands of caltool: one line for each, and what it asks. */
const EXAMPLES = {
  "ymd 2024 12 30": "a calendar date",
  "yo 2024 366": "an ordinal date",
  "iwd 2020 53 7": "an ISO week date",
  "day 719163": "a day number",
  "wom 2017 3 5 2": "the second Friday of a month",
  "days 2024 12 31 1": "so many days on",
  "months 2023 1 31 1": "so many months on",
  "week 2022 5 18 4": "the week that begins on a Thursday",
  "move 2015 6 30 23 59 59 1500000000 1 0": "a second on, from inside a leap second",
  "diff 2015 7 1 1 0 0 0 2015 6 30 23 59 59 1500000000": "the time between two date-times",
  "since 2021 3 1 2020 2 29": "whole years",
  "set 3 1 4 7": "a set of weekdays, walked from Wednesday",
  "on 2024 12 30 2 4": "the first Tuesday or Thursday",
  "every 2024 1 31 1 2": "the second of dates every month",
};

/** Cron lines, and what each shows. */
const CRON_EXAMPLES = {
  "30 4 1,15 * fri": "days of the month or a weekday",
  "*/15 9-17 * * mon-fri": "office hours",
  "0 0 29 2 *": "leap days",
  "0 18 L * *": "the last day of the month",
  "0 9 * * 1#1": "the first Monday of the month",
  "@daily": "a nickname",
  "0 25 * * *": "an hour that there is not",
};

/** Time zones, and what each is. */
const ZONE_EXAMPLES = {
  "UTC": "the same in all seasons",
  "Europe/Berlin": "an hour ahead of UTC, two in summer",
  "America/New_York": "five hours behind UTC, four in summer",
  "Asia/Kolkata": "five and a half hours ahead of UTC",
  "Australia/Lord_Howe": "half an hour of summer time",
  "CET-1CEST,M3.5.0,M10.5.0/3": "a POSIX rule",
};

/** Rules, and what each shows. */
const RULE_EXAMPLES = {
  "FREQ=MONTHLY;BYDAY=-1FR": "the last Friday of each month",
  "FREQ=WEEKLY;INTERVAL=2;BYDAY=MO,WE": "Mondays and Wednesdays of every other week",
  "FREQ=YEARLY;BYMONTH=11;BYDAY=4TH": "the fourth Thursday of November",
  "FREQ=DAILY;COUNT=10": "ten days",
  "FREQ=MONTHLY;BYMONTHDAY=31": "the 31st, where there is one",
  "FREQ=MONTHLY;BYDAY=MO,TU,WE,TH,FR;BYSETPOS=-1": "the last weekday of each month",
  "FREQ=YEARLY;BYWEEKNO=1,99": "a week that there is not",
};

/** Calendars whose holidays are known. */
const KNOWN = {
  "": "my own list",
  usFederal: "the United States",
  target: "the euro (TARGET)",
  englandAndWales: "England and Wales",
  fedwire: "Fedwire",
  nyse: "the New York Stock Exchange",
  germany: "Germany",
  france: "France",
  japan: "Japan",
};

/** Saturday and Sunday. */
const USUAL_WEEKEND = [6, 7];

const at = (id) => document.getElementById(id);

/** What is found from the text of a field, which is marked if that is refused. */
function read(field, find) {
  try {
    return find(field.value);
  } catch (refused) {
    field.setAttribute("aria-invalid", "true");
    throw refused;
  }
}

/** The months of a text, of 32 bits; a RangeError if it is none. */
function monthsOf(text) {
  const months = Math.trunc(Number(text));
  if (text === "" || months !== (months | 0)) {
    throw new RangeError(`${JSON.stringify(text)}: no number of months`);
  }
  return months;
}

/** Runs what shows or finds something; where that is refused, the place says why. The fields are unmarked first. */
function orRefused(place, fields, show) {
  fields.forEach((it) => it.removeAttribute("aria-invalid"));
  try {
    place.replaceChildren();
    return show();
  } catch (refused) {
    if (!(refused instanceof RangeError)) {
      throw refused;
    }
    const isAtPlace = refused instanceof TextError;
    place.replaceChildren(...(isAtPlace ? faultNodes(refused) : [refused.message]));
    return undefined;
  }
}

/** Buttons that put an example into a field; what they stand for is their title. */
function chips(list, field, examples, nameOf, show) {
  const items = Object.keys(examples).map((example) => {
    const button = element("button", { type: "button", title: examples[example], ariaLabel: `${example}: ${examples[example]}` });
    button.textContent = nameOf(example);
    button.addEventListener("click", () => {
      field.value = example;
      show();
      field.focus();
    });
    return element("li", {}, button);
  });
  list.replaceChildren(...items);
}

/** The name of the machine's zone; UTC if the page does not have that zone. */
function ownZone() {
  const { timeZone } = Intl.DateTimeFormat().resolvedOptions();
  return isZone(timeZone) ? timeZone : "UTC";
}

/** The nanoseconds from 1970 to this second. */
const presentSecond = () => BigInt(Math.floor(Date.now() / 1_000)) * 1_000_000_000n;

/** The moment of a field in a zone: that of `now`, which is put into the field, or if there is none that of the field's text. */
function startIn(timeZone, after, now) {
  if (now === undefined) {
    return read(after, (text) => ZonedDateTime.from(text.trim(), { timeZone }));
  }
  const start = new ZonedDateTime(now, timeZone);
  after.value = `${start.toPlainDateTime()}`;
  return start;
}

/** Shows when the schedule of a field is due in the zone of another, unless one of them is refused. */
function showSchedule({ cron, zone, after }, now) {
  [at("cron-words"), at("due"), at("skipped"), at("after-trouble")].forEach((it) => it.replaceChildren());
  const found = orRefused(at("zone-trouble"), [zone, after], () => read(zone, zoneOf));
  const start = found && orRefused(at("after-trouble"), [after], () => startIn(found.zone, after, now));
  orRefused(at("cron-trouble"), [cron], () => {
    const schedule = read(cron, (text) => new Schedule(text));
    at("cron-words").textContent = `${scheduleInWords(schedule.fields)}.`;
    if (start && showDue(at("due"), at("skipped"), schedule, start, found.nameAt) === 0) {
      throw new RangeError("no date is due after that");
    }
  });
}

/** Selects all of a field where a click enters it, so that what is typed then replaces it, and a list of names is one of what is typed. */
function selectOnEntry(field) {
  let isEntered = false;
  field.addEventListener("focus", () => {
    isEntered = true;
  });
  field.addEventListener("click", () => {
    if (isEntered) {
      field.select();
    }
    isEntered = false;
  });
}

function startSchedule() {
  const fields = { cron: at("cron"), zone: at("zone"), after: at("after") };
  let now;
  const show = () => showSchedule(fields, now);
  const showFrom = (find) => () => {
    now = find();
    show();
  };
  fields.cron.addEventListener("input", show);
  fields.zone.addEventListener("input", show);
  fields.after.addEventListener("input", showFrom(() => undefined));
  at("now").addEventListener("click", showFrom(presentSecond));
  const own = ownZone();
  fields.zone.value = own;
  selectOnEntry(fields.zone);
  at("zones").replaceChildren(...NAMES.map((value) => element("option", { value })));
  at("database").textContent = DATABASE && ` ${DATABASE}`;
  chips(at("cron-examples"), fields.cron, CRON_EXAMPLES, String, show);
  chips(at("zone-examples"), fields.zone, { [own]: "", ...ZONE_EXAMPLES, [own]: "the zone of this browser" }, String, show);
  showFrom(presentSecond)();
}

function startLine() {
  const [line, answer, help] = [at("line"), at("answer"), at("line-help")];
  const show = () => {
    answer.textContent = answerOf(line.value);
    help.textContent = Object.hasOwn(EXAMPLES, line.value) ? `This asks for ${EXAMPLES[line.value]}.` : "none: no such date; error: no such command.";
  };
  chips(at("examples"), line, EXAMPLES, (it) => it.split(" ")[0], show);
  line.addEventListener("input", show);
  show();
}

function startMonth() {
  const [table, month, year] = [at("sheet"), at("month"), at("year")];
  const now = new Date();
  const today = new PlainDate(now.getFullYear(), now.getMonth() + 1, now.getDate());
  let selected = today;
  month.replaceChildren(...MONTHS.map((it, index) => element("option", { value: `${index + 1}` }, it)));
  const show = (date, isFocused = false) => {
    selected = date;
    [month.value, year.value] = [`${date.month}`, `${date.year}`];
    showMonth(table, at("names"), date, today, (it) => show(it, true));
    if (isFocused) {
      table.querySelector('[aria-selected="true"] button').focus();
    }
  };
  const go = (find, isFocused) => orRefused(at("month-trouble"), [year], () => show(read(year, find), isFocused));
  const named = () => go(() => selected.with({ year: year.value === "" ? NaN : year.value, month: month.value }));
  month.addEventListener("change", named);
  year.addEventListener("input", named);
  at("earlier").addEventListener("click", () => go(() => selected.subtract({ months: 1 })));
  at("later").addEventListener("click", () => go(() => selected.add({ months: 1 })));
  at("today").addEventListener("click", () => go(() => today));
  table.addEventListener("keydown", (event) => {
    const move = moveOfKey(event.key, selected);
    if (move && !event.ctrlKey && !event.altKey && !event.metaKey) {
      event.preventDefault();
      go(() => selected.add(move), true);
    }
  });
  show(today);
}

/** The year of a text; a RangeError if the calendar does not have it. */
const yearOfText = (text) => new PlainDate(text === "" ? NaN : text, 1, 1).year;

function startRule() {
  const [rule, start, year, sheet, words, trouble] = ["rule", "rule-start", "rule-year", "year-sheet", "rule-words", "rule-trouble"].map(at);
  const show = () => {
    sheet.replaceChildren();
    words.replaceChildren();
    orRefused(trouble, [rule, start, year], () => {
      const [from, shown] = [read(start, dateOfText), read(year, yearOfText)];
      read(rule, (text) => showYear(sheet, words, text, from, shown));
    });
  };
  [rule, start, year].forEach((it) => it.addEventListener("input", show));
  chips(at("rule-examples"), rule, RULE_EXAMPLES, String, show);
  show();
}

/** A list to choose known holidays from, which are put into a field for the years of two dates. */
function knownHolidays(select, field, years, weekend, show) {
  select.replaceChildren(...Object.entries(KNOWN).map(([value, name]) => element("option", { value }, name)));
  select.addEventListener("change", () => {
    orRefused(at("holidays-trouble"), [field], () => {
      const chosen = select.value === "" ? [] : BusinessCalendar.of(select.value, ...years(), { weekend: weekend() }).holidays;
      field.value = chosen.join(" ");
      show();
    });
  });
  field.addEventListener("input", () => {
    select.value = "";
  });
}

/** Boxes for the weekdays that are closed. */
function weekendBoxes(fieldset) {
  const boxes = LONG_WEEKDAYS.map((name, index) => {
    const box = element("input", { type: "checkbox", value: `${index + 1}`, checked: USUAL_WEEKEND.includes(index + 1), ariaLabel: name });
    fieldset.append(element("label", { className: "check" }, box, name.slice(0, 3)));
    return box;
  });
  return () => boxes.filter((it) => it.checked).map((it) => Number(it.value));
}

function startBetween() {
  const [from, to, output, holidays, open, trouble] = ["from", "to", "between", "holidays", "open", "holidays-trouble"].map(at);
  const weekend = weekendBoxes(at("weekend"));
  const show = () => {
    open.replaceChildren();
    trouble.replaceChildren();
    orRefused(output, [from, to, holidays], () => {
      const dates = [read(from, dateOfText), read(to, dateOfText)];
      showBetween(output, ...dates);
      orRefused(trouble, [holidays], () => showOpenDays(open, ...dates, weekend(), read(holidays, datesOfText)));
    });
  };
  [from, to, holidays, at("weekend")].forEach((it) => it.addEventListener("input", show));
  const years = () => [from, to].map((it) => dateOfText(it.value).year).sort((one, other) => one - other);
  knownHolidays(at("known"), holidays, years, weekend, show);
  at("swap").addEventListener("click", () => {
    [from.value, to.value] = [to.value, from.value];
    show();
  });
  show();
}

function startRow() {
  const [start, step, count] = [at("start"), at("step"), at("count")];
  const show = () => {
    at("row").replaceChildren();
    orRefused(at("row-trouble"), [start, step], () => {
      const leaves = Math.min(Math.max(Math.trunc(Number(count.value)) || 1, 1), 60);
      const shown = showRow(at("row"), read(start, dateOfText), read(step, monthsOf), leaves);
      if (shown < leaves) {
        throw new RangeError(`the calendar ends after ${shown} of these dates`);
      }
    });
  };
  [start, step, count].forEach((it) => it.addEventListener("input", show));
  show();
}

startSchedule();
startRule();
startBetween();
startMonth();
startLine();
startRow();
