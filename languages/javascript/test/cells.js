/** An example of each layer in JavaScript. What stands behind `=` is what its line prints. checks/packages/cells.py looks for these parts. */

import {
  BusinessCalendar,
  CalendarText,
  columns,
  dayCount,
  easter,
  Pattern,
  PlainDate,
  Rule,
  RuleSet,
  Schedule,
  TimedSchedule,
  Zone,
  ZonedDateTime,
} from "proved-calendar";

// == texts read
console.log(PlainDate.from("2024-02-29").dayOfWeek); // = 4

// == patterns
console.log(new Pattern("%d.%m.%Y").format(new PlainDate(2024, 2, 29))); // = 29.02.2024

// == schedules
console.log(`${new Schedule("30 4 1,15 * fri").nextAfter("2024-02-09T04:30")}`); // = 2024-02-15T04:30:00

// == schedules in a zone
const berlin = new Zone("CET-1CEST,M3.5.0,M10.5.0/3");
const firings = new Schedule("30 2 * * *").iterateInZone(ZonedDateTime.from("2024-03-30T00:00", { timeZone: berlin }));
console.log(`${firings.next().value} ${firings.next().value}`); // = 2024-03-30T02:30:00+01:00 2024-03-31T03:00:00+02:00
console.log(`${new Schedule("30 2 * * *").nextInZone(ZonedDateTime.from("2024-10-27T00:00", { timeZone: berlin }))}`); // = 2024-10-27T02:30:00+02:00

// == schedules with seconds
console.log(`${new TimedSchedule("*/15 30 4 * * *").nextAfter("2024-02-09T04:30:15")}`); // = 2024-02-09T04:30:30

// == recurrence rules
const fridays = new Rule("FREQ=MONTHLY;BYDAY=-1FR", "2024-01-01");
console.log(`${fridays.nextAfter("2024-01-01")}`); // = 2024-01-26
const set = new RuleSet({ rules: [fridays], dates: ["2024-02-01"], exceptDates: ["2024-01-26"] });
console.log([...set.iterate({ until: "2024-02-29" })].join(" ")); // = 2024-02-01 2024-02-23

// == rules and calendars in a zone
const daily = new CalendarText("DTSTART;TZID=Europe/Berlin:20240330T023000\nRRULE:FREQ=DAILY\n", berlin);
const instants = daily.iterate(ZonedDateTime.from("2024-03-30T00:00", { timeZone: berlin }));
console.log(`${instants.next().value} ${instants.next().value}`); // = 2024-03-30T02:30:00+01:00 2024-03-31T03:30:00+02:00

// == open days
console.log(`${new BusinessCalendar({ holidays: ["2024-03-29", "2024-04-01"] }).add("2024-03-28", 2)}`); // = 2024-04-03

// == holidays
console.log(`${BusinessCalendar.of("target", 2024, 2024).holidays[1]}`); // = 2024-03-29

// == Easter
console.log(`${easter(2024)}`); // = 2024-03-31

// == day counts
console.log(dayCount("actual360", "2024-01-31", "2024-03-01")); // = { numerator: 30, denominator: 360 }

// == columns
const dates = columns.fromTexts(["2024-01-31", "2024-02-30"]);
console.log(columns.texts(columns.addMonths(dates, 1))); // = [ '2024-02-29', '' ]

// == zones
const timeZone = new Zone("CET-1CEST,M3.5.0,M10.5.0/3", "Europe/Berlin");
console.log(`${ZonedDateTime.from("2024-03-31T02:30", { timeZone })}`); // = 2024-03-31T03:30:00+02:00[Europe/Berlin]
