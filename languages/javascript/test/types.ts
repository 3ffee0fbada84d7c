import {
  BusinessCalendar, columns, dayCount, daysUntil, Duration, easter, Instant, isLeapYear, Pattern, PlainDate, PlainDateTime, Rule, RuleSet, Schedule,
  TextError, Zone, ZonedDateTime,
} from "proved-calendar";

const due: PlainDate = new PlainDate(2024, 2, 29).add({ years: 1 }, { overflow: "constrain" });
const weeks: number = due.until("2026-01-01", { largestUnit: "weeks" }).weeks;
const later: PlainDateTime = PlainDateTime.from("2016-12-31T23:59:60.5").add(Duration.from("PT1S"));
const order: -1 | 0 | 1 = PlainDate.compare(later, { year: 2024, month: 2, day: 29 });
const days: number | undefined = daysUntil(due.dayOfWeek, 1, 5);
const rounded: Duration = Duration.from("PT90M").round({ largestUnit: "hour", smallestUnit: "minutes", roundingMode: "halfEven" });
const hours: number = rounded.total("hour") + later.round({ smallestUnit: "hour" }).hour;
const isLeap: boolean = isLeapYear(weeks) || order === 0 || days === undefined;
export const text: string = `${isLeap} ${hours} ${due.toLocaleString("en-US", { dateStyle: "long" })} ${due.toPlainDateTime({ hour: 12 })} ${due.firstOn(1).dayNumber}`;
const next: PlainDateTime | undefined = Schedule.from("30 4 1,15 * fri").nextAfter(later);
const third: PlainDateTime[] = [...new Schedule("@daily").iterate(due, { until: "2025-03-03" })];
const calendar = new BusinessCalendar({ weekend: [7], holidays: [due, "2024-12-25"] });
const part: { numerator: number; denominator: number } = dayCount("thirty360", due, calendar.roll(due, "modifiedFollowing"));
const known: PlainDate[] = [easter(2024), ...BusinessCalendar.of("target", 2024, 2025, { weekend: [] }).holidays];
const place = (wrong: TextError): [number, number, string] => [wrong.start, wrong.end, wrong.reason];
const seconds: Duration = Instant.from("2024-02-29T12:00Z").until(new Instant(0n), { largestUnit: "hours" });
const ruleDays: PlainDate[] = [...new Rule("FREQ=DAILY;COUNT=3", due)];
const patterns: [string, PlainDate, PlainDateTime] = [new Pattern("%F").format(due), new Pattern("%F").parseDate("2024-02-29"), new Pattern("%s").parseDateTime("0")];
const set: PlainDate | undefined = new RuleSet({ rules: [new Rule("FREQ=DAILY", due)], exceptDates: ["2024-03-01"] }).nextAfter(due);
const column: Int32Array = columns.addMonths(columns.fromTexts(["2024-01-31", null]), 1);
const told: [Uint8Array, string[], number] = [columns.fields(column).months, columns.texts(column), columns.NO_DATE];
const open: Int32Array = columns.openDaysBetween(columns.roll(column, "following", calendar), due, calendar);
export const more = [set, told, open, patterns, ruleDays, known, next, third, seconds, part, place, calendar.add(due, 2).dayNumber];
const timeZone = new Zone("CET-1CEST,M3.5.0,M10.5.0/3", "Europe/Berlin");
const nightly: ZonedDateTime | undefined = new Schedule("30 2 * * *").nextInZone(ZonedDateTime.from(due, { timeZone, disambiguation: "later" }));
export const written: [string, number[]] = [new Rule("FREQ=DAILY", due).toJSON().start, calendar.toJSON().weekend];
export const zoned = [nightly?.with({ hour: 3 }).offset, ZonedDateTime.from({ year: 2024, month: 2, day: 29, timeZone }).hoursInDay];
