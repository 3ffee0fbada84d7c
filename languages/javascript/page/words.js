/** A cron schedule in words. */

const MONTHS = [
  "January", "February", "March", "April", "May", "June", "July", "August", "September", "October", "November", "December",
];
const WEEKDAYS = ["Sunday", "Monday", "Tuesday", "Wednesday", "Thursday", "Friday", "Saturday"];

/** Weekdays are told from Monday on. */
const FROM_MONDAY = [1, 2, 3, 4, 5, 6, 0];

/** So many times of a day are listed one by one. */
const FEW_TIMES = 4;

/** Words with commas and a last `and` between them. */
export const listed = (words, last = "and") =>
  words.length > 1 ? `${words.slice(0, -1).join(", ")} ${last} ${words.at(-1)}` : (words[0] ?? "");

const two = (number) => `${number}`.padStart(2, "0");

/** 1st, 2nd, 3rd .. */
function ordinal(number) {
  const isTeen = number > 10 && number < 20;
  return `${number}${isTeen ? "th" : (["th", "st", "nd", "rd"][number % 10] ?? "th")}`;
}

/** The distance of numbers that lie evenly; undefined if they do not, or are fewer than three. */
function stepOf(numbers) {
  const step = numbers[1] - numbers[0];
  const isEven = numbers.length > 2 && numbers.every((it, index) => it === numbers[0] + index * step);
  return isEven ? step : undefined;
}

/** Numbers as ranges of three and more in a row, and single ones, with names. */
function ranges(numbers, name) {
  const found = [];
  for (let first = 0; first < numbers.length; ) {
    let last = first;
    while (numbers[last + 1] === numbers[last] + 1) {
      last += 1;
    }
    const isRange = last - first > 1;
    found.push(...(isRange ? [`${name(numbers[first])} to ${name(numbers[last])}`] : numbers.slice(first, last + 1).map(name)));
    first = last + 1;
  }
  return listed(found);
}

/** Minutes that come at even distances through an hour and on into the next; undefined if they do not. */
function everyInWords(minutes) {
  const step = stepOf(minutes);
  const isEven = step !== undefined && minutes[0] < step && minutes[0] + 60 - minutes.at(-1) === step;
  return isEven ? `every ${step === 1 ? "minute" : `${step} minutes`}` : undefined;
}

/** Times of each hour of a row: one minute of each, or minutes at even distances; undefined for others. */
function hourlyInWords(minutes, hours) {
  const every = minutes.length === 1 ? "every hour" : everyInWords(minutes);
  if (every === undefined || hours.at(-1) - hours[0] !== hours.length - 1) {
    return undefined;
  }
  if (hours.length < 24) {
    return `${every} from ${two(hours[0])}:${two(minutes[0])} to ${two(hours.at(-1))}:${two(minutes.at(-1))}`;
  }
  const from = minutes.length === 1 ? `at minute ${minutes[0]}` : `from minute ${minutes[0]} on`;
  return minutes[0] === 0 ? every : `${every} ${from}`;
}

/** The times of a day. */
function timesInWords({ minutes, hours }) {
  if (minutes.length * hours.length <= FEW_TIMES) {
    return `at ${listed(hours.flatMap((hour) => minutes.map((it) => `${two(hour)}:${two(it)}`)))}`;
  }
  const step = stepOf(hours);
  if (minutes.length === 1 && step > 1 && hours[0] < step && hours[0] + 24 - hours.at(-1) === step) {
    return `every ${step} hours from ${two(hours[0])}:${two(minutes[0])} on`;
  }
  const plural = (numbers, name) => `${name}${numbers.length > 1 ? "s" : ""} ${ranges(numbers, String)}`;
  const ofHours = hours.length === 24 ? "every hour" : plural(hours, "hour");
  return hourlyInWords(minutes, hours) ?? `${everyInWords(minutes) ?? `at ${plural(minutes, "minute")}`} of ${ofHours}`;
}

/** The days of the month, with those that depend on its length and its workdays. */
function daysInWords({ days, daysFromEnd, nearestWorkdays, hasLastWorkday }) {
  const plain = days.length ? [`the ${ranges(days, ordinal)}`] : [];
  const fromEnd = daysFromEnd.map((it) => (it === 0 ? "the last day" : `the day ${it} day${it > 1 ? "s" : ""} before the last`));
  const nearest = nearestWorkdays.map((it) => `the workday nearest to the ${ordinal(it)}`);
  return listed([...plain, ...fromEnd, ...nearest, ...(hasLastWorkday ? ["the last workday"] : [])]);
}

/** The places of weekdays in a week from Monday on. */
const placesOf = (weekdays) => FROM_MONDAY.map((it, place) => (weekdays.includes(it) ? place : -1)).filter((it) => it >= 0);

/** The weekdays that are counted in a month. */
function countedInWords({ lastWeekdays, nthWeekdays }) {
  const last = lastWeekdays.map((it) => `the last ${WEEKDAYS[it]} of the month`);
  return [...last, ...nthWeekdays.map(([weekday, nth]) => `the ${ordinal(nth)} ${WEEKDAYS[weekday]} of the month`)];
}

/** The weekdays on which it is due. */
function weekdaysInWords(fields) {
  const places = placesOf(fields.weekdays);
  const plain = places.length ? [ranges(places, (it) => `${WEEKDAYS[FROM_MONDAY[it]]}s`)] : [];
  return listed([...plain, ...countedInWords(fields)]);
}

/** The weekdays that a day of the month has to be. */
function conditionInWords(fields) {
  const plain = placesOf(fields.weekdays).map((it) => `a ${WEEKDAYS[FROM_MONDAY[it]]}`);
  return listed([...plain, ...countedInWords(fields)], "or");
}

/** The days on which it is due, in words; the empty text for every day. */
function whichDays(fields) {
  const [isAnyDay, isAnyWeekday] = [fields.days.length === 31, fields.weekdays.length === 7];
  if (fields.isEither ? isAnyDay || isAnyWeekday : isAnyDay && isAnyWeekday) {
    return "";
  }
  const days = `on ${daysInWords(fields)} of the month`;
  if (isAnyWeekday || isAnyDay) {
    return isAnyWeekday ? days : `on ${weekdaysInWords(fields)}`;
  }
  return fields.isEither ? `${days}, and on ${weekdaysInWords(fields)}` : `${days} if it is ${conditionInWords(fields)}`;
}

/** A schedule in words, by its fields: when it is due. */
export function scheduleInWords(fields) {
  const months = fields.months.length === 12 ? "" : `in ${ranges(fields.months, (it) => MONTHS[it - 1])}`;
  const times = timesInWords(fields);
  const parts = [times, whichDays(fields) || (months || times.startsWith("every") ? "" : "every day"), months].filter(Boolean);
  const sentence = parts.join(", ");
  return `${sentence[0].toUpperCase()}${sentence.slice(1)}`;
}
