/**
 * Texts of Temporal and texts of the library.
 *
 * Both write a year from 0 to 9999 by four digits. Any other has a sign, and six digits for Temporal, four or five for
 * the library. A fraction of a second has as many digits as it needs for Temporal, and three, six or nine for the
 * library.
 */

/** A date as Temporal writes and reads it, with `-` or without, and behind it what a clock shows. */
const TEXT =
  /^(?:(\d{4})|([+-])(\d{6}))(?:-(\d\d)-(\d\d)|(\d\d)(\d\d))(?:[Tt ](\d\d)(?::(\d\d)(?::(\d\d)([.,]\d{1,9})?)?|(\d\d)(?:(\d\d)([.,]\d{1,9})?)?)?)?$/;

/** The date of a text in the library's form, and its clock, undefined if it has none; undefined for a text of another form. */
function partsOf(text) {
  const found = TEXT.exec(text);
  if (!found) {
    return undefined;
  }
  const [, four, sign, six, month, day, joinedMonth, joinedDay, hour, ...clock] = found;
  const year = four ?? yearText(sign, six);
  const [minute, second, fraction] = [0, 1, 2].map((it) => clock[it] ?? clock[it + 3]);
  const date = year && `${year}-${month ?? joinedMonth}-${day ?? joinedDay}`;
  return date && { date, clock: hour && `${hour}:${minute ?? "00"}:${second ?? "00"}${fraction?.replace(",", ".") ?? ""}` };
}

/** The library's text of a year with a sign and six digits; undefined for a year 0 below 0. */
function yearText(sign, digits) {
  const year = `${Number(digits)}`.padStart(4, "0");
  if (sign === "-") {
    return Number(digits) === 0 ? undefined : `-${year}`;
  }
  return `${year.length > 4 ? "+" : ""}${year}`;
}

/** The library's text of the date-time that a text has, midnight if it has no clock; the empty text, which names nothing, for another form. */
export function dateTimeText(text) {
  const parts = partsOf(text);
  return parts ? `${parts.date}T${parts.clock ?? "00:00:00"}` : "";
}

/** The text as Temporal writes it for a text of the library. */
export function forTemporal(text) {
  // (the usual forms of a date and a date-time, which are the same)
  if ((text.length === 10 || text.length === 19) && text[4] === "-") {
    return text;
  }
  return text
    .replace(/^([+-])(\d+)/, (_, sign, digits) => sign + digits.padStart(6, "0"))
    .replace(/\.\d+$/, (fraction) => fraction.replace(/0+$/, ""));
}
