/** The one calendar, ISO 8601's, and the annotations of texts that name it (RFC 9557). */

import { optionsOf } from "./numbers.js";

/** The name of the calendar. */
export const ISO8601 = "iso8601";

/** The annotation behind a text, of which a `!` says that a reader must know the calendar. */
const ANNOTATION = /\[!?u-ca=([^\]]*)\]$/;

/** What `calendarName` asks for. */
const ANNOTATIONS = { auto: "", never: "", always: `[u-ca=${ISO8601}]`, critical: `[!u-ca=${ISO8601}]` };

/** Refuses a calendar other than ISO 8601's by a RangeError. The name's case does not count. */
export function refuseOther(name) {
  if (`${name}`.toLowerCase() !== ISO8601) {
    throw new RangeError(`calendar ${name}: it is ${ISO8601}`);
  }
}

/** Refuses what a constructor is given as its calendar, unless it is `iso8601` or nothing. */
export function refuseArgument(calendar) {
  if (calendar === undefined) {
    return;
  }
  if (typeof calendar !== "string") {
    throw new TypeError(`calendar ${String(calendar)}: it is a text`);
  }
  refuseOther(calendar);
}

/** A text without the annotation of its calendar; RangeError if that is another calendar. */
export function withoutAnnotation(text) {
  const found = ANNOTATION.exec(text);
  if (found) {
    refuseOther(found[1]);
  }
  return found ? text.slice(0, found.index) : text;
}

/**
 * The name of a zone in the brackets behind a text; undefined if there is none. RangeError for a second name, for a critical annotation that
 * is not known, and, if the calendar counts, for another one.
 */
export function zoneInBrackets(text, brackets, readsCalendar) {
  const all = brackets === "" ? [] : brackets.slice(1, -1).split("][");
  const name = all[0]?.includes("=") === false ? all.shift() : undefined;
  for (const it of all) {
    const [key, value] = it.replace(/^!/, "").split("=");
    const isKnown = key === "u-ca" ? !readsCalendar || value.toLowerCase() === ISO8601 : !it.startsWith("!");
    if (value === undefined || !isKnown) {
      throw new RangeError(`${JSON.stringify(text)}: [${it}] is not known`);
    }
  }
  return name?.replace(/^!/, "");
}

/** The annotation that options ask for by `calendarName`: none, unless it is "always" or "critical". */
export function annotation(options) {
  const { calendarName = "auto" } = optionsOf(options);
  const asked = `${calendarName}`;
  if (!Object.hasOwn(ANNOTATIONS, asked)) {
    throw new RangeError(`calendarName ${asked}: it is one of ${Object.keys(ANNOTATIONS).join(", ")}`);
  }
  return ANNOTATIONS[asked];
}
