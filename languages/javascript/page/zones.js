/** The time zones of the page, by their names, and those of typed rules. */

import { TextError, Zone } from "../src/index.js";
import { DATABASE, ZONES } from "./zone_texts.js";

export { DATABASE };

/** The data of each zone, by its name in small letters. */
const KNOWN = new Map();
for (const line of ZONES.split("\n")) {
  const [names, rule, kinds, changes] = line.split("|");
  names.split(" ").forEach((name) => KNOWN.set(name.toLowerCase(), { name, rule, kinds, changes }));
}

/** The names of places, and UTC: those of other kinds, such as `US/Pacific` and `Etc/GMT+5`, are known too, but not offered. */
const OFFERED = /^(?:Africa|America|Antarctica|Arctic|Asia|Atlantic|Australia|Europe|Indian|Pacific)\/|^UTC$/;
export const NAMES = Array.from(KNOWN.values(), (it) => it.name).filter((it) => OFFERED.test(it)).sort();

/** Whether a name is that of a zone. */
export const isZone = (name) => KNOWN.has(name.toLowerCase());

/** So many names are told where a text is close to some. */
const TOLD = 3;

/** The names and the first offset of a rule: `CET`, `-1` and `CEST` of `CET-1CEST,M3.5.0,M10.5.0/3`. */
const RULE = /^(<[^>]*>|[A-Za-z]+)([-+]?)(\d+)(?::(\d+))?(?::(\d+))?(<[^>]*>|[A-Za-z]+)?/;

/** The seconds of a distance between changes: minutes in base 36, or seconds behind a point. */
const secondsOf = (text) => (text.startsWith(".") ? parseInt(text.slice(1), 36) : 60 * parseInt(text, 36));

/** The kinds of local time of a zone, each with its name, and the changes, each with its second and the place of the kind that it leads to. */
function partsOf({ kinds, changes }) {
  const [places, ...times] = changes.split(" ");
  let second = 0;
  return {
    kinds: kinds.split(" ").map((it) => ({ name: it.split(",")[0], offset: Number(it.split(",")[1]) })),
    changes: times.map((it, index) => ({ second: (second += secondsOf(it)), place: parseInt(places[index], 36) })),
  };
}

const ascii = (text) => Array.from(text, (it) => it.charCodeAt(0));

/** The bytes of a number, the highest first. */
const bytesOf = (number, count) => Array.from({ length: count }, (_, at) => Math.floor(number / 256 ** (count - 1 - at)) & 255);

/** What a block of a TZif file begins with. */
const headOf = (...counts) => [...ascii("TZif2"), ...Array(15).fill(0), ...counts.flatMap((it) => bytesOf(it, 4))];

/** The TZif file of a zone, whose first block, for readers of 32 bits, holds nothing. */
function fileOf(rule, { kinds, changes }) {
  const names = [...new Set(kinds.map((it) => `${it.name}\0`))].join("");
  return Uint8Array.from([
    ...headOf(0, 0, 0, 0, 1, 1),
    ...Array(7).fill(0),
    ...headOf(0, 0, 0, changes.length, kinds.length, names.length),
    ...changes.flatMap((it) => bytesOf(it.second, 8)),
    ...changes.map((it) => it.place),
    ...kinds.flatMap((it) => [...bytesOf(it.offset, 4), 0, names.indexOf(`${it.name}\0`)]),
    ...ascii(`${names}\n${rule}\n`),
  ]);
}

/** What the clock's time is called by a rule, at an offset in seconds. */
function nameByRule(rule, offset) {
  const [, standard, sign, hours, minutes = 0, seconds = 0, daylight = standard] = RULE.exec(rule);
  // (a rule counts to the west)
  const west = 3_600 * hours + 60 * minutes + 1 * seconds;
  return (offset === (sign === "-" ? west : -west) ? standard : daylight).replace(/[<>]/g, "");
}

/** The zone of a name, and what its time is called at a second since 1970. */
function namedZone({ name, rule, ...texts }) {
  const parts = partsOf(texts);
  const { kinds, changes } = parts;
  const zone = new Zone(fileOf(rule, parts), name);
  const nameAt = (second) => {
    const next = changes.findIndex((it) => it.second > second);
    if (next < 0) {
      return nameByRule(rule, zone.offsetAt(BigInt(second)));
    }
    return kinds[next === 0 ? 0 : changes[next - 1].place].name;
  };
  return { zone, nameAt };
}

/** Whether a text is rather the name of a zone than a rule. */
const isLikeName = (text) => !/[,<]/.test(text) && (text.includes("/") || !/\d/.test(text));

/** The words of a name in small letters, each with a blank in front. */
const wordsOf = (text) => ` ${text.toLowerCase().split(/[/_\s]+/).join(" ")}`;

/** Says that no zone has a name: which part is wrong, and which names have words that begin as its last part. */
function refuseName(text) {
  const start = text.lastIndexOf("/") + 1;
  const isArea = [...KNOWN.keys()].some((it) => it.startsWith(text.slice(0, start).toLowerCase()));
  const part = text.slice(start);
  const near = part ? NAMES.filter((it) => wordsOf(it).includes(wordsOf(part))).slice(0, TOLD) : [];
  const hint = near.length > 0 ? `; there is ${near.join(", ")}` : "";
  throw new TextError(text, isArea ? start : 0, text.length, `no zone has this name${hint}`);
}

/** The zone that a text names, or whose rule it is, and what its time is called at a second; a TextError that says what is wrong, and where. */
export function zoneOf(text) {
  const trimmed = text.trim();
  const known = KNOWN.get(trimmed.toLowerCase());
  if (known) {
    return namedZone(known);
  }
  if (trimmed === "") {
    throw new TextError(text, 0, text.length, "a zone is missing");
  }
  if (isLikeName(trimmed)) {
    refuseName(trimmed);
  }
  const zone = new Zone(trimmed);
  return { zone, nameAt: (second) => nameByRule(trimmed, zone.offsetAt(BigInt(second))) };
}
