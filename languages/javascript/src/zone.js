/** Time zones. */

import { isDetached } from "./column_room.js";
import { checkZone, LONGEST_ZONE, nextInZone, previousInZone, zoneHoldsUntil, zoneOffsetAt, zoneOffsetsOfLocal } from "./layers.js";

/** What a name of a zone is, so that a text of an instant can end with it. */
const NAME = /^[A-Za-z0-9_+-]+(?:\/[A-Za-z0-9_+-]+)*$/;

/** A text that looks like the name of a zone and like no rule, and what is told of it: names are not looked up. */
const LIKE_A_NAME = /^[A-Za-z_]+(?:\/[A-Za-z0-9_+-]+)*$/;
const HINT = "; for the zone of a name, read its file: new Zone(readFileSync(`/usr/share/zoneinfo/${name}`), name)";

/** The last second of 64 bits. */
const NEVER = 2n ** 63n - 1n;

/** A second since 1970, which is a BigInt of 64 bits. */
function secondOf(value) {
  if (typeof value !== "bigint") {
    throw new TypeError(`${value}: a second is a BigInt`);
  }
  if (BigInt.asIntN(64, value) !== value) {
    throw new RangeError(`${value}: a second has at most 64 bits`);
  }
  return value;
}

/** The bytes of what a zone is made of: the text of a rule, or a file. */
function bytesOf(source) {
  if (typeof source === "string") {
    return new TextEncoder().encode(source);
  }
  if (source instanceof ArrayBuffer || ArrayBuffer.isView(source)) {
    const { buffer = source, byteOffset = 0, byteLength } = source;
    if (isDetached({ length: 0, buffer })) {
      throw new TypeError("the memory of the bytes was given away");
    }
    return new Uint8Array(buffer, byteOffset, byteLength).slice();
  }
  throw new TypeError("a zone is made of the text of a rule, or of the bytes of a TZif file");
}

/** The bytes of a zone, which no one else gets. */
export let bytesOfZone;

/**
 * A time zone: the text of a POSIX rule, such as `CET-1CEST,M3.5.0,M10.5.0/3`, or the bytes of a TZif file, such as those of
 * `/usr/share/zoneinfo/Europe/Berlin`.
 */
export class Zone {
  #bytes;
  #rule;
  #name;
  #held = { from: 0n, until: 0n, offset: 0 };

  static {
    bytesOfZone = (zone) => zone.#bytes;
  }

  /** A TextError says what is wrong with the text or with the bytes. The name of the zone, such as `Europe/Berlin`, is shown in texts. */
  constructor(source, name) {
    this.#bytes = bytesOf(source);
    this.#rule = typeof source === "string" ? source : undefined;
    this.#name = name === undefined ? undefined : `${name}`;
    if (this.#name !== undefined && !NAME.test(this.#name)) {
      throw new RangeError(`${JSON.stringify(this.#name)}: no zone has such a name`);
    }
    const shown = this.#rule ?? this.#name ?? "the bytes of a zone";
    if (this.#bytes.length > LONGEST_ZONE) {
      throw new RangeError(`${shown}: longer than ${LONGEST_ZONE.toLocaleString("en")} bytes`);
    }
    checkZone(this.#bytes, shown, this.#rule !== undefined, LIKE_A_NAME.test(this.#rule ?? "") ? HINT : "");
  }

  /** The zone of a text, or of a zone. */
  static from(item) {
    if (item instanceof Zone) {
      return item;
    }
    if (typeof item !== "string") {
      throw new TypeError("a zone is made of a text");
    }
    return new Zone(item);
  }

  /** The name that it was given; undefined if none. */
  get name() {
    return this.#name;
  }

  /** How many seconds the clock is ahead of UTC at a second since 1970, a BigInt. */
  offsetAt(second) {
    // (an offset that was found holds for a while)
    const { from, until, offset } = this.#held;
    if (from <= second && second < until && typeof second === "bigint") {
      return offset;
    }
    const found = zoneOffsetAt(this.#bytes, secondOf(second));
    this.#held = { from: second, until: zoneHoldsUntil(this.#bytes, second), offset: found };
    return found;
  }

  /** The offsets at the instants at which the clock shows a local second, counted from 1970 as if the clock were one in UTC: 0, 1 or 2. */
  offsetsOfLocal(local) {
    return zoneOffsetsOfLocal(this.#bytes, secondOf(local));
  }

  /** The next second after another, a BigInt, at which the offset changes; undefined if there is none. */
  nextChange(second) {
    const before = zoneOffsetAt(this.#bytes, secondOf(second));
    let at = zoneHoldsUntil(this.#bytes, second);
    // (a file can have changes to the same offset; a rule changes within a year, or never)
    for (let tries = 0; at < NEVER && tries < 600; tries += 1) {
      if (zoneOffsetAt(this.#bytes, at) !== before) {
        return at;
      }
      at = zoneHoldsUntil(this.#bytes, at);
    }
    return undefined;
  }

  /** The first moment of UTC after another at which the bytes of a schedule fire. */
  nextDue(schedule, start) {
    return nextInZone(schedule, this.#bytes, start);
  }

  /** The last moment of UTC before another at which they fire. */
  previousDue(schedule, start) {
    return previousInZone(schedule, this.#bytes, start);
  }

  /** Whether it has the same bytes and the same name. */
  equals(other) {
    const theirs = Zone.from(other);
    return (
      this.#name === theirs.#name &&
      this.#bytes.length === theirs.#bytes.length &&
      this.#bytes.every((it, index) => it === theirs.#bytes[index])
    );
  }

  /** The name, or the text of the rule, or `a TZif file`. */
  toString() {
    return this.#name ?? this.#rule ?? "a TZif file";
  }

  toJSON() {
    return this.toString();
  }

  get [Symbol.toStringTag]() {
    return "Zone";
  }

  [Symbol.for("nodejs.util.inspect.custom")]() {
    return `Zone ${this}`;
  }
}
