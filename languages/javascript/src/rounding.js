/** Rounding, with the names and meanings of Temporal. */

/** The nanoseconds of a day and of each shorter unit. */
export const NANOSECONDS = {
  day: 86_400_000_000_000, hour: 3_600_000_000_000, minute: 60_000_000_000, second: 1_000_000_000, millisecond: 1_000_000, microsecond: 1_000,
  nanosecond: 1,
};

/** How many of each make the next longer one. */
const OF_NEXT = { hour: 24, minute: 60, second: 60, millisecond: 1_000, microsecond: 1_000, nanosecond: 1_000 };

/** How a quotient is rounded whose size is `floor` and a rest: whether up to the next size. */
const MODES = {
  ceil: ({ isBelow }) => !isBelow,
  floor: ({ isBelow }) => isBelow,
  expand: () => true,
  trunc: () => false,
  halfCeil: ({ side, isBelow }) => side > 0 || (side === 0 && !isBelow),
  halfFloor: ({ side, isBelow }) => side > 0 || (side === 0 && isBelow),
  halfExpand: ({ side }) => side >= 0,
  halfTrunc: ({ side }) => side > 0,
  halfEven: ({ side, isOdd }) => side > 0 || (side === 0 && isOdd),
};

/** The singular of a unit that an option names; RangeError unless it is one of the units. */
export function unitOf(value, option, units) {
  const unit = `${value}`.replace(/s$/, "");
  if (!units.includes(unit)) {
    throw new RangeError(`${option} ${value}: it is one of ${units.join(", ")}`);
  }
  return unit;
}

/** The mode that options ask for. */
export function modeOf({ roundingMode }, usual) {
  const mode = roundingMode === undefined ? usual : `${roundingMode}`;
  if (!Object.hasOwn(MODES, mode)) {
    throw new RangeError(`roundingMode ${mode}: it is one of ${Object.keys(MODES).join(", ")}`);
  }
  return mode;
}

/** The increment that options ask for: a divisor of the next longer unit, smaller than it. Days have any increment if they are alone. */
export function incrementOf({ roundingIncrement = 1 }, unit, isAlone) {
  const increment = Math.trunc(+roundingIncrement);
  if (!(increment >= 1 && increment <= 1_000_000_000)) {
    throw new RangeError(`roundingIncrement ${roundingIncrement}: it lies from 1 to 1,000,000,000`);
  }
  const next = OF_NEXT[unit];
  if (next === undefined ? increment > 1 && !isAlone : increment >= next || next % increment !== 0) {
    throw new RangeError(`roundingIncrement ${increment}: it does not divide what comes next to the unit ${unit}`);
  }
  return increment;
}

/** The multiple of a length to which a number is rounded; both are BigInts, the length above 0. */
export function rounded(number, length, mode) {
  const isBelow = number < 0n;
  const size = isBelow ? -number : number;
  const [count, rest] = [size / length, size % length];
  if (rest === 0n) {
    return number;
  }
  const side = Number(2n * rest > length) - Number(2n * rest < length);
  const isUp = MODES[mode]({ side, isBelow, isOdd: count % 2n === 1n });
  const multiple = (count + (isUp ? 1n : 0n)) * length;
  return isBelow ? -multiple : multiple;
}

/** How many of a length make the multiple to which a number is rounded; both are whole Numbers, none below 0, the length above 0. */
export function roundedCount(number, length, mode) {
  const count = Math.floor(number / length);
  const rest = number - count * length;
  const isUp = rest > 0 && MODES[mode]({ side: Math.sign(2 * rest - length), isBelow: false, isOdd: count % 2 === 1 });
  return isUp ? count + 1 : count;
}
