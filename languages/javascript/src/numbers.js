/** Whole numbers, as the functions of the library take them. */

/**
 * The whole number that a value stands for, cut toward zero as Temporal's constructors cut it.
 *
 * The part of the name (`year`, `hour` ..) stands in the RangeError that a value with no whole number throws.
 */
export function integer(value, part) {
  const number = Math.trunc(+value);
  if (!Number.isFinite(number)) {
    throw new RangeError(`${part} ${value}: no whole number`);
  }
  return number + 0;
}

/** The whole number that a value stands for; RangeError if it stands for none, or for a fraction. */
export function whole(value, part) {
  const number = +value;
  if (!Number.isInteger(number)) {
    throw new RangeError(`${part} ${value}: no whole number`);
  }
  return number + 0;
}

/** The whole number that a value stands for; RangeError unless it lies between the two ends, which both count. */
export function between(value, part, least, most) {
  const number = integer(value, part);
  if (number < least || number > most) {
    throw new RangeError(`${part} ${number}: it lies from ${least} to ${most}`);
  }
  return number;
}

/** Whether a whole number fits 32 bits with a sign. A function of WebAssembly would cut it to them. */
export const isInt32 = (number) => number === (number | 0);

/** Whether a whole number fits 32 bits without a sign. */
export const isUint32 = (number) => number === number >>> 0;

/** The nearest whole number that lies between the two ends. */
export const clipped = (number, least, most) => Math.min(Math.max(number, least), most);

/** What becomes of parts of a name that lie too high: "constrain", which clips them, or "reject". */
export function overflowOf(options) {
  const overflow = optionsOf(options).overflow ?? "constrain";
  if (overflow !== "constrain" && overflow !== "reject") {
    throw new RangeError(`overflow ${overflow}: it is "constrain" or "reject"`);
  }
  return overflow;
}

/** The options of a call: an object, or none. */
export function optionsOf(options) {
  if (options === undefined) {
    return {};
  }
  if (options === null || (typeof options !== "object" && typeof options !== "function")) {
    throw new TypeError(`${String(options)}: options are an object`);
  }
  return options;
}

/** The values of a list, or of anything else that gives its values in order; a TypeError for another value, and for a text. */
export function listOf(list, what) {
  if (typeof list === "string" || typeof list?.[Symbol.iterator] !== "function") {
    throw new TypeError(`${what}: a list is wanted`);
  }
  return [...list];
}

/** The choice of an option, which is the first one if it is left out; RangeError if it is none. */
export function choiceOf(options, name, choices) {
  const choice = `${optionsOf(options)[name] ?? choices[0]}`;
  if (!choices.includes(choice)) {
    throw new RangeError(`${name} ${choice}: it is one of ${choices.join(", ")}`);
  }
  return choice;
}

/** Refuses options that round, which nothing here does. */
export function refuseRounding(options, what) {
  const given = optionsOf(options);
  for (const name of ["smallestUnit", "roundingIncrement", "roundingMode", "fractionalSecondDigits"]) {
    if (given[name] !== undefined && !(name === "fractionalSecondDigits" && given[name] === "auto")) {
      throw new RangeError(`${name}: ${what} are not rounded here`);
    }
  }
}

/** The unit of an option `largestUnit`, in the singular; RangeError unless it is one of the units. */
export function largestUnitOf(options, units, usual) {
  refuseRounding(options, "differences");
  const { largestUnit = "auto" } = optionsOf(options);
  if (`${largestUnit}` === "auto") {
    return usual;
  }
  const unit = `${largestUnit}`.replace(/s$/, "");
  if (!units.includes(unit)) {
    throw new RangeError(`largestUnit ${largestUnit}: it is one of ${units.join(", ")}`);
  }
  return unit;
}
