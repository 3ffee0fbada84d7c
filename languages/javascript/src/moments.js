/** Date-times as the library has them in memory: seconds since 1970, and nanoseconds past them. */

/** The nanoseconds of a date-time that there is not. */
const NO_NANOS = 2 ** 32 - 1;

/** The first and the last second of the calendar. */
export const [FIRST_SECOND, LAST_SECOND] = [-8_334_601_228_800n, 8_210_266_876_799n];

/** How many bytes a date-time takes. */
export const MOMENT_SIZE = 16;

/** Writes a date-time or a duration into memory. */
export function setMoment(view, at, { seconds, nanos }) {
  view.setBigInt64(at, BigInt(seconds), true);
  view.setUint32(at + 8, nanos, true);
}

/** Reads a date-time or a duration from memory, with seconds as a BigInt; undefined if it is none. */
export function getMoment(view, at) {
  const nanos = view.getUint32(at + 8, true);
  return nanos === NO_NANOS ? undefined : { seconds: view.getBigInt64(at, true), nanos };
}
