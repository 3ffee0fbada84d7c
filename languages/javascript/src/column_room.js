/**
 * Columns in the memory of a module of WebAssembly, which answers for them piece by piece.
 *
 * A module reads and writes its own memory alone. So each piece of a column is copied there, and each answer back.
 */

/** So many elements of each column lie in the room at once. */
const PIECE = 16_384;

/** A text has so many bytes. */
export const TEXT = 10;

/** A page of memory. */
const PAGE = 65_536;

/** The pages of a column in the room: it has place for as many texts. */
const PAGES = Math.ceil((TEXT * PIECE) / PAGE);

/** The pages of the room: a function takes at most four columns. */
export const ROOM_PAGES = 4 * PAGES;

/** Whether the memory of an array was given to another, as `structuredClone` can. It then has no elements. */
export function isDetached({ length, buffer }) {
  try {
    return length === 0 && new Uint8Array(buffer) === undefined;
  } catch {
    return true;
  }
}

/** What columns are made of. */
const KINDS = [Int32Array, Uint8Array, Uint16Array, BigInt64Array];

/** The kind of an array, also of one of a kind of its own, such as node's Buffer. */
const kindOf = (array) => KINDS.find((it) => array instanceof it);

/** A column that a function reads: a typed array, of which `width` numbers are an element. */
class Read {
  constructor(array, width) {
    this.kind = kindOf(array);
    this.array = array;
    this.width = width;
  }

  put(view, place) {
    view.set(this.array.subarray(place, place + view.length));
  }

  take() {}
}

/** A column that has the same number in each place. */
class Same {
  constructor(number) {
    this.kind = Int32Array;
    this.number = number;
    this.width = 1;
  }

  put(view) {
    view.fill(this.number);
  }

  take() {}
}

/** A column that a function writes. */
class Written {
  constructor(array, width) {
    this.kind = kindOf(array);
    this.array = array;
    this.width = width;
  }

  put() {}

  take(view, place) {
    this.array.set(view, place);
  }
}

export const readFrom = (array, width = 1) => new Read(array, width);
export const same = (number) => new Same(number);
export const writtenTo = (array, width = 1) => new Written(array, width);

/**
 * Calls a function for each piece of columns of so many elements. Its arguments are columns and what is the same for each piece. The
 * room begins at a byte of the memory.
 */
export function callInPieces({ memory, start }, count, call, ...given) {
  for (let first = 0; first < count; first += PIECE) {
    const size = Math.min(PIECE, count - first);
    const pieces = [];
    const taken = given.flatMap((it) => {
      if (it.kind === undefined) {
        return [it];
      }
      const at = start + PAGES * PAGE * pieces.length;
      const view = new it.kind(memory.buffer, at, size * it.width);
      it.put(view, first * it.width);
      pieces.push([it, view]);
      return [BigInt(at), BigInt(size)];
    });
    call(...taken);
    for (const [it, view] of pieces) {
      it.take(view, first * it.width);
    }
  }
}
