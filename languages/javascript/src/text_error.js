/** Texts that are wrong, and where. */

/**
 * A text is wrong. The wrong part is from `start` on and before `end`, by places of the text as a string. Both are the same place if
 * something is missing there. `reason` says what is wrong, and the message too, with a hint behind it.
 */
export class TextError extends RangeError {
  constructor(text, start, end, reason, hint = "") {
    super(`${JSON.stringify(text)}: ${reason}${hint}`);
    this.name = "TextError";
    this.text = text;
    this.start = start;
    this.end = end;
    this.reason = reason;
  }
}
