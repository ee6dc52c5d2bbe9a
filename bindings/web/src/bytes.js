// Bytes that are written or read one after another, as lib/lobby/cursor.h has them. Numbers have their highest byte first.

/** Bytes of several parts, one after another. */
export function joined(...parts) {
  const all = new Uint8Array(parts.reduce((sum, it) => sum + it.length, 0));
  let at = 0;
  for (const part of parts) {
    all.set(part, at);
    at += part.length;
  }
  return all;
}

/** The bytes of a text. */
export const textBytes = (text) => new TextEncoder().encode(text);

/** Digits, two for each byte. */
export const hex = (bytes) => Array.from(bytes, (it) => it.toString(16).padStart(2, "0")).join("");

/** The bytes of such digits; null if they are none. */
export function unhex(text) {
  if (!/^([0-9a-f]{2})*$/.test(text)) return null;
  return Uint8Array.from(text.match(/../g) ?? [], (it) => parseInt(it, 16));
}

export const isSame = (one, other) => one.length === other.length && one.every((it, at) => it === other[at]);

/** So many random bytes. */
export const drawn = (count) => crypto.getRandomValues(new Uint8Array(count));

export class Writer {
  parts = [];

  put(...parts) {
    this.parts.push(...parts);
    return this;
  }

  /** A number of so many bytes; one of eight is a BigInt. */
  number(value, size) {
    return this.put(bytesOf(BigInt(value), size));
  }

  /** A text with its length before it. */
  text(text) {
    const bytes = textBytes(text);
    return this.number(bytes.length, 1).put(bytes);
  }

  get bytes() {
    return joined(...this.parts);
  }
}

/** Throws if there is less than is read. */
export class Reader {
  constructor(bytes) {
    Object.assign(this, { bytes, at: 0 });
  }

  get left() {
    return this.bytes.length - this.at;
  }

  take(count) {
    if (count > this.left) throw new RangeError("a message is too short");
    this.at += count;
    return this.bytes.slice(this.at - count, this.at);
  }

  number(size) {
    return Number(this.big(size));
  }

  big(size) {
    return numberOf(this.take(size));
  }

  /** A text of less than so many bytes. */
  text(room) {
    const length = this.number(1);
    if (length >= room) throw new RangeError("a text is too long");
    return new TextDecoder().decode(this.take(length));
  }
}

/** A number as so many bytes. */
export function bytesOf(value, size) {
  return unhex(BigInt.asUintN(8 * size, value).toString(16).padStart(2 * size, "0"));
}

export function numberOf(bytes) {
  return BigInt(`0x0${hex(bytes)}`);
}
