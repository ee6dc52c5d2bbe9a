// What machines of a lobby know, as lib/lobby/keys.h has it: codes, rooms, and what two of them have alone.
import { NONCE, blake2b, open, openBox, seal } from "./crypt.js";
import { drawn, hex, isSame, joined, textBytes } from "./bytes.js";

export const KEY = 32;
export const PROOF = 64;
export const INBOX = 32; // the key of a user (pass.js)
const SIGNS = "0123456789ABCDEFGHJKMNPQRSTVWXYZ";
const CODE_BYTES = 16;
const CODE_SIGNS = 28;
const PLATE = 3;
const SECRET = 4;
const SLIP = 12; // bits by which a slip of the pen is known

/** What follows from some bytes; `what` says which of it. */
const follow = (what, bytes, length) => blake2b(joined(textBytes(`${what}\0`), bytes), length);

// ---- Codes

export const codeOf = (host) => follow("fazgrond code 1", host, CODE_BYTES);

/** A code's number, with the bits behind it that follow from it. */
function completed(code) {
  const [first, second] = follow("fazgrond slip 1", code, CODE_BYTES);
  return (BigInt(`0x${hex(code)}`) << BigInt(SLIP)) | BigInt((first << 4) | (second >> 4));
}

export function writeCode(code) {
  const number = completed(code);
  const signs = Array.from({ length: CODE_SIGNS }, (_, at) => SIGNS[Number((number >> BigInt(5 * (CODE_SIGNS - 1 - at))) & 31n)]);
  return signs.join("").match(/.{7}/g).join("-");
}

/** The signs of a text, in capitals, and for those that look alike; null if something else is in it. */
function signsOf(text) {
  const plain = text.toUpperCase().replace(/[\s-]/g, "").replace(/O/g, "0").replace(/[IL]/g, "1");
  return Array.from(plain).every((it) => SIGNS.includes(it)) ? plain : null;
}

/** What a text says: `{ code }`, or `{ plate, secret }` of a short one; null if it is no code. */
export function readCode(text) {
  const signs = signsOf(text);
  if (signs?.length === PLATE + SECRET) return { plate: signs.slice(0, PLATE), secret: signs.slice(PLATE) };
  if (signs?.length !== CODE_SIGNS) return null;
  const number = Array.from(signs).reduce((all, it) => (all << 5n) | BigInt(SIGNS.indexOf(it)), 0n);
  const digits = (number >> BigInt(SLIP)).toString(16).padStart(2 * CODE_BYTES, "0");
  const code = Uint8Array.from(digits.match(/../g), (it) => parseInt(it, 16));
  return completed(code) === number ? { code } : null;
}

export const writeShort = (plate, secret) => `${plate}-${secret}`;
export const drawShort = () => Array.from(drawn(SECRET), (it) => SIGNS[it & 31]).join("");

// ---- Rooms: what all know who have a code

export function roomOf(code) {
  return { name: hex(follow("fazgrond room 1", code, CODE_BYTES)), key: follow("fazgrond room key 1", code, KEY) };
}

function sealed(key, bytes, more) {
  const nonce = drawn(NONCE);
  return joined(nonce, seal(key, nonce, bytes, more));
}

function opened(key, bytes, more) {
  return bytes.length < NONCE ? null : open(key, bytes.subarray(0, NONCE), bytes.subarray(NONCE), more);
}

/** Seals for all who have a room's key. The kind is sealed with it. */
export const sealForAll = (room, kind, bytes) => sealed(room.key, bytes, Uint8Array.of(kind));
export const openForAll = (room, kind, bytes) => opened(room.key, bytes, Uint8Array.of(kind));

// ---- Keys of X25519

export async function drawKeys() {
  const pair = await crypto.subtle.generateKey({ name: "X25519" }, false, ["deriveBits"]);
  return { open: new Uint8Array(await crypto.subtle.exportKey("raw", pair.publicKey)), secret: pair.privateKey };
}

/** It throws if theirs is no key. */
async function shared(secret, theirs) {
  const key = await crypto.subtle.importKey("raw", theirs, { name: "X25519" }, false, []);
  return new Uint8Array(await crypto.subtle.deriveBits({ name: "X25519", public: key }, secret, 8 * KEY));
}

/** What is in a box that somebody sealed for our keys; null if it is none. */
export async function openSealed(keys, bytes) {
  if (bytes.length < KEY) return null;
  const theirs = bytes.subarray(0, KEY);
  return openBox(await shared(keys.secret, theirs), theirs, keys.open, bytes.subarray(KEY));
}

// ---- The host vouches for a key by which it speaks

const vouched = (speaks) => joined(textBytes("fazgrond speaks 1\0"), speaks);

export async function drawHost() {
  const pair = await crypto.subtle.generateKey({ name: "Ed25519" }, false, ["sign", "verify"]);
  const host = new Uint8Array(await crypto.subtle.exportKey("raw", pair.publicKey));
  const vouch = async (speaks) => new Uint8Array(await crypto.subtle.sign({ name: "Ed25519" }, pair.privateKey, vouched(speaks)));
  return { host, vouch };
}

export async function isVouched(proof, host, speaks) {
  const key = await crypto.subtle.importKey("raw", host, { name: "Ed25519" }, false, ["verify"]);
  return crypto.subtle.verify({ name: "Ed25519" }, key, proof, vouched(speaks));
}

// ---- Pairs

/** Which of two keys is the first one, by its bytes. */
const inOrder = (one, other) => (hex(one) < hex(other) ? [one, other] : [other, one]);

/** What two machines have, of whom each knows the other's open key. */
export class Pair {
  static async of(room, keys, theirs) {
    const both = [await shared(keys.secret, theirs), ...inOrder(keys.open, theirs)];
    return new Pair(blake2b(joined(textBytes("fazgrond pair 1\0"), ...both), KEY, room.key), keys.open, theirs);
  }

  constructor(key, ours, theirs) {
    Object.assign(this, { key, ours, theirs });
  }

  /** Signs that both see alike, and who stands between the two can't make alike: "Q7KM-2XPA". */
  get words() {
    const signs = Array.from(follow("fazgrond words 1", this.key, CODE_BYTES).subarray(0, 8), (it) => SIGNS[it & 31]).join("");
    return `${signs.slice(0, 4)}-${signs.slice(4)}`;
  }

  isOf(theirs) {
    return isSame(this.theirs, theirs);
  }

  // Who made it is sealed with it, so that it isn't taken back by the one who made it.

  seal(kind, bytes) {
    return sealed(this.key, bytes, joined(Uint8Array.of(kind), this.ours));
  }

  open(kind, bytes) {
    return opened(this.key, bytes, joined(Uint8Array.of(kind), this.theirs));
  }
}
