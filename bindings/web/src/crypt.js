// What WebCrypto lacks of libsodium's: BLAKE2b (RFC 7693), XChaCha20-Poly1305 (RFC 8439, and the draft for its longer nonce), and
// sealed boxes, which are of XSalsa20-Poly1305. No secret decides which way the code goes; but JavaScript's large numbers, of which
// Poly1305 and BLAKE2b are made here, don't promise to take as long for each value.
import { bytesOf, joined } from "./bytes.js";

// ---- BLAKE2b

const SIGMA = [
  "0123456789abcdef", "ea489fd61c02b753", "b8c052fdae367194", "7931dcbe265a40f8", "905724afe1bc683d",
  "2c6a0b834d75fe19", "c51fed4a0763928b", "db7ec13950f4862a", "6fe9b308c2d714a5", "a2847615fb9e3cd0",
].map((line) => Array.from(line, (sign) => parseInt(sign, 16)));
const BEGIN = [
  0x6a09e667f3bcc908n, 0xbb67ae8584caa73bn, 0x3c6ef372fe94f82bn, 0xa54ff53a5f1d36f1n,
  0x510e527fade682d1n, 0x9b05688c2b3e6c1fn, 0x1f83d9abfb41bd6bn, 0x5be0cd19137e2179n,
];
const COLUMNS = [[0, 4, 8, 12], [1, 5, 9, 13], [2, 6, 10, 14], [3, 7, 11, 15]];
const DIAGONALS = [[0, 5, 10, 15], [1, 6, 11, 12], [2, 7, 8, 13], [3, 4, 9, 14]];
const BLOCK = 128;
const ROUNDS = 12;

const turnedBack = (word, bits) => BigInt.asUintN(64, (word >> bits) | (word << (64n - bits)));
const sum = (...words) => BigInt.asUintN(64, words.reduce((all, it) => all + it));

function mix(v, [a, b, c, d], x, y) {
  v[a] = sum(v[a], v[b], x);
  v[d] = turnedBack(v[d] ^ v[a], 32n);
  v[c] = sum(v[c], v[d]);
  v[b] = turnedBack(v[b] ^ v[c], 24n);
  v[a] = sum(v[a], v[b], y);
  v[d] = turnedBack(v[d] ^ v[a], 16n);
  v[c] = sum(v[c], v[d]);
  v[b] = turnedBack(v[b] ^ v[c], 63n);
}

function compress(state, block, count, isLast) {
  const data = new DataView(block.buffer, block.byteOffset, BLOCK);
  const words = Array.from({ length: 16 }, (_, at) => data.getBigUint64(8 * at, true));
  const v = [...state, ...BEGIN];
  v[12] ^= BigInt(count);
  if (isLast) v[14] ^= 0xffffffffffffffffn;
  for (let round = 0; round < ROUNDS; round++) {
    const order = SIGMA[round % SIGMA.length];
    [...COLUMNS, ...DIAGONALS].forEach((places, at) => mix(v, places, words[order[2 * at]], words[order[2 * at + 1]]));
  }
  state.forEach((_, at) => {
    state[at] ^= v[at] ^ v[at + 8];
  });
}

/** A hash of so many bytes, with a key or none. */
export function blake2b(bytes, length, key = new Uint8Array(0)) {
  const front = new Uint8Array(key.length > 0 ? BLOCK : 0);
  front.set(key);
  const all = joined(front, bytes);
  const padded = joined(all, new Uint8Array(all.length === 0 ? BLOCK : (BLOCK - (all.length % BLOCK)) % BLOCK));
  const state = [...BEGIN];
  state[0] ^= 0x01010000n ^ BigInt((key.length << 8) ^ length);
  for (let at = 0; at < padded.length; at += BLOCK) {
    const isLast = at + BLOCK === padded.length;
    compress(state, padded.subarray(at, at + BLOCK), isLast ? all.length : at + BLOCK, isLast);
  }
  return joined(...state.map((word) => bytesOf(word, 8).reverse())).slice(0, length);
}

// ---- ChaCha20 and Salsa20

const EXPAND = wordsOf(new TextEncoder().encode("expand 32-byte k"));
const DOUBLE_ROUNDS = 10;
const STREAM = 64;

function wordsOf(bytes) {
  const data = new DataView(bytes.buffer, bytes.byteOffset, bytes.length);
  return Array.from({ length: bytes.length / 4 }, (_, at) => data.getUint32(4 * at, true));
}

function bytesOfWords(words) {
  const bytes = new Uint8Array(4 * words.length);
  const data = new DataView(bytes.buffer);
  words.forEach((word, at) => data.setUint32(4 * at, word, true));
  return bytes;
}

const turned = (word, bits) => (word << bits) | (word >>> (32 - bits));

function chachaQuarter(s, [a, b, c, d]) {
  for (const [one, other] of [[16, 12], [8, 7]]) {
    s[a] += s[b];
    s[d] = turned(s[d] ^ s[a], one);
    s[c] += s[d];
    s[b] = turned(s[b] ^ s[c], other);
  }
}

function salsaQuarter(s, [a, b, c, d]) {
  s[b] ^= turned(s[a] + s[d], 7);
  s[c] ^= turned(s[b] + s[a], 9);
  s[d] ^= turned(s[c] + s[b], 13);
  s[a] ^= turned(s[d] + s[c], 18);
}

const SALSA = [
  [0, 4, 8, 12], [5, 9, 13, 1], [10, 14, 2, 6], [15, 3, 7, 11], [0, 1, 2, 3], [5, 6, 7, 4], [10, 11, 8, 9], [15, 12, 13, 14],
];

function rounds(state, quarter, places) {
  const found = Uint32Array.from(state);
  for (let round = 0; round < DOUBLE_ROUNDS; round++) for (const it of places) quarter(found, it);
  return found;
}

const chachaState = (key, rest) => [...EXPAND, ...wordsOf(key), ...wordsOf(rest)];
const chachaRounds = (state) => rounds(state, chachaQuarter, [...COLUMNS, ...DIAGONALS]);

function salsaState(key, rest) {
  const words = wordsOf(key);
  const [one, two, three, four] = EXPAND;
  return [one, ...words.slice(0, 4), two, ...wordsOf(rest), three, ...words.slice(4), four];
}

const salsaRounds = (state) => rounds(state, salsaQuarter, SALSA);

/** A key that follows from a key and 16 bytes. */
export function hchacha20(key, bytes) {
  const words = chachaRounds(chachaState(key, bytes));
  return bytesOfWords([...words.subarray(0, 4), ...words.subarray(12)]);
}

export function hsalsa20(key, bytes) {
  const words = salsaRounds(salsaState(key, bytes));
  return bytesOfWords([0, 5, 10, 15, 6, 7, 8, 9].map((at) => words[at]));
}

/** So many bytes of a stream: its blocks are told by their number. */
function stream(length, block) {
  const all = new Uint8Array(Math.ceil(length / STREAM) * STREAM);
  for (let at = 0; at < all.length; at += STREAM) all.set(block(at / STREAM), at);
  return all.subarray(0, length);
}

const added = (one, other) => one.map((word, at) => word + other[at]);
const xored = (one, other) => one.map((byte, at) => byte ^ other[at]);

function chacha20(key, nonce, length) {
  return stream(length, (number) => {
    const state = chachaState(key, joined(bytesOfWords([number]), nonce));
    return bytesOfWords(added(chachaRounds(state), state));
  });
}

function salsa20(key, nonce, length) {
  return stream(length, (number) => {
    const state = salsaState(key, joined(nonce, bytesOfWords([number, 0])));
    return bytesOfWords(added(salsaRounds(state), state));
  });
}

// ---- Poly1305

const PRIME = (1n << 130n) - 5n;
const CLAMP = 0x0ffffffc0ffffffc0ffffffc0fffffffn;
const TAG = 16;

const little = (bytes) => BigInt(`0x0${Array.from(bytes, (it) => it.toString(16).padStart(2, "0")).reverse().join("")}`);

export function poly1305(key, bytes) {
  const factor = little(key.subarray(0, 16)) & CLAMP;
  let all = 0n;
  for (let at = 0; at < bytes.length; at += 16) {
    const part = bytes.subarray(at, at + 16);
    all = ((all + little(part) + (1n << BigInt(8 * part.length))) * factor) % PRIME;
  }
  return bytesOf(all + little(key.subarray(16, 32)), TAG).reverse();
}

/** Whether two tags are the same. It looks at all of both. */
export function isTag(one, other) {
  return one.length === other.length && one.reduce((all, byte, at) => all | (byte ^ other[at]), 0) === 0;
}

// ---- Messages

export const NONCE = 24;

const filled = (bytes) => joined(bytes, new Uint8Array((16 - (bytes.length % 16)) % 16));

function tagOf(key, sealed, more) {
  const lengths = bytesOfWords([more.length, 0, sealed.length, 0]);
  return poly1305(key, joined(filled(more), filled(sealed), lengths));
}

function streamOf(key, nonce, length) {
  const inner = joined(new Uint8Array(4), nonce.subarray(16));
  return chacha20(hchacha20(key, nonce.subarray(0, 16)), inner, STREAM + length);
}

/** XChaCha20-Poly1305: the sealed bytes, and their tag. `more` is sealed with them, and isn't among them. */
export function seal(key, nonce, bytes, more) {
  const keys = streamOf(key, nonce, bytes.length);
  const sealed = xored(bytes, keys.subarray(STREAM));
  return joined(sealed, tagOf(keys.subarray(0, 32), sealed, more));
}

/** What was sealed; null if nobody with the key has sealed this. For that one no more is made of the stream than the tag takes. */
export function open(key, nonce, bytes, more) {
  if (bytes.length < TAG) return null;
  const sealed = bytes.subarray(0, bytes.length - TAG);
  const front = streamOf(key, nonce, 0);
  if (!isTag(tagOf(front.subarray(0, 32), sealed, more), bytes.subarray(sealed.length))) return null;
  return xored(sealed, streamOf(key, nonce, sealed.length).subarray(STREAM));
}

/** What is in a box that was sealed for an open key; null if it is none. `shared` is what X25519 makes of both keys. */
export function openBox(shared, theirs, ours, box) {
  if (box.length < TAG) return null;
  const nonce = blake2b(joined(theirs, ours), NONCE);
  const key = hsalsa20(hsalsa20(shared, new Uint8Array(16)), nonce.subarray(0, 16));
  const sealed = box.subarray(TAG);
  if (!isTag(poly1305(salsa20(key, nonce.subarray(16), 32), sealed), box.subarray(0, TAG))) return null;
  return xored(sealed, salsa20(key, nonce.subarray(16), 32 + sealed.length).subarray(32));
}
