// A pass lets pages into a broker that has an operator, as lib/lobby/pass.h has it: it is before the @ in the broker's URL, and all players
// have the same one. By it each lobby makes a user of its own, whom alone the broker lets hear `faz.in.` and its key. Ed25519 is the
// browser's own; what is here are the texts.
import { hex, joined, textBytes, unhex } from "./bytes.js";

const SIGNS = "ABCDEFGHIJKLMNOPQRSTUVWXYZ234567"; // RFC 4648
const ACCOUNT = 0;
const USER = 20 << 3;
const SEED = 18 << 3; // before the byte of the kind whose seed it is
const KEY = 32;
const SUM = 2;
const SEED_SIGNS = 58;
const PKCS8 = unhex("302e020100300506032b657004220420"); // before a seed, RFC 8410

// ---- Texts of keys (nkeys)

/** CRC-16/XMODEM, its lower byte first. */
function sumOf(bytes) {
  let sum = 0;
  for (let bit = 0; bit < 8 * bytes.length; bit++) {
    const isOne = ((bytes[bit >> 3] >> (7 - (bit & 7))) & 1) !== sum >> 15;
    sum = ((sum << 1) & 0xffff) ^ (isOne ? 0x1021 : 0);
  }
  return Uint8Array.of(sum & 255, sum >> 8);
}

const signsOf = (count) => Math.ceil((8 * count) / 5);
const restOf = (count) => BigInt(5 * signsOf(count) - 8 * count); // bits of the last sign that say nothing

function writeSigns(bytes) {
  const all = joined(bytes, sumOf(bytes));
  const number = BigInt(`0x${hex(all)}`) << restOf(all.length);
  const count = signsOf(all.length);
  return Array.from({ length: count }, (_, at) => SIGNS[Number((number >> BigInt(5 * (count - 1 - at))) & 31n)]).join("");
}

/** So many bytes of a text; null if it is none of them. Only one text is taken for the same ones. */
function readSigns(text, count) {
  if (text.length !== signsOf(count + SUM) || /[^A-Z2-7]/.test(text)) return null;
  const number = Array.from(text).reduce((all, it) => (all << 5n) | BigInt(SIGNS.indexOf(it)), 0n);
  const bytes = unhex((number >> restOf(count + SUM)).toString(16).padStart(2 * (count + SUM), "0")).subarray(0, count);
  return writeSigns(bytes) === text ? bytes : null;
}

/** The text of a user's key. */
export const writeUser = (open) => writeSigns(joined(Uint8Array.of(USER), open));

/** The key of such a text; null if it is none. */
export function readUser(text) {
  const bytes = readSigns(text, 1 + KEY);
  return bytes?.[0] === USER ? bytes.slice(1) : null;
}

// ---- The pass

/** What a pass says: the seed of the key that signs for players, and the account that they are of. It throws if it can't be read. */
export function readPass(text) {
  const seed = readSigns(text.slice(0, SEED_SIGNS), 2 + KEY);
  const account = text.slice(SEED_SIGNS);
  if (seed?.[0] !== SEED || seed[1] !== ACCOUNT || readSigns(account, 1 + KEY)?.[0] !== ACCOUNT)
    throw new Error("the pass in the broker's address can't be read: a sign of it may be wrong or missing");
  return { seed: seed.slice(2), account };
}

// ---- What is shown

const ED25519 = { name: "Ed25519" };
const base64 = (bytes) => btoa(String.fromCharCode(...bytes)).replace(/\+/g, "-").replace(/\//g, "_").replace(/=/g, "");
const signed = async (key, text) => base64(new Uint8Array(await crypto.subtle.sign(ED25519, key, textBytes(text))));

/** A key and its secret one. */
export async function drawUser() {
  const pair = await crypto.subtle.generateKey(ED25519, false, ["sign", "verify"]);
  return { open: new Uint8Array(await crypto.subtle.exportKey("raw", pair.publicKey)), secret: pair.privateKey };
}

/** The key of a seed, and the text of the open one. */
async function keyOf(seed) {
  const secret = await crypto.subtle.importKey("pkcs8", joined(PKCS8, seed), ED25519, true, ["sign"]);
  const { x } = await crypto.subtle.exportKey("jwk", secret);
  const open = Uint8Array.from(atob(x.replace(/-/g, "+").replace(/_/g, "/")), (it) => it.charCodeAt(0));
  return { secret, text: writeSigns(joined(Uint8Array.of(ACCOUNT), open)) };
}

/** A user's token. It says nothing of what the user may: that says the broker, of all who have the pass. */
export async function tokenOf({ seed, account }, open) {
  const signer = await keyOf(seed);
  const claims = { iss: signer.text, sub: writeUser(open), nats: { issuer_account: account, type: "user", version: 2 } };
  const text = [{ typ: "JWT", alg: "ed25519-nkey" }, claims].map((it) => base64(textBytes(JSON.stringify(it)))).join(".");
  return `${text}.${await signed(signer.secret, text)}`;
}

/** What a user shows a broker that has said this nonce. */
export async function shown(pass, { open, secret }, nonce) {
  return { jwt: await tokenOf(pass, open), sig: await signed(secret, nonce) };
}
