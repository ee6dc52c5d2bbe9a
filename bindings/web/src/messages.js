// What machines of a lobby, and the door, say to each other, as bytes: lib/lobby/messages.h and lib/lobby/door.h have them. What reads
// throws if it is no such message, or is made by nobody who may.
import { INBOX, KEY, PROOF, openForAll, openSealed, sealForAll } from "./keys.js";
import { Reader, Writer, hex, textBytes } from "./bytes.js";
import { readUser, writeUser } from "./pass.js";

export const VERSION = 3;
export const KNOCK_ID = 16;
export const KINDS = { KNOCK: 107, KNOCKED: 110, HELLO: 104, OFFER: 111, ASK: 97, ANSWER: 115, SIGNAL: 103, DOOR: 100 };
export const Says = { WAITS: 0, SEATED: 1, BEGINS: 2, REFUSED: 3 };
export const MOST_PLAYERS = 8;
const CODE = 16;
const NOBODY = 255; // whose a place is that no player has
const NAME_ROOM = 32;
export const MOST_COMMON = 4096;
const MOST_KNOCK = 2048;
const MOST_FOR_ALL = 512; // bytes: longer ones are nobody's, and to try each room's key on them would keep a page busy
const FLAGS = { LASTS: 1, ASKS: 2, LATE: 4 };

const hold = (is) => {
  if (!is) throw new RangeError("it is no such message");
};

/** A name without what isn't printed, and not too long. */
export function cleanName(name) {
  let found = "";
  for (const letter of name) {
    const next = found + (/[\p{C}\p{Zl}\p{Zp}]/u.test(letter) ? "?" : letter);
    if (textBytes(next).length >= NAME_ROOM) break;
    found = next;
  }
  return found;
}

const readName = (from) => cleanName(from.text(NAME_ROOM));

// ---- Subjects

export const inboxSubject = (inbox) => `faz.in.${writeUser(inbox)}`;
export const roomSubject = (room) => `faz.meet.${room.name}`;

/** The inbox of a subject; null if it is none. */
export const readInbox = (subject) => (subject.startsWith("faz.in.") ? readUser(subject.slice(7)) : null);

/** Whether it is one of version 1: who hears it is answered, and so told that the version is another one. */
export const isOlderInbox = (subject) => /^faz\.in\.[0-9a-f]{32}$/.test(subject);

// ---- What gets a key by a short code

export function writeKnock(kind, { id, step, isWrong = false, bytes }) {
  return new Writer().number(kind, 1).put(id).number(step, 1).number(isWrong ? 1 : 0, 1).number(bytes.length, 2).put(bytes).bytes;
}

/** `more` is what is behind it. */
export function readKnock(body) {
  const from = new Reader(body.subarray(1));
  const [id, step, isWrong, length] = [from.take(KNOCK_ID), from.number(1), from.number(1) !== 0, from.number(2)];
  hold(length < MOST_KNOCK);
  return { id, step, isWrong, bytes: from.take(length), more: from.take(from.left) };
}

// ---- What all who have the code can read

function forAll(room, kind, text) {
  return new Writer().number(kind, 1).put(sealForAll(room, kind, text.bytes)).bytes;
}

function ofAll(room, kind, body) {
  const inside = body[0] === kind && body.length <= MOST_FOR_ALL ? openForAll(room, kind, body.subarray(1)) : null;
  hold(inside !== null);
  return new Reader(inside);
}

export const writeHello = (room, open) => forAll(room, KINDS.HELLO, new Writer().number(VERSION, 1).put(open));

/** Of another version nothing but that is read, here and below. */
export function readHello(room, body) {
  const from = ofAll(room, KINDS.HELLO, body);
  const version = from.number(1);
  return version !== VERSION ? { version } : { version, open: from.take(KEY) };
}

export function writeOffer(room, { host, speaks, proof, inbox }) {
  return forAll(room, KINDS.OFFER, new Writer().number(VERSION, 1).put(host, speaks, proof, inbox));
}

export function readOffer(room, body) {
  const from = ofAll(room, KINDS.OFFER, body);
  const version = from.number(1);
  if (version !== VERSION) return { version };
  const [host, speaks, proof, inbox] = [KEY, KEY, PROOF, INBOX].map((length) => from.take(length));
  return { version, host, speaks, proof, inbox };
}

// ---- What one asks, and is answered

export function writeAsk(room, pair, { counter, leaves, digest, name }) {
  const inner = new Writer().number(counter, 4).number(leaves ? 1 : 0, 1).number(digest, 8).number(1, 1).text(name);
  return forAll(room, KINDS.ASK, new Writer().put(pair.ours, pair.seal(KINDS.ASK, inner.bytes)));
}

/** Whose it is, by a room's key; and what is for the host alone. */
export function openAsk(room, body) {
  const from = ofAll(room, KINDS.ASK, body);
  return { open: from.take(KEY), rest: from.take(from.left) };
}

export function readAsk(pair, rest) {
  const inside = pair.open(KINDS.ASK, rest);
  hold(inside !== null);
  const from = new Reader(inside);
  const [counter, leaves, digest, here] = [from.number(4), from.number(1) !== 0, from.big(8), from.number(1)];
  hold(here >= 1 && here <= MOST_PLAYERS);
  return { counter, leaves, digest, here, name: readName(from) };
}

function putTable(to, table) {
  to.number(table.me, 1).number(table.members.length, 1).number(table.players, 1);
  for (let at = 0; at < MOST_PLAYERS; at++) to.number(table.owners[at] ?? NOBODY, 1);
  to.number(table.number, 8).put(table.key).number(table.asks ? FLAGS.ASKS : 0, 1).put(table.code, table.host, table.proof);
  for (const { open, inbox, name } of table.members) to.put(open, inbox).text(name);
  to.number(table.common.length, 2).put(table.common);
}

/** Whether each player has a machine, and no other place has one. */
function hasOwners({ me, machines, players, owners }) {
  return (
    machines >= 2 && machines <= MOST_PLAYERS && me < machines && players >= 2 && players <= MOST_PLAYERS &&
    owners.every((it, at) => (at < players ? it < machines : it === NOBODY))
  );
}

function readTable(from) {
  const [me, machines, players] = [from.number(1), from.number(1), from.number(1)];
  const owners = Array.from(from.take(MOST_PLAYERS));
  hold(hasOwners({ me, machines, players, owners }));
  const [number, key, flags] = [from.big(8), from.take(KEY), from.number(1)];
  const [code, host, proof] = [CODE, KEY, PROOF].map((size) => from.take(size));
  const members = Array.from({ length: machines }, () => ({ open: from.take(KEY), inbox: from.take(INBOX), name: readName(from) }));
  const length = from.number(2);
  hold(length <= MOST_COMMON && new Set(members.map((it) => hex(it.open))).size === machines); // (no two have one key)
  const isLate = (flags & FLAGS.LATE) !== 0;
  return { me, players, owners: owners.slice(0, players), number, key, isLate, code, host, proof, members, common: from.take(length) };
}

export function writeAnswer(pair, { counter, says, why = 0, name, table = null }) {
  const inside = new Writer().number(counter, 4).number(says, 1).number(why, 1).text(name);
  if (table !== null) putTable(inside, table);
  return new Writer().number(KINDS.ANSWER, 1).put(pair.seal(KINDS.ANSWER, inside.bytes)).bytes;
}

export function readAnswer(pair, body) {
  const inside = pair.open(KINDS.ANSWER, body.subarray(1));
  hold(inside !== null);
  const from = new Reader(inside);
  const [counter, says, why, name] = [from.number(4), from.number(1), from.number(1), readName(from)];
  hold(says <= Says.REFUSED);
  return { counter, says, why, name, table: says === Says.BEGINS ? readTable(from) : null };
}

// ---- Signals of lines: here they are texts

export function writeSignal(from, pair, text) {
  return new Writer().number(KINDS.SIGNAL, 1).number(from, 1).put(pair.seal(KINDS.SIGNAL, textBytes(text))).bytes;
}

export function readSignal(pair, body) {
  const inside = pair.open(KINDS.SIGNAL, body.subarray(2));
  hold(inside !== null);
  return new TextDecoder().decode(inside);
}

// ---- The door

export const DOOR = "faz.door";
export const Asks = { HOSTS: 72, JOINS: 74, RELAYS: 82 };
export const DoorSays = { OK: 0, NO_PLATE: 1, TOO_MANY: 2, FULL: 3 };
const DOOR_VERSION = 1;
const WORD = 96;

export function writeRequest({ asks, open, plate, token }) {
  return new Writer().number(DOOR_VERSION, 1).number(asks, 1).put(open).text(plate).put(token).bytes;
}

export async function readDoor(keys, body) {
  const inside = body[0] === KINDS.DOOR ? await openSealed(keys, body.subarray(1)) : null;
  hold(inside !== null);
  const from = new Reader(inside);
  hold(from.number(1) === DOOR_VERSION);
  const [says, plate, token, stun, stunPort] = [from.number(1), from.text(4), from.take(16), from.text(WORD), from.number(2)];
  const relay = () => ({ byTcp: from.number(1) !== 0, port: from.number(2), address: from.text(WORD) });
  const relays = Array.from({ length: from.number(1) }, relay);
  const [user, password, seconds] = [from.text(WORD), from.text(WORD), from.number(4)];
  return { says, plate, token, seconds, servers: serversOf({ stun, stunPort, relays, user, password }) };
}

const place = (address, port) => `${address.includes(":") ? `[${address}]` : address}:${port}`;

/** The door's servers, as RTCPeerConnection takes them. */
function serversOf({ stun, stunPort, relays, user, password }) {
  const found = stun === "" ? [] : [{ urls: `stun:${place(stun, stunPort)}` }];
  const urls = relays.map(({ byTcp, port, address }) => `turn:${place(address, port)}?transport=${byTcp ? "tcp" : "udp"}`);
  return urls.length === 0 ? found : [...found, { urls, username: user, credential: password }];
}
