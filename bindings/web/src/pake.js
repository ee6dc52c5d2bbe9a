// Two who know the same short secret get a key that nobody else has, and who doesn't know it gets one guess at a time: SRP of RFC 5054,
// by a handshake of TLS 1.2, as lib/lobby/pake.h has it by GnuTLS. It speaks with that one as with its own kind. Of TLS there is no more
// than it takes: one suite (TLS_SRP_SHA_WITH_AES_256_CBC_SHA, with its seal outside, RFC 7366), a secret that all of the handshake is
// bound to (RFC 7627), and a key that is exported (RFC 5705).
import { isTag } from "./crypt.js";
import { Reader, Writer, bytesOf, drawn, isSame, joined, numberOf, textBytes } from "./bytes.js";

// ---- SRP: the group of 2048 bits

export const N = BigInt(`0x${[
  "ac6bdb41324a9a9bf166de5e1389582faf72b6651987ee07fc3192943db56050a37329cbb4a099ed8193e0757767a13dd52312ab4b03310dcd7f48a9da04fd50",
  "e8083969edb767b0cf6095179a163ab3661a05fbd5faaae82918a9962f0b93b855f97993ec975eeaa80d740adbf4ff747359d041d5c33ea71d281e446b14773b",
  "ca97b43a23fb801676bd207a436c6481f1d2b9078717461a5b9d32e688f87748544523b524b0d57d5ea77a2775d2ecfa032cfbdbf52fb3786160279004e57ae6",
  "af874e7303ce53299ccc041c7bc308d82a5698f3a8d0c38271ae35f8e9dbfbb694b5c803d89f7ae435de236d525f54759b65e372fcd68ef20fa7111f9e4aff73",
].join("")}`);
const G = 2n;
const SIZE = 256;
const SALT = 16;
const EXPONENT = 32;

function power(base, exponent) {
  let found = 1n;
  for (const bit of exponent.toString(2)) {
    found = (found * found) % N;
    if (bit === "1") found = (found * base) % N;
  }
  return found;
}

const digest = async (name, ...parts) => new Uint8Array(await crypto.subtle.digest(name, joined(...parts)));
const sha1 = async (...parts) => numberOf(await digest("SHA-1", ...parts));

/** A number's bytes without zeros before them. */
function bytesOfNumber(number) {
  const text = number.toString(16);
  return bytesOf(number, Math.ceil(text.length / 2));
}

const factorOf = () => sha1(bytesOf(N, SIZE), bytesOf(G, SIZE));
const bothOf = (one, other) => sha1(bytesOf(one, SIZE), bytesOf(other, SIZE));

async function secretOf(name, secret, salt) {
  return sha1(salt, await digest("SHA-1", textBytes(`${name}:${secret}`)));
}

/** What the host says, and keeps. */
async function hostNumbers(name, secret) {
  const salt = drawn(SALT);
  const verifier = power(G, await secretOf(name, secret, salt));
  const own = numberOf(drawn(EXPONENT));
  const said = (((await factorOf()) * verifier) % N + power(G, own)) % N;
  return { salt, verifier, own, said };
}

/** What both know from then on, if they know the same secret. */
async function hostShared({ verifier, own, said }, theirs) {
  return power((theirs * power(verifier, await bothOf(theirs, said))) % N, own);
}

async function guestShared(name, secret, salt, own, said, theirs) {
  const both = await bothOf(said, theirs);
  hold(both !== 0n);
  const exponent = await secretOf(name, secret, salt);
  const base = (theirs + N * N - ((await factorOf()) * power(G, exponent))) % N;
  return power(base, own + both * exponent);
}

// ---- TLS

const VERSION = 0x0303;
const SUITE = 0xc020;
const RECORDS = { CHANGE: 20, HANDSHAKE: 22 };
const KINDS = { CLIENT_HELLO: 1, SERVER_HELLO: 2, SERVER_KEYS: 12, SERVER_DONE: 14, CLIENT_KEYS: 16, FINISHED: 20 };
const EXTENSIONS = { NAME: 12, SEAL_OUTSIDE: 22, BOUND: 23, RENEGOTIATION: 0xff01 };
const MASTER = 48;
const PROOF = 12;
const MAC = 20;
const AES = 32;
const BLOCK = 16;
const MOST = 2048; // bytes of a message

/** The other one doesn't know the secret, or isn't one who speaks so. */
class Wrong extends Error {}

function hold(is) {
  if (!is) throw new Wrong();
}

async function mac(name, secret, bytes) {
  const key = await crypto.subtle.importKey("raw", secret, { name: "HMAC", hash: name }, false, ["sign"]);
  return new Uint8Array(await crypto.subtle.sign("HMAC", key, bytes));
}

/** So many bytes that follow from a secret. */
async function follow(secret, label, seed, length) {
  const text = joined(textBytes(label), seed);
  let found = new Uint8Array(0);
  for (let at = text; found.length < length; ) {
    at = await mac("SHA-256", secret, at);
    found = joined(found, await mac("SHA-256", secret, joined(at, text)));
  }
  return found.slice(0, length);
}

const record = (kind, body) => new Writer().number(kind, 1).number(VERSION, 2).number(body.length, 2).put(body).bytes;
const handshake = (kind, body) => new Writer().number(kind, 1).number(body.length, 3).put(body).bytes;
const long = (bytes) => new Writer().number(bytes.length, 2).put(bytes).bytes;

function extensions(of) {
  const all = new Writer();
  for (const [kind, body] of of) all.number(kind, 2).put(long(body));
  return long(all.bytes);
}

function readExtensions(from) {
  const found = new Map();
  const all = new Reader(from.left > 0 ? from.take(from.number(2)) : new Uint8Array(0));
  while (all.left > 0) found.set(all.number(2), all.take(all.number(2)));
  return found;
}

const NOTHING = new Uint8Array(0);
const ALWAYS = [[EXTENSIONS.SEAL_OUTSIDE, NOTHING], [EXTENSIONS.BOUND, NOTHING], [EXTENSIONS.RENEGOTIATION, new Uint8Array(1)]];

/** One direction's seal, good for one record: AES in CBC, and a code over what is sealed. */
class Seal {
  constructor(macKey, key) {
    Object.assign(this, { macKey, key });
  }

  aes(use) {
    return crypto.subtle.importKey("raw", this.key, "AES-CBC", false, [use]);
  }

  async encrypted(iv, bytes) {
    return new Uint8Array(await crypto.subtle.encrypt({ name: "AES-CBC", iv }, await this.aes("encrypt"), bytes));
  }

  code(sealed) {
    const head = new Writer().number(0, 8).number(RECORDS.HANDSHAKE, 1).number(VERSION, 2).put(long(sealed));
    return mac("SHA-1", this.macKey, head.bytes);
  }

  /** TLS fills blocks in another way than WebCrypto, whose last block is left out. */
  async seal(bytes) {
    const fill = BLOCK - 1 - (bytes.length % BLOCK);
    const iv = drawn(BLOCK);
    const whole = await this.encrypted(iv, joined(bytes, new Uint8Array(fill + 1).fill(fill)));
    const sealed = joined(iv, whole.subarray(0, -BLOCK));
    return joined(sealed, await this.code(sealed));
  }

  /** And is made for what comes, so that WebCrypto opens it. */
  async open(bytes) {
    hold(bytes.length >= 2 * BLOCK + MAC && (bytes.length - MAC) % BLOCK === 0);
    const sealed = bytes.slice(0, -MAC);
    hold(isTag(await this.code(sealed), bytes.subarray(-MAC)));
    const last = await this.encrypted(sealed.slice(-BLOCK), new Uint8Array(0));
    const [iv, rest] = [sealed.slice(0, BLOCK), joined(sealed.subarray(BLOCK), last)];
    const plain = new Uint8Array(await crypto.subtle.decrypt({ name: "AES-CBC", iv }, await this.aes("decrypt"), rest));
    const fill = plain.at(-1);
    hold(fill < plain.length && plain.subarray(-fill - 1).every((it) => it === fill));
    return plain.slice(0, -fill - 1);
  }
}

/** One side of it. `name` says of which secret it is: both have the same. */
export class Pake {
  constructor(isHost, name, secret) {
    Object.assign(this, { isHost, name, secret, step: 0, said: [], random: drawn(32), theirRandom: null, master: null, state: "more" });
  }

  /** Takes what the other one said, if there is any. What is to be said next, maybe nothing; `state` is "more", "done" or "wrong". */
  async turn(bytes) {
    if (this.state !== "more") return new Uint8Array(0);
    try {
      hold(bytes.length < MOST);
      const came = recordsOf(bytes);
      const steps = this.isHost ? [this.hostHello, this.hostDone] : [this.hello, this.keys, this.done];
      const act = steps[this.step++];
      const isLast = this.step === steps.length;
      hold((came.change !== null) === isLast && (came.sealed !== null) === isLast);
      return joined(...(await act.call(this, came)));
    } catch (why) {
      // (WebCrypto and the reader throw what they find wrong)
      this.state = "wrong";
      return new Uint8Array(0);
    }
  }

  /** The key, once it is done. */
  key() {
    return follow(this.master, "EXPORTER-fazgrond-code-1", this.randoms("client"), 32);
  }

  /** Both sides' random bytes, those of the one that is named first. */
  randoms(first) {
    const isOurs = (first === "client") !== this.isHost;
    return isOurs ? joined(this.random, this.theirRandom) : joined(this.theirRandom, this.random);
  }

  /** A message of ours, in a record. */
  say(kind, body) {
    const message = handshake(kind, body);
    this.said.push(message);
    return record(RECORDS.HANDSHAKE, message);
  }

  /** What the next message says, which has to be of a kind. */
  hear(from, kind) {
    const begin = from.at;
    hold(from.number(1) === kind);
    const body = from.take(from.number(3));
    this.said.push(from.bytes.slice(begin, from.at));
    return new Reader(body);
  }

  async derive(shared) {
    const bound = await digest("SHA-256", ...this.said);
    this.master = await follow(bytesOfNumber(shared), "extended master secret", bound, MASTER);
    const keys = new Reader(await follow(this.master, "key expansion", this.randoms("server"), 2 * (MAC + AES)));
    const [clientMac, serverMac, clientKey, serverKey] = [MAC, MAC, AES, AES].map((length) => keys.take(length));
    const [client, server] = [new Seal(clientMac, clientKey), new Seal(serverMac, serverKey)];
    Object.assign(this, this.isHost ? { ours: server, theirs: client } : { ours: client, theirs: server });
  }

  async proofOf(side) {
    return follow(this.master, `${side} finished`, await digest("SHA-256", ...this.said), PROOF);
  }

  /** Shows that this side knows the secret. */
  async prove(side) {
    const message = handshake(KINDS.FINISHED, await this.proofOf(side));
    this.said.push(message);
    return [record(RECORDS.CHANGE, new Uint8Array([1])), record(RECORDS.HANDSHAKE, await this.ours.seal(message))];
  }

  async check(side, { change, sealed }) {
    hold(isSame(change, new Uint8Array([1])));
    const due = await this.proofOf(side);
    const inside = new Reader(await this.theirs.open(sealed));
    const proof = this.hear(inside, KINDS.FINISHED);
    hold(isTag(proof.take(proof.left), due) && inside.left === 0);
  }

  // ---- Who joins.

  async hello() {
    const name = new Writer().text(this.name).bytes;
    const body = new Writer().number(VERSION, 2).put(this.random).number(0, 1).put(long(bytesOf(BigInt(SUITE), 2)));
    body.number(1, 1).number(0, 1).put(extensions([[EXTENSIONS.NAME, name], ...ALWAYS]));
    return [this.say(KINDS.CLIENT_HELLO, body.bytes)];
  }

  async keys({ plain }) {
    const hello = this.hear(plain, KINDS.SERVER_HELLO);
    hold(hello.number(2) === VERSION);
    this.theirRandom = hello.take(32);
    hello.take(hello.number(1));
    hold(hello.number(2) === SUITE && hello.number(1) === 0);
    const found = readExtensions(hello);
    hold(found.has(EXTENSIONS.SEAL_OUTSIDE) && found.has(EXTENSIONS.BOUND));
    const told = this.hear(plain, KINDS.SERVER_KEYS);
    hold(numberOf(told.take(told.number(2))) === N && numberOf(told.take(told.number(2))) === G);
    const salt = told.take(told.number(1));
    const theirs = readNumber(told);
    this.hear(plain, KINDS.SERVER_DONE);
    hold(plain.left === 0);
    const own = numberOf(drawn(EXPONENT));
    const said = power(G, own);
    const keys = this.say(KINDS.CLIENT_KEYS, long(bytesOfNumber(said)));
    await this.derive(await guestShared(this.name, this.secret, salt, own, said, theirs));
    return [keys, ...(await this.prove("client"))];
  }

  async done(came) {
    hold(came.plain.left === 0);
    await this.check("server", came);
    this.state = "done";
    return [];
  }

  // ---- Who hosts.

  async hostHello({ plain }) {
    const hello = this.hear(plain, KINDS.CLIENT_HELLO);
    hold(plain.left === 0 && hello.number(2) === VERSION);
    this.theirRandom = hello.take(32);
    hello.take(hello.number(1));
    const suites = new Reader(hello.take(hello.number(2)));
    hold(Array.from({ length: suites.left / 2 }, () => suites.number(2)).includes(SUITE));
    hello.take(hello.number(1));
    const found = readExtensions(hello);
    hold(ALWAYS.slice(0, 2).every(([kind]) => found.has(kind)));
    hold(isSame(found.get(EXTENSIONS.NAME) ?? new Uint8Array(0), new Writer().text(this.name).bytes));
    this.numbers = await hostNumbers(this.name, this.secret);
    const body = new Writer().number(VERSION, 2).put(this.random).number(0, 1).number(SUITE, 2).number(0, 1).put(extensions(ALWAYS));
    const told = new Writer().put(long(bytesOf(N, SIZE)), long(bytesOf(G, 1)));
    told.number(SALT, 1).put(this.numbers.salt, long(bytesOfNumber(this.numbers.said)));
    return [
      this.say(KINDS.SERVER_HELLO, body.bytes), this.say(KINDS.SERVER_KEYS, told.bytes), this.say(KINDS.SERVER_DONE, new Uint8Array(0)),
    ];
  }

  async hostDone(came) {
    const told = this.hear(came.plain, KINDS.CLIENT_KEYS);
    hold(came.plain.left === 0);
    await this.derive(await hostShared(this.numbers, readNumber(told)));
    await this.check("client", came);
    const said = await this.prove("server");
    this.state = "done";
    return said;
  }
}

/** A number that the other one says: one of the group's, and not 0, with which who doesn't know the secret would know the key. */
function readNumber(from) {
  const found = numberOf(from.take(from.number(2)));
  hold(found > 0n && found < N);
  return found;
}

/** What is in records: messages, and after a change of keys what is sealed, in one record. */
function recordsOf(bytes) {
  const from = new Reader(bytes);
  const found = { plain: [], change: null, sealed: null };
  while (from.left > 0) {
    const kind = from.number(1);
    from.number(2);
    const body = from.take(from.number(2));
    hold(kind === RECORDS.CHANGE ? found.change === null : kind === RECORDS.HANDSHAKE && found.sealed === null);
    if (kind === RECORDS.CHANGE) found.change = body;
    else if (found.change === null) found.plain.push(body);
    else found.sealed = body;
  }
  return { ...found, plain: new Reader(joined(...found.plain)) };
}
