// What lobby.js stands on, beside what others made of the same: node seals.js CASES [PAKE_SIDE]. CASES are of seals.py; PAKE_SIDE is the
// proof of short codes by GnuTLS. Each line that it writes is a check that failed, and the last one says how many there were.
import { spawn } from "node:child_process";
import fs from "node:fs";
import readline from "node:readline";
import { blake2b, hchacha20, open, openBox, poly1305, seal } from "./src/crypt.js";
import { hex, unhex } from "./src/bytes.js";
import { Pair, codeOf, readCode, roomOf, writeCode } from "./src/keys.js";
import { readPass, readUser, shown, writeUser } from "./src/pass.js";
import { Pake } from "./src/pake.js";

const [cases, side] = process.argv.slice(2);
const counts = { checks: 0, failed: 0 };

function check(what, found, due) {
  counts.checks++;
  if (found === due) return;
  counts.failed++;
  console.log(`${what}: ${found}, not ${due}`);
}

const bytesOf = (it) => Object.fromEntries(Object.entries(it).map(([name, digits]) => [name, unhex(digits)]));

/** Bytes with one bit changed, somewhere or at a place. */
function changed(bytes, at = Math.floor(Math.random() * bytes.length)) {
  const other = bytes.slice();
  other[at] ^= 1 << Math.floor(Math.random() * 8);
  return other;
}

const DOES = {
  hash: ({ bytes, key, due }) => [hex(blake2b(bytes, due.length, key)), hex(due)],
  poly1305: ({ key, bytes, due }) => [hex(poly1305(key, bytes)), hex(due)],
  hchacha20: ({ key, bytes, due }) => [hex(hchacha20(key, bytes)), hex(due)],
  seal: ({ key, nonce, bytes, more, due }) => [hex(seal(key, nonce, bytes, more)), hex(due)],
  open: ({ key, nonce, bytes, more, due }) => [hex(open(key, nonce, due, more) ?? [0]), hex(bytes)],
  "open what was changed": ({ key, nonce, more, due }) => [open(key, nonce, changed(due), more), null],
  "open by another kind": ({ key, nonce, more, due }) => [open(key, nonce, due, changed(more)), null],
  box: ({ shared, ours, box, due }) => [hex(openBox(shared, box.slice(0, 32), ours, box.slice(32)) ?? [0]), hex(due)],
  "a box that was changed": ({ shared, ours, box }) => [openBox(shared, box.slice(0, 32), ours, changed(box.slice(32))), null],
  code: ({ host, text }) => [writeCode(codeOf(host)), new TextDecoder().decode(text)],
  "a code that is read": ({ host, text }) => [hex(readCode(new TextDecoder().decode(text).toLowerCase())?.code ?? []), hex(codeOf(host))],
  "a room's name": ({ host, name }) => [roomOf(codeOf(host)).name, hex(name)],
  "a room's key": ({ host, key }) => [hex(roomOf(codeOf(host)).key), hex(key)],
};

/** Codes with one wrong sign: hardly one is taken, since 12 bits say so. */
function slips(codes) {
  const signs = "0123456789ABCDEFGHJKMNPQRSTVWXYZ";
  let taken = 0;
  for (const text of codes.map((it) => new TextDecoder().decode(unhex(it.text))))
    for (let at = 0; at < text.length; at++) {
      const other = signs[(signs.indexOf(text[at]) + 7) % signs.length];
      if (text[at] !== "-" && readCode(text.slice(0, at) + other + text.slice(at + 1)) !== null) taken++;
    }
  check("of 560 slips of the pen hardly one is taken", taken <= 4, true);
}

/** Two who talk: each has `turn`, which gives what is said next, a state, and a key. */
async function talk(host, guest, change = -1) {
  let said = new Uint8Array(0);
  for (let step = 0; step < 8; step++) {
    const [one, other] = step % 2 === 0 ? [guest, host] : [host, guest];
    said = await one.turn(said);
    // (in the middle: a record's head says a version besides, which TLS doesn't vouch for)
    if (step === change) said = changed(said, said.length >> 1);
    if (one.state === "wrong" || said.length === 0 || other.state === "done") break;
  }
  if (host.state !== "done" || guest.state !== "done") return "not both";
  return hex(await host.key()) === hex(await guest.key()) ? "the same key" : "other keys";
}

/** A side by GnuTLS. */
class Native {
  constructor(isHost, name, secret) {
    this.program = spawn(side, [isHost ? "host" : "guest", name, secret]);
    this.lines = readline.createInterface({ input: this.program.stdout })[Symbol.asyncIterator]();
    this.state = "more";
  }

  async turn(bytes) {
    this.program.stdin.write(`${hex(bytes)}\n`);
    const [state, said, key] = (await this.lines.next()).value.split(" ");
    Object.assign(this, { state, found: unhex(key) });
    return unhex(said);
  }

  async key() {
    return this.found;
  }

  close() {
    this.program.kill();
  }
}

async function meet(what, kinds, due, { host = ["KXQ", "4H7P"], guest = ["KXQ", "4H7P"], change = -1 } = {}) {
  const both = [new kinds[0](true, ...host), new kinds[1](false, ...guest)];
  check(what, await talk(...both, change), due);
  for (const it of both) it.close?.();
}

async function proofs() {
  for (const kinds of side === undefined ? [[Pake, Pake]] : [[Pake, Pake], [Native, Pake], [Pake, Native]]) {
    const what = kinds.map((it) => it.name).join(" with ");
    for (let times = 0; times < 3; times++) await meet(`a proof of ${what}`, kinds, "the same key");
    await meet(`${what}, other signs`, kinds, "not both", { guest: ["KXQ", "4H7Q"] });
    await meet(`${what}, another plate`, kinds, "not both", { guest: ["KXR", "4H7P"] });
    for (let change = 0; change < 4; change++) await meet(`${what}, message ${change} changed`, kinds, "not both", { change });
  }
}

async function pairs(keys) {
  for (const it of keys.map(bytesOf)) {
    const pkcs = Uint8Array.from([...unhex("302e020100300506032b656e04220420"), ...it.secret]);
    const secret = await crypto.subtle.importKey("pkcs8", pkcs, { name: "X25519" }, false, ["deriveBits"]);
    const pair = await Pair.of({ key: it.room }, { open: it.ours, secret }, it.theirs);
    check("a pair's key", hex(pair.key), hex(it.due));
    check("a pair's words", pair.words, new TextDecoder().decode(it.words));
    check("what the other one sealed", hex(pair.open(97, it.sealed) ?? []), hex(it.bytes));
    check("what it made itself", pair.open(97, pair.seal(97, it.bytes)), null);
  }
}

/** What a text is read as, or that it is refused. */
function readOr(read, text) {
  try {
    return read(text) === null ? "refused" : "read";
  } catch {
    return "refused";
  }
}

/** With each sign another one, and with one too many or too few. */
function slipsOf(what, read, text) {
  const signs = "ABCDEFGHIJKLMNOPQRSTUVWXYZ234567";
  let taken = 0;
  for (let at = 0; at < text.length; at++) {
    const other = signs[(signs.indexOf(text[at]) + 1 + Math.floor(Math.random() * 31)) % 32];
    for (const wrong of [other, text[at].toLowerCase(), "=", ""])
      if (wrong !== text[at] && readOr(read, text.slice(0, at) + wrong + text.slice(at + 1)) === "read") taken++;
  }
  check(`${what} as it is`, readOr(read, text), "read");
  check(`${what} with a slip of the pen`, taken, 0);
  check(`${what} with a sign behind it`, readOr(read, `${text}A`), "refused");
}

/** What is shown to a broker by a pass. */
async function passes(cases) {
  const documented = "UDXU4RCSJNZOIQHZNWXHXORDPRTGNJAHAHFRGZNEEJCPQTT2M7NLCNF4"; // by NATS
  check("a user's key", writeUser(readUser(documented)), documented);
  slipsOf("a user's key", readUser, documented);
  slipsOf("a pass", readPass, cases[0].pass);
  check("a pass of users", readOr(readPass, cases[0].user), "refused");
  for (const { pass, seed, open, nonce, jwt, sig } of cases) {
    const pkcs = Uint8Array.from([...unhex("302e020100300506032b657004220420"), ...unhex(seed)]);
    const secret = await crypto.subtle.importKey("pkcs8", pkcs, { name: "Ed25519" }, false, ["sign"]);
    const found = await shown(readPass(pass), { open: unhex(open), secret }, nonce);
    check("a token", found.jwt, jwt);
    check("a signed nonce", found.sig, sig);
  }
}

const given = JSON.parse(fs.readFileSync(cases, "utf8"));
for (const [what, does] of Object.entries(DOES)) for (const it of given[what] ?? []) check(what, ...does(bytesOf(it)));
await pairs(given.pairs);
await passes(given.passes);
slips(given.code);
await proofs();
console.log(`${counts.checks} checks, ${counts.failed} failed`);
process.exit(counts.failed > 0 ? 1 : 0);
