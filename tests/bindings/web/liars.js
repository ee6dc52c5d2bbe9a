// What liars can make a lobby of pages do, who speak at its broker, knock at its door or are its broker: node liars.js. Each line that it
// writes is a check that failed, and the last one says how many there were.
import { N, Pake } from "./src/pake.js";
import {
  Asks, DOOR, DoorSays, KINDS, Says, VERSION, inboxSubject, openAsk, readAsk, readKnock, readOffer, writeAnswer, writeAsk, writeHello,
  writeKnock, writeOffer,
} from "./src/messages.js";
import { Connection } from "./src/broker.js";
import { Door } from "./src/door.js";
import { Guest } from "./src/joining.js";
import { Host } from "./src/hosting.js";
import { Line } from "./src/line.js";
import { Lobby } from "./src/lobby.js";
import { bytesOf, drawn, joined, textBytes } from "./src/bytes.js";
import { Pair, codeOf, drawHost, drawKeys, readCode, roomOf, sealForAll } from "./src/keys.js";
import { Why } from "./src/reasons.js";
import { readUser } from "./src/pass.js";

const counts = { checks: 0, failed: 0 };
const NOTHING = new Uint8Array(0);
const PLATE = "KXQ";
const SECRET = "4H7P";

function check(what, found, due) {
  counts.checks++;
  if (found === due) return;
  counts.failed++;
  console.log(`${what}: ${found}, not ${due}`);
}

const long = (bytes) => joined(bytesOf(BigInt(bytes.length), 2), bytes);
const digitsOf = (number) => bytesOf(number, Math.ceil(number.toString(16).length / 2));

// ---- Numbers with which who doesn't know the secret would know the key

const CLIENT_KEYS = 16;
const SERVER_KEYS = 12;
const FORGED = [["0", 0n], ["N", N], ["2 N", 2n * N], ["N + 1", N + 1n]];

/** A guest that says such a number, and goes on with the key that it would make. */
class LyingGuest extends Pake {
  constructor(number) {
    super(false, PLATE, "0000");
    this.number = number;
  }

  say(kind, body) {
    return super.say(kind, kind === CLIENT_KEYS ? long(digitsOf(this.number)) : body);
  }

  derive() {
    return super.derive(this.number % N);
  }
}

class LyingHost extends Pake {
  constructor(number) {
    super(true, PLATE, "0000");
    this.number = number;
  }

  say(kind, body) {
    const front = body.subarray(0, 2 + 256 + 2 + 1 + 1 + 16); // the group, and a salt
    return super.say(kind, kind === SERVER_KEYS ? joined(front, long(digitsOf(this.number))) : body);
  }
}

async function forgedNumbers() {
  for (const [what, number] of FORGED) {
    const [host, liar] = [new Pake(true, PLATE, SECRET), new LyingGuest(number)];
    await host.turn(await liar.turn(await host.turn(await liar.turn(NOTHING))));
    check(`a guest who says ${what}`, host.state, "wrong");
    const [guest, other] = [new Pake(false, PLATE, SECRET), new LyingHost(number)];
    const said = await guest.turn(await other.turn(await guest.turn(NOTHING)));
    check(`a host who says ${what}`, `${guest.state}, ${said.length} bytes`, "wrong, 0 bytes");
  }
}

// ---- What is more than has to be said

/** It knows the secret, and proves it by a proof with a byte behind it. */
class LongProof extends Pake {
  async proofOf(side) {
    const proof = await super.proofOf(side);
    return this.isHost === (side === "server") ? joined(proof, Uint8Array.of(0)) : proof;
  }
}

/** It knows the secret, and one of its messages has a record behind it. */
class MoreRecords extends Pake {
  constructor(isHost, name, secret, at, record) {
    super(isHost, name, secret);
    Object.assign(this, { at, record });
  }

  async turn(bytes) {
    const isIt = this.step === this.at;
    const said = await super.turn(bytes);
    return isIt ? joined(said, Uint8Array.from(this.record)) : said;
  }
}

/** How a guest and a host end: each one says what the other has said before. */
async function ended(guest, host) {
  let said = NOTHING;
  for (let step = 0; step < 5; step++) said = await (step % 2 === 0 ? guest : host).turn(said);
  return `${guest.state} ${host.state}`;
}

async function moreThanDue() {
  check("two who know it", await ended(new Pake(false, PLATE, SECRET), new Pake(true, PLATE, SECRET)), "done done");
  check("a guest's long proof", await ended(new LongProof(false, PLATE, SECRET), new Pake(true, PLATE, SECRET)), "wrong wrong");
  check("a host's long proof", await ended(new Pake(false, PLATE, SECRET), new LongProof(true, PLATE, SECRET)), "wrong done");
  for (const [what, record] of [["a message", [22, 3, 3, 0, 4, 0, 0, 0, 0]], ["a change of keys", [20, 3, 3, 0, 1, 1]]])
    for (let at = 0; at < 2; at++) {
      const guest = await ended(new MoreRecords(false, PLATE, SECRET, at, record), new Pake(true, PLATE, SECRET));
      check(`${what} behind a guest's message ${at}`, guest, "wrong wrong");
      const [own, other] = [new Pake(false, PLATE, SECRET), new MoreRecords(true, PLATE, SECRET, at, record)];
      await ended(own, other);
      check(`${what} behind a host's message ${at}`, own.state, "wrong");
    }
}

/** What a side needs of a lobby. `said` is what it has said. */
async function lobbyOf() {
  const lobby = { now: 0, isThere: true, isReady: false, isOver: false, table: null, name: "Anna", digest: 0n, said: [], told: [] };
  lobby.say = (subject, body) => lobby.said.push({ subject, body });
  lobby.tell = (what, more) => lobby.told.push({ what, ...more });
  lobby.begins = (table) => Object.assign(lobby, { table });
  lobby.end = (why) => Object.assign(lobby, { isOver: true, why });
  lobby.hearRoom = () => {};
  lobby.connection = { hear() {} };
  const inbox = drawn(32);
  return Object.assign(lobby, { keys: await drawKeys(), inbox, inboxName: inboxSubject(inbox), door: new Door(lobby, false) });
}

// ---- Who answers in the place of a host

/** Who has a long code, but isn't its host, can be nobody's host: neither by a host's own key nor by that of another. */
async function forgedOffers() {
  const lobby = await lobbyOf();
  const [host, other, speaks] = [await drawHost(), await drawHost(), await drawKeys()];
  const code = codeOf(host.host);
  const room = roomOf(code);
  const guest = new Guest(lobby, { code });
  await guest.begin();
  const says = async (it, by, vouched) => {
    const body = writeOffer(room, { host: it.host, speaks: speaks.open, proof: await by.vouch(vouched), inbox: drawn(32) });
    await guest.hear(KINDS.OFFER, { body });
    return lobby.said.length;
  };
  check("an offer by another host", await says(other, other, speaks.open), 0);
  check("an offer that another vouches for", await says(host, other, speaks.open), 0);
  check("an offer for another key", await says(host, host, lobby.keys.open), 0);
  check("the host's own", await says(host, host, speaks.open), 1);
  await forgedTables({ lobby, guest, room, speaks, host, code });
}

/** And the host may tell a guest of no match but one in which both are. */
async function forgedTables({ lobby, guest, room, speaks, host, code }) {
  const { open, rest } = openAsk(room, lobby.said[0].body);
  const pair = await Pair.of(room, speaks, open);
  check("who asks", readAsk(pair, rest).name, "Anna");
  const stranger = (await drawKeys()).open;
  const answers = (counter, me, opens, more = {}) => {
    const members = opens.map((it) => ({ open: it, inbox: drawn(32), name: "it" }));
    const table = { me, players: 2, owners: [0, 1], number: 7n, key: drawn(32), code, host: host.host, members, common: NOTHING, ...more };
    table.proof = drawn(64);
    return guest.hear(KINDS.ANSWER, { body: writeAnswer(pair, { counter, says: Says.BEGINS, name: "Ben", table }) });
  };
  const begins = async (what, due, ...of) => {
    await answers(...of).catch(() => {});
    check(what, lobby.table !== null, due);
  };
  await begins("a match of another host", false, 1, 1, [stranger, open]);
  await begins("a match of another guest", false, 2, 1, [speaks.open, stranger]);
  await begins("a match in which a guest is its host", false, 3, 0, [open, speaks.open]);
  await begins("a match in a place that isn't there", false, 4, 2, [speaks.open, open]);
  await begins("a match with a player of no machine", false, 5, 1, [speaks.open, open], { owners: [0, 2] });
  await begins("a match of two machines with one key", false, 6, 1, [speaks.open, open, speaks.open], { players: 3, owners: [0, 1, 2] });
  await begins("a match that is told again", false, 3, 1, [speaks.open, open]);
  await begins("the host's own match", true, 7, 1, [speaks.open, open]);
}

const doubts = (lobby) => lobby.told.filter(({ what }) => what === "unanswered").map(({ why, text }) => `${why} ${text}`).join();

/** Who says that nobody hears a room, which anybody can, ends nothing before ten seconds. */
async function falseNobody() {
  const lobby = await lobbyOf();
  const guest = new Guest(lobby, { code: codeOf((await drawHost()).host) });
  await guest.begin();
  await guest.turn(0);
  for (let times = 0; times < 10; times++) guest.hearNobody();
  check("what is told at once", doubts(lobby), `${Why.NO_SUCH_CODE} nobody answers so far: waiting for 10 seconds at most`);
  for (lobby.now = 0; lobby.now < 10000; lobby.now += 500) await guest.turn(lobby.now);
  check("it is waited for ten seconds", lobby.isOver, false);
  await guest.turn(lobby.now);
  check("and no longer", lobby.why, Why.NO_SUCH_CODE);
}

/** A guest that has knocked by a short code. */
async function knocking(secret) {
  const lobby = await lobbyOf();
  const guest = new Guest(lobby, { plate: PLATE, secret });
  lobby.door.ask = () => {};
  await guest.begin();
  await guest.hearDoor({ says: DoorSays.OK, token: drawn(16) });
  const says = (more) => guest.hear(KINDS.KNOCKED, { body: writeKnock(KINDS.KNOCKED, { ...guest.knock, bytes: NOTHING, ...more }) });
  return { lobby, guest, says };
}

/** A host's answer to what a guest has knocked with last. */
async function answered(host, { lobby, guest }) {
  const reply = inboxSubject(lobby.inbox);
  await host.side.turn(host.now);
  await host.side.hear(KINDS.KNOCK, { reply, body: writeKnock(KINDS.KNOCK, guest.knock) });
  return host.said.at(-1).body;
}

/** Who hears a friend knock, and answers in the host's place, ends nothing either: the host's own answer lets it in. */
async function falseKnocked() {
  const host = await hosting();
  const it = await knocking(host.side.secret);
  const { lobby, guest, says } = it;
  for (let times = 0; times < 10; times++) await says({ isWrong: true });
  check("what is told at once", doubts(lobby), `${Why.WRONG_CODE} the code's last four signs may be wrong: waiting for 3 seconds at most`);
  await says({ bytes: drawn(300) });
  await says({});
  check("proofs that are spoilt are begun anew", guest.knocks, 3);
  await guest.hear(KINDS.KNOCKED, { body: await answered(host, it) });
  const last = await answered(host, it);
  await says({ isWrong: true });
  await guest.hear(KINDS.KNOCKED, { body: Uint8Array.from(last, (byte, at) => (at === last.length - 1 ? byte ^ 1 : byte)) });
  check("it ends nothing", lobby.isOver, false);
  await guest.hear(KINDS.KNOCKED, { body: last });
  check("the friend asks to be let in", lobby.said.at(-1).body[0], KINDS.ASK);
  lobby.now += 5000;
  await guest.turn(lobby.now);
  check("and nothing is believed any more", lobby.isOver, false);
}

/** What isn't answered otherwise is believed after three seconds. */
async function wrongSigns() {
  const { lobby, guest, says } = await knocking("0000");
  for (let times = 0; times < 6; times++) await says({ bytes: drawn(200) });
  check("a guest knocks so often", guest.knocks, 3);
  lobby.now = 2900;
  await guest.turn(lobby.now);
  check("it is waited for three seconds", lobby.isOver, false);
  lobby.now = 3000;
  await guest.turn(lobby.now);
  check("and no longer, for a wrong code", lobby.why, Why.WRONG_CODE);
}

/** Who has left isn't brought back by what it said, however many have left behind it, up to 4,096. */
function ghosts() {
  const lobby = { tell() {} };
  const host = new Host(lobby, {});
  for (let at = 0; at < 5000; at++) host.forget(`guest ${at}`, { stage: "refused" });
  check("who left long ago", host.gone.has("guest 903"), false);
  check("4,096 are remembered", host.gone.has("guest 904") && host.gone.has("guest 4999"), true);
  check("and no more", host.gone.size, 4096);
}

/** Who has a code can't keep its host busy by long messages: they aren't opened. */
function longMessages() {
  const room = roomOf(drawn(16));
  const opens = (length) => {
    const body = joined(Uint8Array.of(KINDS.ASK), sealForAll(room, KINDS.ASK, new Uint8Array(length)));
    try {
      return openAsk(room, body).rest.length;
    } catch {
      return null;
    }
  };
  check("an ask", opens(118), 86);
  check("a long one", opens(8000), null);
}

// ---- Who knocks

/** A lobby that hosts by a short code. */
async function hosting() {
  const lobby = await lobbyOf();
  await lobby.door.begin();
  lobby.side = new Host(lobby, { isShort: true });
  await lobby.side.begin();
  lobby.side.hearPlate(PLATE);
  return lobby;
}

/** Says one step of a proof to a host: what it answers; null if it says nothing. */
async function knocks(lobby, guest, bytes) {
  const reply = inboxSubject(guest.inbox);
  const said = lobby.said.length;
  await lobby.side.turn(lobby.now);
  await lobby.side.hear(KINDS.KNOCK, { reply, body: writeKnock(KINDS.KNOCK, { id: guest.id, step: ++guest.knocks, bytes }) });
  return lobby.said.length > said ? readKnock(lobby.said.at(-1).body) : null;
}

const stranger = (secret) => Object.assign(new Pake(false, PLATE, secret), { inbox: drawn(32), id: drawn(16), knocks: 0 });
const otherThan = (secret) => (secret === "0000" ? "0001" : "0000");

/** However many try at once, five tries are all. */
async function triesAtOnce() {
  const lobby = await hosting();
  const guests = Array.from({ length: 12 }, () => stranger(otherThan(lobby.side.secret)));
  const came = [];
  for (const it of guests) came.push(await knocks(lobby, it, await it.turn(NOTHING)));
  check("who knocks at once", came.filter((it) => it !== null).length, 8);
  let wrong = 0;
  const before = lobby.side.secret;
  for (const [at, it] of guests.entries()) {
    const answer = came[at] === null ? null : await knocks(lobby, it, await it.turn(came[at].bytes));
    if (answer?.isWrong) wrong++;
  }
  check("tries of those at once", wrong, 5);
  check("then there is another secret", before !== lobby.side.secret && lobby.side.plate === "", true);
}

/** Whose word a host takes who has shown that it knows the code: what it asks for, sealed. */
async function comesIn(lobby) {
  const guest = stranger(lobby.side.secret);
  const first = await knocks(lobby, guest, await guest.turn(NOTHING));
  const last = await knocks(lobby, guest, await guest.turn(first.bytes));
  await guest.turn(last.bytes);
  const room = { name: lobby.side.room.name, key: await guest.key() };
  const keys = await drawKeys();
  const pair = await Pair.of(room, keys, lobby.keys.open);
  return (counter) => writeAsk(room, pair, { counter, leaves: false, digest: lobby.digest, name: "Ben" });
}

/** Twenty tries are all: then there is the long code, and the page is told why. Who has come in before stays. */
async function allTries() {
  const lobby = await hosting();
  const asks = await comesIn(lobby);
  const inbox = inboxSubject(drawn(32));
  await lobby.side.hear(KINDS.ASK, { reply: inbox, body: asks(1) });
  const codes = () => lobby.told.filter(({ what }) => what === "code");
  for (let at = 0; at < 4; at++) {
    check("a short code", codes().at(-1).text.length, 8);
    for (const it of Array.from({ length: 5 }, () => stranger(SECRET))) await knocks(lobby, it, await it.turn(NOTHING));
    lobby.now += 5000;
    await lobby.side.turn(lobby.now);
    await lobby.side.hear(KINDS.ASK, { reply: inbox, body: asks(2 + at) });
    if (at < 3) lobby.side.hearPlate(`KX${at}`);
  }
  check("why codes are others", codes().map(({ why }) => why).join(), [0, 8, 8, 8, 8].join());
  check("a long one", readCode(codes()[4].text)?.plate, undefined);
  const late = stranger(SECRET);
  check("who knocks then", await knocks(lobby, late, await late.turn(NOTHING)), null);
  check("who came in before", lobby.side.guests.size, 1);
  const said = lobby.said.length;
  await lobby.side.hear(KINDS.HELLO, { reply: inbox, body: writeHello(roomOf(lobby.side.code), drawn(32)) });
  check("who comes by the long one", lobby.said.length - said, 1);
}

/** Who says again what another one knocked with isn't told what that one is told. */
async function knocksAgain() {
  const lobby = await hosting();
  const [guest, other] = [stranger(lobby.side.secret), drawn(32)];
  const first = await knocks(lobby, guest, await guest.turn(NOTHING));
  const said = lobby.said.length;
  const again = async (inbox) => {
    const body = writeKnock(KINDS.KNOCK, { id: guest.id, step: 1, bytes: NOTHING });
    await lobby.side.hear(KINDS.KNOCK, { reply: inboxSubject(inbox), body });
    return lobby.said.length - said;
  };
  check("who knocks", first !== null, true);
  check("who knocks by another one's word", await again(other), 0);
  check("who knocks again", await again(guest.inbox), 1);
}

/** Who says nothing more has had a try too. */
async function triesUnshown() {
  const lobby = await hosting();
  for (let at = 0; at < 5; at++) {
    const it = stranger(SECRET);
    await knocks(lobby, it, await it.turn(NOTHING));
  }
  check("there are tries left", lobby.side.plate, PLATE);
  lobby.now += 5000;
  await lobby.side.turn(lobby.now);
  check("five who show nothing", lobby.side.plate, "");
}

/** Once the match is known, the last try leaves no code, also after the door's next answer. */
async function triesInAMatch() {
  const lobby = await hosting();
  lobby.table = {};
  for (let at = 0; at < 5; at++) {
    const it = stranger(otherThan(lobby.side.secret));
    const first = await knocks(lobby, it, await it.turn(NOTHING));
    await knocks(lobby, it, await it.turn(first.bytes));
  }
  check("no code after five tries in a match", lobby.side.plate, "");
  lobby.door.answeredAt = lobby.now;
  const said = lobby.said.length;
  lobby.now += 60000;
  lobby.door.turn(lobby.now);
  const asked = lobby.said.slice(said).filter(({ subject, body }) => subject === DOOR && body[1] === Asks.HOSTS);
  check("no plate is asked for any more", asked.length, 0);
}

// ---- Who speaks at the broker without an end, and a broker that does

class Socket {
  static OPEN = 1;
  readyState = 1;

  constructor(url) {
    Socket.last = this;
    Object.assign(this, { url, sent: [] });
  }

  send(bytes) {
    this.sent.push(bytes);
  }

  close() {
    this.readyState = 3;
  }

  says(...parts) {
    this.onmessage({ data: joined(...parts.map((it) => (typeof it === "string" ? textBytes(it) : it))).buffer });
  }
}

class Beat {
  constructor() {
    Beat.last = this;
  }

  terminate() {}
}

globalThis.WebSocket = Socket;
globalThis.Worker = Beat;
globalThis.reportError ??= (why) => console.log(why);

/** A host is told so many greetings that one always waits. */
async function flood() {
  const events = [];
  const lobby = Lobby.host({ broker: "ws://127.0.0.1:1", digest: 1n, told: (it) => events.push(it) });
  const socket = Socket.last;
  socket.says("INFO {}\r\n", "PONG\r\n");
  await lobby.work;
  const room = roomOf(readCode(events.find((it) => it.what === "code").text).code);
  const hello = writeHello(room, drawn(32));
  const greeting = [`MSG faz.meet.${room.name} 1 ${inboxSubject(drawn(32))} ${hello.length}\r\n`, hello, "\r\n"];
  let turns = 0;
  const { turn } = lobby.side;
  lobby.side.turn = (now) => {
    turns++;
    return turn.call(lobby.side, now);
  };
  let most = 0;
  for (let at = 0; at < 1000 && turns < 2; at++) {
    for (let times = 0; times < 100; times++) socket.says(...greeting);
    most = Math.max(most, lobby.waiting);
    Beat.last.onmessage();
    Beat.last.onmessage();
    await new Promise((resolve) => setTimeout(resolve, 5));
  }
  check("turns while others speak without an end", turns, 2);
  check("what waits meanwhile", most <= 66, true);
  await lobby.work;
  let taken = 0;
  Object.assign(lobby, { isReady: true, take: () => taken++ });
  for (let at = 0; at < 40; at++) {
    socket.says(...greeting);
    await lobby.work;
  }
  check("what a page takes in a turn of its match", taken, 8);
  lobby.close();
}

/** A message that never ends isn't kept for ever, and its connection is made anew. */
function endless() {
  const heard = [];
  const connection = new Connection({ url: "ws://127.0.0.1:1", heard: (it) => heard.push(it) });
  const socket = Socket.last;
  socket.says("INFO {}\r\n", "PONG\r\n", "MSG faz.in.00 1 3\r\nabc\r\n");
  check("a message is heard", heard.length, 1);
  socket.says("INFO {}\r\n");
  check("a broker is greeted once", socket.sent.filter((it) => new TextDecoder().decode(it).startsWith("CONNECT ")).length, 1);
  const part = new Uint8Array(1 << 18);
  for (const size of ["999999999", "nonsense"]) {
    const it = Socket.last;
    it.says(`MSG faz.in.00 1 ${size}\r\n`);
    for (let at = 0; at < 12; at++) if (it.readyState === Socket.OPEN) it.says(part);
    check(`a message of ${size} bytes`, it.readyState !== Socket.OPEN && connection.why !== null, true);
    connection.connect();
  }
  connection.close();
}

// ---- A broker that wants to be shown something

const textOf = (socket) => socket.sent.map((it) => new TextDecoder().decode(it)).join("");
const soon = () => new Promise((resolve) => setTimeout(resolve, 20));

/** Nothing is said before what is shown, which takes a moment; and nothing by a connection that has ended meanwhile. */
async function greetings() {
  const asked = [];
  const shows = (nonce) => new Promise((resolve) => asked.push({ nonce, resolve }));
  const connection = new Connection({ url: "ws://127.0.0.1:1", shows, heard() {} });
  connection.hear("faz.in.x");
  const first = Socket.last;
  connection.look();
  first.says('INFO {"nonce":"it is"}\r\n', "INFO {}\r\n");
  connection.look();
  connection.hear("faz.in.y");
  check("what is said before a greeting", textOf(first), "");
  check("what is to be signed", asked.map((it) => it.nonce).join(), "it is");
  asked[0].resolve({ jwt: "a token", sig: "signed" });
  await soon();
  const [greeting, ...others] = textOf(first).split("\r\n");
  const { jwt, sig, user } = JSON.parse(greeting.slice(8));
  check("what is shown", `${greeting.slice(0, 7)} ${jwt} ${sig} ${user}`, "CONNECT a token signed undefined");
  check("what is said behind it", others.join(), "SUB faz.in.x 1,SUB faz.in.y 2,PING,");
  first.says("-ERR 'Authorization Violation'\r\n");
  check("a pass that isn't taken", connection.why, "the broker doesn't take this pass");
  connection.connect();
  const second = Socket.last;
  second.says("INFO nonsense\r\n");
  connection.connect();
  asked[1].resolve({ jwt: "late" });
  await soon();
  check("what is said to a broker that is gone", textOf(second) + textOf(Socket.last), "");
  connection.close();
}

/** A page's lobby with a pass: its socket isn't told that, and it hears inboxes of its own user alone. */
async function withPass() {
  const pass = "SAAEHIWEKULOERSUIWN3EZG5SQZ5MIZRPODLROKQ5HPRVG7BPIGWX5BNLUAD7OCQWUVVK24WTX3JI3EPIZNFHTDO2ZQ35HV2K4PB2QUO7OBZ5WATY6";
  const opened = (broker) => {
    try {
      const lobby = Lobby.host({ broker, digest: 1n, hasDoor: true });
      return Object.assign(lobby, { socket: Socket.last });
    } catch (why) {
      return why.message;
    }
  };
  for (const wrong of [pass.slice(1), `A${pass}`, `${pass.slice(0, -1)}7`, pass.toLowerCase(), "secret"])
    check(`the pass ${wrong}`, String(opened(`wss://${wrong}@127.0.0.1:1`)).includes("pass in the broker's address can't be read"), true);
  const lobby = opened(`wss://${pass}@127.0.0.1:1`);
  check("what a socket is told", lobby.socket.url, "wss://127.0.0.1:1/");
  lobby.socket.says('INFO {"nonce":"n"}\r\n');
  await lobby.work;
  await soon();
  const user = /SUB faz\.in\.(U\w+) /.exec(textOf(lobby.socket))[1];
  const subjects = [...textOf(lobby.socket).matchAll(/SUB (\S+) /g)].map((it) => it[1]);
  check("what it hears", subjects.slice(0, 2).join(), `faz.in.${user},faz.in.${user}.door`);
  check("and a room", subjects.length === 3 && subjects[2].startsWith("faz.meet."), true);
  const { sub } = JSON.parse(atob(JSON.parse(textOf(lobby.socket).split("\r\n")[0].slice(8)).jwt.split(".")[1]));
  check("whose token it shows", sub, user);
  const other = opened("ws://user:word@127.0.0.1:1");
  await other.work;
  check("a user and a password", `${other.connection.user} ${other.connection.password} ${other.connection.shows}`, "user word null");
  check("each lobby has a user of its own", other.inboxName !== lobby.inboxName && readUser(user) !== null, true);
  lobby.close();
  other.close();
}

/** Who says hello by version 1 is offered this version, in an inbox of version 1; who wants an answer elsewhere gets none. */
async function older() {
  const lobby = await lobbyOf();
  lobby.side = new Host(lobby, {});
  await lobby.side.begin();
  const { room } = lobby.side;
  const body = writeHello(room, drawn(32));
  const inbox = `faz.in.${"0123456789abcdef".repeat(2)}`;
  const answered = async (reply) => {
    const said = lobby.said.length;
    await lobby.side.hear(KINDS.HELLO, { reply, body });
    return lobby.said.slice(said).map((it) => it.subject).join();
  };
  check("an older friend", await answered(inbox), inbox);
  check("what it is told", readOffer(room, lobby.said.at(-1).body).version, VERSION);
  const now = inboxSubject(drawn(32));
  check("a friend of now", await answered(now), now);
  for (const reply of [null, `${inbox}0`, "faz.in.>", "faz.meet.x", inbox.toUpperCase(), `${now}.door`, now.slice(0, -1), `${now}A`])
    check(`an answer to ${reply}`, await answered(reply), "");
}

// ---- Who plays along

class PeerConnection {
  addIceCandidate() {
    PeerConnection.count++;
    return Promise.resolve();
  }

  close() {}
}
globalThis.RTCPeerConnection = PeerConnection;

async function ways() {
  const said = [];
  PeerConnection.count = 0;
  const line = new Line({ isFirst: false, servers: [], relayOnly: false, say: (it) => said.push(it), told() {}, now: 0 });
  line.put({ end: true });
  for (const [first, items, heard] of [[0, [], "all"], [0, 7, 0], [null, [], {}], [-1, [], 0]]) {
    const text = JSON.stringify({ first, items, heard });
    check(`a text of a liar's: ${text}`, await line.hear(text).then(() => "taken", () => "refused"), "refused");
  }
  said.length = 0;
  line.turn(1000);
  check("what wasn't heard is said again", said.length, 1);
  for (let first = 0; first < 10000; first += 100)
    await line.hear(JSON.stringify({ first, items: Array(100).fill({ candidate: {} }), heard: 0 }));
  check("ways that one may name", PeerConnection.count, 256);
  line.close();
}

/** By a relay alone the other is told of places on relays, and of no address of this computer. */
function hiddenWays() {
  const said = [];
  const line = new Line({ isFirst: false, servers: [], relayOnly: true, say: (it) => said.push(it), told() {}, now: 0 });
  const [relay, relay6] = ["203.0.113.10 50000 typ relay", "2001:db8::a0 50000 typ relay"];
  const ways = [
    "192.0.2.2 4000 typ host generation 0", "fd00::2 4001 typ host", "9b36eaac-bb2e.local 4002 typ host",
    `${relay} raddr 192.0.2.2 rport 4003`,
    "198.51.100.7 40000 typ srflx raddr 192.0.2.2 rport 4000", `${relay6} raddr fd00::2 rport 4004 generation 0`,
  ].map((it, at) => `candidate:${at} 1 udp 41885439 ${it}`);
  const sdp = ["v=0", "o=- 1 2 IN IP4 192.0.2.2", "s=-", "m=application 4000 UDP/DTLS/SCTP webrtc-datachannel", "c=IN IP6 fd00::2",
    ...ways.map((it) => `a=${it}`), "a=ice-ufrag:Anna", ""].join("\r\n");
  line.put({ description: { type: "offer", sdp } });
  for (const candidate of [...ways, ""]) line.put({ candidate: { candidate, sdpMid: "0" } });
  line.put({ end: true });
  for (const own of ["192.0.2.2", "fd00::2", ".local", "198.51.100.7"])
    check(`the address ${own}`, said.some((it) => it.includes(own)), false);
  const items = said.flatMap((it) => JSON.parse(it).items);
  const told = items.flatMap(({ candidate }) => candidate?.candidate ?? []);
  const due = [relay, relay6].map(
    (it, at) => `candidate:${3 + 2 * at} 1 udp 41885439 ${it} raddr 0.0.0.0 rport 0${at === 0 ? "" : " generation 0"}`,
  );
  check("the places that are told", told.join(), [...due, ""].join());
  const rows = items[0].description.sdp.split("\r\n");
  check("the rows that are told", rows.length, sdp.split("\r\n").length - 4);
  check("those of places", rows.filter((it) => it.startsWith("a=candidate")).join(), due.map((it) => `a=${it}`).join());
  line.close();
}

await forgedNumbers();
await moreThanDue();
await forgedOffers();
await falseNobody();
await falseKnocked();
await wrongSigns();
ghosts();
longMessages();
await triesAtOnce();
await knocksAgain();
await triesUnshown();
await allTries();
await triesInAMatch();
await flood();
endless();
await greetings();
await withPass();
await older();
await ways();
hiddenWays();
console.log(`${counts.checks} checks, ${counts.failed} failed`);
process.exit(counts.failed > 0 ? 1 : 0);
