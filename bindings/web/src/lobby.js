// A lobby: pages meet by a code, and get a line with each other. One hosts and shows the code; who types it joins. A broker carries what
// they say until the lines are there, and can read none of it. They speak as native machines do (lib/lobby), so codes, the door, its
// relays and the seals are the same. Only the lines are others: a page has no socket, and a native machine no data channel.
import { Connection, isNobody } from "./broker.js";
import { Door } from "./door.js";
import { Guest } from "./joining.js";
import { Host } from "./hosting.js";
import { Pair, drawKeys, readCode } from "./keys.js";
import { Line } from "./line.js";
import { PAGE, REASONS, Why } from "./reasons.js";
import { drawUser, readPass, shown } from "./pass.js";
import { KINDS, MOST_COMMON, MOST_PLAYERS, cleanName, inboxSubject, readSignal, writeSignal } from "./messages.js";

export { Why };

const LOOK = 2000; // milliseconds between two looks whether the broker is there
const PATIENCE = 2000; // until it is said that it is away
const MOST_WAITING = 64; // messages
const MOST_IN_MATCH = 8; // of them in a turn, once a match is played: a liar's are opened in vain, and take its time
const MOST_EARLY = 24;

/** User and password are in a URL, or a pass alone, as in those of native programs; a browser takes them apart from it. */
function addressOf(text) {
  if (!/^wss?:\/\//.test(text)) throw new Error("the broker's address is none: wss://HOST:PORT was expected");
  const url = new URL(text);
  const [user, password] = [url.username, url.password].map((it) => (it === "" ? undefined : decodeURIComponent(it)));
  Object.assign(url, { username: "", password: "" });
  return user !== undefined && password === undefined ? { url: url.href, pass: readPass(user) } : { url: url.href, user, password };
}

export class Lobby {
  /** Opens a lobby as its host. Its code is told as an event. */
  static host(how) {
    const { players = 2, common = new Uint8Array(0) } = how;
    if (!(players >= 2 && players <= MOST_PLAYERS)) throw new Error("a match has 2 to 8 players");
    if (common.length > MOST_COMMON) throw new Error("what is handed to all is too long");
    return new Lobby(how, null);
  }

  /** Opens it as a friend who has the code, in small or capital letters, with spaces or dashes or without. It throws if it is none. */
  static join(code, how) {
    const found = readCode(code);
    if (found === null) throw new Error("this is no code: a sign of it may be wrong or missing");
    return new Lobby(how, found);
  }

  constructor(how, code) {
    const { broker, name = "", digest, hasDoor = false, servers = null, relayOnly = false, told = () => {} } = how;
    if (globalThis.crypto?.subtle === undefined) throw new Error("a browser seals nothing on this page: it has to come by https");
    const there = () => this.takeTurn();
    const { pass = null, ...address } = addressOf(broker);
    const shows = pass === null ? null : async (nonce) => shown(pass, await this.user, nonce);
    this.connection = new Connection({ ...address, shows, heard: (it) => this.hear(it), there });
    this.hasPass = pass !== null;
    this.user = drawUser();
    this.user.catch(() => {}); // (who waits for it is told)
    Object.assign(this, { name: cleanName(name) || "a player", digest: BigInt.asUintN(64, digest) ^ PAGE, relayOnly, told });
    Object.assign(this, { lines: new Map(), table: null, early: [], heardRoom: null, thereAt: this.now });
    Object.assign(this, { waiting: 0, heard: 0, lookedAt: 0 });
    Object.assign(this, { isHost: code === null, isOver: false, isReady: false, isAway: false, isClosed: false, isTurnDue: false });
    const isShort = code === null ? how.isShort === true : code.plate !== undefined;
    this.door = isShort || hasDoor ? new Door(this, servers === null) : null;
    this.servers = servers ?? [];
    this.side = this.isHost ? new Host(this, how) : new Guest(this, code);
    this.work = this.begin();
    this.beat = new Worker(new URL("./beat.js", import.meta.url));
    this.beat.onmessage = () => this.takeTurn();
  }

  /** A turn, unless the one before is still to come. What others say doesn't keep it back for longer than what waits already. */
  takeTurn() {
    if (this.isTurnDue) return;
    this.isTurnDue = true;
    this.inTurn(() => {
      this.isTurnDue = false;
      return this.turn();
    });
  }

  async begin() {
    try {
      this.keys = await drawKeys();
      this.inbox = (await this.user).open;
      this.inboxName = inboxSubject(this.inbox);
      this.connection.hear(this.inboxName);
      await this.door?.begin();
      await this.side.begin();
    } catch {
      this.end(Why.SYSTEM, "this browser has no keys of X25519 or Ed25519: Chromium has them from 137 on, Firefox from 130 on");
    }
  }

  get now() {
    return performance.now();
  }

  /** Does one thing after another. What is wrong in a message is left aside. */
  inTurn(act) {
    this.waiting++;
    this.work = this.work
      .then(() => this.isClosed || act())
      .catch(() => {})
      .finally(() => this.waiting--);
    return this.work;
  }

  tell(what, more = {}) {
    try {
      this.told({ what, ...more });
    } catch (why) {
      reportError(why); // (it is the page's own, and isn't to be lost here)
    }
  }

  end(why, text = REASONS[why] ?? REASONS[Why.NO_REASON]) {
    if (this.isOver) return;
    this.isOver = true;
    this.tell("ended", { why, text });
  }

  // ---- What is heard and said

  /** Hears a room in the place of the one before. */
  hearRoom(subject) {
    if (this.heardRoom !== null) this.connection.leave(this.heardRoom);
    this.heardRoom = this.connection.hear(subject);
  }

  /** Says something; what is answered at `reply` is heard, if that isn't null. */
  say(subject, body, reply = null) {
    this.connection.publish(subject, reply, body);
  }

  /** What is too much is lost, as any message may be: what matters is said again. */
  hear(message) {
    if (this.waiting >= MOST_WAITING || (this.isReady && ++this.heard > MOST_IN_MATCH)) return;
    this.inTurn(() => this.isOver || this.take(message));
  }

  async take(message) {
    const kind = message.body[0];
    const asked = message.subject === this.door?.inbox ? this.door : this.side;
    if (isNobody(message)) asked.hearNobody();
    else if (asked === this.door) await this.door.hear(message.body);
    else if (kind === KINDS.SIGNAL) await this.hearSignal(message.body);
    else if (kind !== undefined) await this.side.hear(kind, message);
  }

  // ---- A turn

  async turn() {
    const { now } = this;
    this.heard = 0;
    if (now - this.lookedAt >= LOOK) {
      this.lookedAt = now;
      this.connection.look();
    }
    this.lookAtBroker();
    if (this.isOver) return;
    this.door?.turn(now);
    await this.side.turn(now);
    if (this.table !== null) await this.lineUp(now);
    for (const { line } of this.lines.values()) line.turn(now);
  }

  get isThere() {
    return this.connection.why === null;
  }

  /** Tells once that the broker is away, until it is there again. */
  lookAtBroker() {
    if (!this.isThere && !this.isAway && this.now - this.thereAt >= PATIENCE) {
      this.isAway = true;
      this.tell("away", { text: this.connection.why });
    }
    if (this.isThere) Object.assign(this, { isAway: false, thereAt: this.now });
  }

  // ---- Lines

  /** The match is known. */
  begins(table) {
    this.table = table;
    this.tell("full");
    this.inTurn(() => this.lineUp(this.now));
  }

  /** Opens the lines, once the door has named its relays or is long in coming. */
  async lineUp(now) {
    if (this.lines.size > 0 || (this.door !== null && !this.door.isOver(now))) return;
    const { members, key, me } = this.table;
    try {
      for (let machine = 0; machine < members.length; machine++)
        if (machine !== me) this.lines.set(machine, await this.open(machine, members[machine], key, now));
    } catch (why) {
      this.end(Why.SYSTEM, `a line can't be opened: ${why.message}`);
    }
    for (const body of this.early.splice(0)) await this.hearSignal(body).catch(() => {});
  }

  async open(machine, { open, inbox, name }, key, now) {
    const { me } = this.table;
    const pair = await Pair.of({ key }, this.keys, open);
    const subject = inboxSubject(inbox);
    const line = new Line({
      isFirst: me < machine, servers: this.servers, relayOnly: this.relayOnly, now,
      say: (text) => this.say(subject, writeSignal(me, pair, text)),
      told: (what, text) => this.lineTold(machine, name, what, text),
    });
    return { pair, line };
  }

  async hearSignal(body) {
    if (this.lines.size === 0 && this.early.length < MOST_EARLY) this.early.push(body);
    const from = this.lines.get(body[1]);
    if (from !== undefined) await from.line.hear(readSignal(from.pair, body));
  }

  lineTold(machine, name, what, text) {
    if (what === "never") this.end(Why.NO_WAY);
    else this.tell(what, { machine, name, text });
    if (this.isReady || this.lines.size === 0 || [...this.lines.values()].some(({ line }) => line.channel === null)) return;
    this.isReady = true;
    this.tell("ready");
  }

  // ---- What a page asks for

  /** At the host: lets somebody in who asks, or says no. */
  letIn(who, yes) {
    return this.inTurn(() => this.side.letIn?.(who, yes));
  }

  /** The match, once all lines are up: whose number is whose, their names, and a channel to each other machine. */
  get match() {
    if (!this.isReady) return null;
    const { me, players, owners, number, members, common } = this.table;
    const channels = members.map((_, machine) => this.lines.get(machine)?.line.channel ?? null);
    return { me, machines: members.length, players, owners, number, names: members.map(({ name }) => name), common, channels };
  }

  /** Closes it, and all its lines; before a match the others are told. */
  close() {
    if (this.isClosed) return;
    if (!this.isReady && !this.isOver) this.side.close();
    this.isClosed = this.isOver = true;
    this.beat.terminate();
    this.connection.close();
    for (const { line } of this.lines.values()) line.close();
  }
}
