// Watches a match that its players publish on a broker (docs/WATCH.md): the rows that are settled, and a state to begin with.
import { raw } from "./fazgrond.js";
import { Broker } from "./broker.js";

const RUN = 15;
const CHAPTER = 600;
const MOST_FRAMES = 1048576;
const CUSHION = 30; // frames that are kept in hand
const SLACK = 2 * RUN; // so many over the cushion are played at the usual speed
const CATCH_UP = 8; // frames in a turn, at most
const PATIENCE = 60; // turns until less than the cushion is played, and until an end is believed
const SILENCE = 1000;
const KINDS = { ROWS: 1, HEAD: 16, SNAP: 17, SUM: 18, END: 19 };
const KIND_AT = 13;
const MARK = "FZG"; // and the digit of the version of packets

const pause = (time) => new Promise((resolve) => setTimeout(resolve, time));

/** What messages say, once they are found to be of this match and whole. */
class Messages {
  constructor(library, match) {
    this.library = library;
    const name = new TextEncoder().encode(`${match}\0`);
    library.u8().set(name, library.room);
    this.number = library.calls.match_number(library.room);
    this.malformed = 0;
  }

  kind(bytes) {
    const mark = String.fromCharCode(...bytes.subarray(0, MARK.length));
    return bytes.length > KIND_AT && mark === MARK ? bytes[KIND_AT] : KINDS.ROWS;
  }

  /** Has a function read bytes that lie in the module's memory, and gives that memory back. */
  reading(bytes, read) {
    const { library } = this;
    const at = library.allocate(bytes.length);
    library.u8().set(bytes, at);
    const found = read(at, bytes.length, library.calls, library.room);
    library.calls.dealloc(at);
    if (found === null) this.malformed++;
    return found;
  }

  text(at, most) {
    const bytes = this.library.u8().slice(at, at + most);
    return new TextDecoder().decode(bytes.subarray(0, bytes.indexOf(0)));
  }

  head(bytes) {
    return this.reading(bytes, (at, length, calls, room) => {
      if (calls.read_head(at, length, this.number, room) === 0) return null;
      const number = (place) => this.library.number(room + place);
      return { players: number(0), rate: number(4), size: number(48), game: this.text(room + 52, 33) };
    });
  }

  rows(bytes, players) {
    return this.reading(bytes, (at, length, calls, room) => {
      const count = calls.read_rows(at, length, this.number, players, room, room + 8);
      if (count === 0) return null;
      const memory = this.library.u32();
      const place = (row) => (room + 8 + row * raw.Row.size) >>> 2;
      const rows = Array.from({ length: count }, (_, row) => ({
        words: memory.slice(place(row) + 2, place(row) + 2 + players), gone: memory[place(row) + 1],
      }));
      return { first: this.library.number(room), rows };
    });
  }

  sumAt(room) {
    const digest = this.library.data().getBigUint64(room + 8, true);
    return { frame: this.library.number(room), gap: this.library.number(room + 4), digest };
  }

  sum(bytes) {
    return this.reading(bytes, (at, length, calls, room) =>
      calls.read_sum(at, length, this.number, room) === 0 ? null : this.sumAt(room));
  }

  snap(bytes, size) {
    return this.reading(bytes, (at, length, calls, room) => {
      const begin = calls.read_snap(at, length, this.number, size, room);
      return begin === 0 ? null : { ...this.sumAt(room), state: bytes.slice(begin) };
    });
  }

  end(bytes) {
    return this.reading(bytes, (at, length, calls, room) =>
      calls.read_end(at, length, this.number, room, room + 8) === 0
        ? null
        : { frames: this.library.number(room), reason: this.text(room + 8, 128) });
  }
}

/**
 * A match that is watched. `game` has its `name` and the `size` of its states, `load(bytes, players)`, which goes on from bytes and
 * says whether they are a state (they may be forged), `step(words, gone)` and `digest()`.
 */
export class Watched {
  constructor(library, { url, user, password, match, game }) {
    if (!/^[\w-]{1,32}$/.test(match)) throw new Error("a match's name is 1 to 32 letters, digits, - and _");
    Object.assign(this, { match, game, messages: new Messages(library, match) });
    this.rows = new Map();
    this.sums = new Map();
    this.digests = new Map(); // of what was played, where chapters begin
    Object.assign(this, { head: null, end: null, frame: 0, known: 0, isShown: false, isWaiting: true, waited: 0, quiet: 0 });
    /** The first frame at which the players' digest is another one than that of what was played; null if none is known. */
    this.desync = null;
    /** Frames that couldn't be published. */
    this.gaps = 0;
    this.heardAt = performance.now();
    this.missing = -1; // a frame whose row the broker was asked for in vain
    this.wanted = null; // the chapter whose state is asked for
    this.broker = new Broker({ url, user, password, subject: `live.${match}.*`, heard: (bytes) => this.hear(bytes) });
    this.isClosed = false;
    this.readAll();
  }

  close() {
    this.isClosed = true;
    this.broker.close();
  }

  /** Why nothing is shown, in words, or null. */
  get why() {
    if (this.broker.why !== null && !this.isShown) return this.broker.why;
    if (this.head !== null && (this.head.game !== this.game.name || this.head.size !== this.game.size))
      return `the match is of another game: ${this.head.game}`;
    return null;
  }

  /** How many frames are there to be played. */
  get ahead() {
    let frame = this.frame;
    while (this.rows.has(frame)) frame++;
    return frame - this.frame;
  }

  get hasEnded() {
    return this.end !== null && this.isShown && this.frame >= this.end.frames && this.quiet >= PATIENCE;
  }

  // ---- What comes.

  hear(bytes) {
    this.heardAt = performance.now();
    this.take(bytes);
  }

  /** Takes a message: the first valid one stands. */
  take(bytes) {
    if (this.head === null) return;
    const { messages } = this;
    const kind = messages.kind(bytes);
    if (kind === KINDS.ROWS) this.takeRows(messages.rows(bytes, this.head.players));
    else if (kind === KINDS.SUM) this.takeSum(messages.sum(bytes));
    else if (kind === KINDS.END) this.takeEnd(messages.end(bytes));
  }

  takeRows(run) {
    run?.rows.forEach((row, at) => {
      const frame = run.first + at;
      if (!this.rows.has(frame)) this.rows.set(frame, row);
      this.known = Math.max(this.known, frame + 1);
    });
  }

  takeSum(sum) {
    if (sum === null) return;
    const before = this.sums.get(sum.frame);
    if (before === undefined || (before.digest === sum.digest && before.gap < sum.gap)) this.sums.set(sum.frame, sum);
    this.compare(sum.frame);
  }

  takeEnd(end) {
    if (end !== null && (this.end === null || end.frames > this.end.frames)) this.end = end;
  }

  // ---- What is asked for.

  async readAll() {
    while (!this.isClosed) {
      if (this.broker.why === null) await this.readOne();
      await pause(20);
    }
  }

  async readOne() {
    if (this.head === null) await this.readHead();
    else if (this.why !== null) await pause(500);
    else if (!this.isShown) await this.readState(await this.lastChapter(), 0);
    else if (this.wanted !== null) await this.readState(this.wanted, this.wanted);
    else await this.readRows();
  }

  /** The first message of a subject of which a function makes something. */
  async first(subject, read) {
    for (let place = 1; !this.isClosed; ) {
      const message = await this.broker.next(subject, place);
      if (message === null || message.body === null) return null;
      const found = read(message.body);
      if (found !== null) return found;
      place = message.place + 1;
    }
    return null;
  }

  async readHead() {
    this.head = await this.first(`faz.${this.match}.head`, (bytes) => this.messages.head(bytes));
    if (this.head === null) await pause(500);
  }

  async lastChapter() {
    const message = await this.broker.last(`faz.${this.match}.snap.*`);
    const chapter = Number(message?.subject?.split(".").at(-1) ?? 0);
    return Math.min(Number.isInteger(chapter) ? chapter : 0, MOST_FRAMES / CHAPTER);
  }

  /** Goes on from the state of a chapter, or of the nearest one before it, but of none before `least`. */
  async readState(chapter, least) {
    for (let at = chapter; at >= least && !this.isClosed; at--) {
      const snap = await this.first(`faz.${this.match}.snap.${at}`, (bytes) => this.messages.snap(bytes, this.game.size));
      if (snap === null || snap.frame !== at * CHAPTER) continue;
      if (!this.game.load(snap.state, this.head.players) || BigInt(this.game.digest()) !== snap.digest) continue;
      Object.assign(this, { frame: snap.frame, isShown: true, isWaiting: true, waited: 0, wanted: null });
      return;
    }
    await pause(500);
  }

  /** Reads the rest of a chapter if a row of it is missing, and later ones have come or nothing comes any more. */
  async readRows() {
    const frame = this.frame + this.ahead;
    const hasLater = this.known > frame;
    const isSilent = performance.now() - this.heardAt > SILENCE;
    if (this.ahead > 1024 || !(hasLater || isSilent)) return;
    const chapter = Math.floor(frame / CHAPTER);
    for (let place = 1; !this.isClosed; ) {
      const message = await this.broker.next(`faz.${this.match}.rows.${chapter}`, place);
      if (message === null) return;
      if (message.body === null) break;
      place = message.place + 1;
      this.take(message.body);
    }
    this.heardAt = performance.now();
    this.missing = this.frame + this.ahead === frame && this.known > frame ? frame : -1;
  }

  // ---- What is played.

  /** A turn, as often in a second as the match had. */
  turn() {
    if (!this.isShown || this.wanted !== null) return;
    const { ahead } = this;
    this.quiet = ahead === 0 ? this.quiet + 1 : 0;
    for (let count = this.framesOfTurn(ahead); count > 0; count--) this.step();
    if (ahead === 0) this.jump();
  }

  framesOfTurn(ahead) {
    if (ahead === 0) {
      Object.assign(this, { isWaiting: true, waited: 0 });
      return 0;
    }
    this.waited++;
    const isEnd = this.end !== null && this.frame + ahead >= this.end.frames;
    if (this.isWaiting && ahead < CUSHION && this.waited < PATIENCE && !isEnd) return 0;
    this.isWaiting = false;
    return ahead <= CUSHION + SLACK ? 1 : Math.min(ahead - CUSHION, CATCH_UP);
  }

  step() {
    const row = this.rows.get(this.frame);
    this.game.step(row.words, row.gone);
    this.frame++;
    if (this.frame % CHAPTER !== 0) return;
    this.digests.set(this.frame, BigInt(this.game.digest()));
    this.compare(this.frame);
  }

  /** Compares the digest of a chapter's first state with that of what was played, once both are there. */
  compare(frame) {
    const sum = this.sums.get(frame);
    const played = this.digests.get(frame);
    if (sum === undefined || played === undefined || sum.digest === played) return;
    this.desync = Math.min(this.desync ?? frame, frame);
  }

  /** No row is there. If it is said that it couldn't be published, goes on with the state behind the gap. */
  jump() {
    if (this.missing !== this.frame) return;
    const behind = [...this.sums.values()].filter((it) => it.frame > this.frame && it.gap <= this.frame);
    if (behind.length === 0) return;
    this.gaps++;
    this.wanted = Math.min(...behind.map((it) => it.frame)) / CHAPTER;
  }
}
