// A match of the duel over any channel for datagrams: without a page, a socket or a clock of its own.
import { Answer, Code, raw } from "./fazgrond/fazgrond.js";
import { Duel, text } from "./rules.js";

const PAST_LAST = 32; // frames after the last one, so that the other has all of it too
const BYES = 3;
const ENDING = 90; // turns in which the other one can find a desync, too
const MOST_FLOOD = 256; // datagrams that are taken in a turn

/** What all machines of a match have alike, as lib/ggponet has it: so a page and the program out/duel can play together. */
export function digestOf(game, players, bytesOfInput) {
  let hash = 0xcbf29ce484222325n;
  for (const byte of new TextEncoder().encode(`${game} ggponet 1 players ${players} input ${bytesOfInput}`))
    hash = BigInt.asUintN(64, (hash ^ BigInt(byte)) * 0x100000001b3n);
  return hash;
}

/** A channel on which what is sent comes late, and is lost at times. What is under way goes on by `deliver`, in each turn. */
export class BadLine {
  constructor(channel, { lag = 0, loss = 0 } = {}) {
    Object.assign(this, { channel, lag, loss, underWay: [] });
  }

  send(bytes, now) {
    if (Math.random() * 100 < this.loss) return;
    if (this.lag === 0) this.sendNow(bytes);
    else this.underWay.push({ due: now + this.lag * (0.5 + Math.random()), bytes });
  }

  deliver(now) {
    const due = this.underWay.filter((it) => it.due <= now);
    if (due.length === 0) return;
    this.underWay = this.underWay.filter((it) => it.due > now);
    for (const it of due) this.sendNow(it.bytes);
  }

  sendNow(bytes) {
    if (this.channel.readyState !== "open") return;
    try {
      this.channel.send(bytes);
    } catch {
      // (its buffer is full: a datagram is lost, as on any line)
    }
  }
}

/** A duel whose state knows its frame, and which notes the state at one of them. */
class Counted extends Duel {
  constructor(ships, last) {
    super(ships);
    Object.assign(this, { frame: 0, last, atLast: null });
  }

  save() {
    return { frame: this.frame, field: super.save() };
  }

  load(state) {
    this.frame = state.frame;
    super.load(state.field);
    this.note();
  }

  step(words) {
    super.step(words);
    this.frame++;
    this.note();
  }

  digest(state) {
    return super.digest(state.field);
  }

  note() {
    if (this.frame === this.last) this.atLast = text(this.field);
  }
}

/**
 * A match of two, each of whom has a ship. `channel` is an RTCDataChannel, or what sends and tells like one; `word` says what
 * the player of this machine holds down. With `frames` the match is done once that frame is settled here and there.
 */
export class Match {
  constructor(library, how) {
    const { number, me, channel, word, taken = () => {}, told = () => {}, delay = 1, frames = 0, lag = 0, loss = 0 } = how;
    this.game = new Counted(2, frames);
    const delays = me === 0 ? [delay, 0] : [0, delay];
    this.session = library.session({ players: 2, local: [me + 1], delays }, this.game);
    this.peer = library.peer(this.session, {
      me, machines: 2, owners: [0, 1], number, digest: digestOf("duel", 2, 4), silentAfter: how.timeout,
      opening: this.game.digest(this.game.save()),
    });
    Object.assign(this, { library, me, other: 1 - me, channel, word, taken, told, frames, wait: 0, again: 0 });
    this.line = new BadLine(channel, { lag, loss });
    this.inbox = [];
    this.isOver = false; // the match can't go on
    this.ending = null; // after a desync: so many turns until it is over
    this.isAlone = false; // the other has left
    channel.binaryType = "arraybuffer";
    channel.onmessage = ({ data }) => {
      if (data instanceof ArrayBuffer && this.inbox.length < MOST_FLOOD) this.inbox.push(new Uint8Array(data));
    };
    // The other end is closed, or its browser is: nothing will come any more, so its silence needn't be waited for.
    channel.onclose = () => {
      if (!this.isOver && !this.isAlone) this.peer.disconnect(this.other);
    };
  }

  /** A turn, 60 times a second; `now` is in milliseconds. */
  turn(now) {
    if (this.isOver) return;
    for (const bytes of this.inbox.splice(0)) this.peer.receive(bytes, now);
    this.peer.poll(now);
    if (this.ending !== null) this.isOver ||= --this.ending <= 0;
    else if (this.peer.isRunning) this.play();
    this.peer.noteSettled();
    for (let event = this.peer.event(); event !== null; event = this.peer.event()) this.react(event);
    const bytes = this.peer.send(this.other, now);
    if (bytes !== null) this.line.send(bytes, now);
    this.line.deliver(now);
  }

  play() {
    const waits = this.wait > 0;
    if (waits) this.wait--;
    const code = this.session.turn(waits ? null : [this.word()]);
    if (code !== Answer.OK) return;
    this.taken();
    this.again += this.session.reached.rerun - 1;
  }

  react(event) {
    if (event.code === Code.TIME_SYNC) this.wait = event.framesAhead;
    if (event.code === Code.LEFT) this.isAlone = true;
    if ([Code.MISMATCH, Code.DROPPED, Code.MISSING].includes(event.code)) this.isOver = true;
    if (this.ending !== null) return; // (who leaves now does so for that)
    if (event.code === Code.DESYNC) this.ending = ENDING;
    this.told(event);
  }

  /** Whether the frame of `frames` is settled, here and at the other one: who sent words of a much later frame has all of it. */
  get isDone() {
    return this.frames > 0 && this.session.settled >= this.frames + PAST_LAST;
  }

  /** Says goodbye, and closes the match. */
  close() {
    if (this.isClosed) return;
    this.isClosed = this.isOver = true;
    for (let at = 0; at < BYES; at++) {
      const bytes = this.peer.bye(this.other, this.ending === null ? raw.BYE_LEAVES : raw.BYE_DESYNC);
      if (bytes !== null) this.line.sendNow(bytes);
    }
    this.peer.close();
    this.session.close();
  }
}

/**
 * Calls a function 60 times a second, also in a tab that is hidden: browsers slow down a page's own timers there, and not a
 * worker's. Who is late makes up for up to 20 turns. With a `speed` the clock runs so many times as fast. Stops by the function that
 * comes back.
 */
export function eachTurn(act, speed = 1) {
  const turn = 1000 / 60 / speed;
  const worker = new Worker(new URL("./tick.js", import.meta.url));
  let due = performance.now();
  let isStopped = false;
  worker.onmessage = () => {
    const now = performance.now();
    due = Math.max(due, now - 20 * turn);
    for (; due <= now && !isStopped; due += turn) act(Math.floor(now * speed));
  };
  return () => {
    isStopped = true;
    worker.terminate();
  };
}
