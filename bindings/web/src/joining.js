// The side of who joins a lobby, as lib/lobby/joining.c has it.
import { Why } from "./reasons.js";
import {
  Asks, DoorSays, KINDS, KNOCK_ID, Says, VERSION, inboxSubject, readAnswer, readKnock, readOffer, roomSubject, writeAsk, writeHello,
  writeKnock,
} from "./messages.js";
import { Pair, codeOf, isVouched, roomOf } from "./keys.js";
import { Pake } from "./pake.js";
import { drawn, hex, isSame } from "./bytes.js";

// Milliseconds: between two messages, and once there is a seat; without an answer; and until it is believed that a code is wrong.
const SAID_AGAIN = 500;
const SEATED_AGAIN = 2000;
const NEVER_ANSWERED = 10000;
const BELIEVED = 3000;
const MOST_KNOCKS = 3; // since who hears one can spoil its proof, and of one that isn't finished the host thinks that the code was wrong
const UNANSWERED =
  "nobody who hosts a match with this code answers: the host is gone, or its game has an older version of this library";
const Stage = { ASKS_DOOR: 0, KNOCKS: 1, SAYS_HELLO: 2, ASKS_TO_JOIN: 3, HAS_TABLE: 4 };

export class Guest {
  constructor(lobby, { code = null, plate = null, secret = null }) {
    Object.assign(this, { lobby, code, plate, secret, stage: Stage.SAYS_HELLO, pake: null, knock: null, host: null, hostName: null });
    Object.assign(this, { isSeated: false, isAsked: false, counter: 0, answers: 0, saidAt: null, heardAt: lobby.now });
    Object.assign(this, { knocks: 0, hasKey: false, isUnheard: false, isWrong: false, wrongAt: lobby.now });
  }

  async begin() {
    if (this.plate === null) {
      this.room = roomOf(this.code);
      return;
    }
    this.stage = Stage.ASKS_DOOR;
    this.lobby.door.ask({ asks: Asks.JOINS, plate: this.plate });
  }

  say(subject, body) {
    if (!this.lobby.isThere) return;
    this.lobby.say(subject, body, this.lobby.inboxName);
    this.saidAt = this.lobby.now;
  }

  /** What is to be said now, until there is an answer. */
  sayAgain() {
    const { lobby, room } = this;
    const isKnocking = this.stage === Stage.KNOCKS && (this.pake !== null || this.hasKey);
    if (isKnocking) this.say(roomSubject(room), writeKnock(KINDS.KNOCK, this.knock));
    if (this.stage === Stage.SAYS_HELLO) this.say(roomSubject(room), writeHello(room, lobby.keys.open));
    if (this.stage === Stage.ASKS_TO_JOIN) this.ask(false);
  }

  ask(leaves) {
    const { lobby: { digest, name }, room, host } = this;
    this.say(this.hostName, writeAsk(room, host, { counter: ++this.counter, leaves, digest, name }));
  }

  // ---- What is heard

  /** What isn't sealed may be anybody's word: it ends nothing before its time, and the player is told of it once. */
  tellDoubt(why, what, waits) {
    this.lobby.tell("unanswered", { why, text: `${what}: waiting for ${waits / 1000} seconds at most` });
  }

  /** Nobody hears the host's subject, as it seems. */
  hearNobody() {
    if (this.isUnheard || (this.stage !== Stage.KNOCKS && this.stage !== Stage.SAYS_HELLO)) return;
    this.isUnheard = true;
    this.tellDoubt(Why.NO_SUCH_CODE, "nobody answers so far", NEVER_ANSWERED);
  }

  /** The code is wrong, as it seems. */
  doubtCode() {
    if (this.isWrong) return;
    Object.assign(this, { isWrong: true, wrongAt: this.lobby.now });
    this.tellDoubt(Why.WRONG_CODE, "the code's last four signs may be wrong", BELIEVED);
  }

  async hear(kind, { body }) {
    if (kind === KINDS.OFFER) await this.hearOffer(body);
    if (kind === KINDS.KNOCKED) await this.hearKnocked(body);
    if (kind === KINDS.ANSWER) this.hearAnswer(body);
  }

  /** With a short code the key by which the offer is sealed says that it is the host's. */
  async isOfHost({ host, speaks, proof }) {
    return (this.code === null || isSame(codeOf(host), this.code)) && (await isVouched(proof, host, speaks));
  }

  async hearOffer(body) {
    if (this.stage !== Stage.SAYS_HELLO && !this.hasKey) return;
    const came = readOffer(this.room, body);
    if (came.version !== VERSION) {
      this.lobby.end(Why.OTHER_LIBRARY);
      return;
    }
    if (!(await this.isOfHost(came))) return;
    this.host = await Pair.of(this.room, this.lobby.keys, came.speaks);
    this.hostName = inboxSubject(came.inbox);
    Object.assign(this, { stage: Stage.ASKS_TO_JOIN, hasKey: false, heardAt: this.lobby.now });
    this.ask(false);
  }

  // ---- Short codes

  async hearDoor({ says, token }) {
    if (this.stage !== Stage.ASKS_DOOR) return;
    if (says !== DoorSays.OK) {
      this.lobby.end(says === DoorSays.TOO_MANY ? Why.TOO_MANY : Why.NO_SUCH_CODE);
      return;
    }
    this.room = { name: hex(token), key: null };
    Object.assign(this, { stage: Stage.KNOCKS, heardAt: this.lobby.now });
    await this.knockAnew();
  }

  /** A proof that was spoilt doesn't go on. */
  async knockAnew() {
    this.pake = null;
    if (this.knocks === MOST_KNOCKS) return;
    this.knocks++;
    this.pake = new Pake(false, this.plate, this.secret);
    this.knock = { id: drawn(KNOCK_ID), step: 1, bytes: await this.pake.turn(new Uint8Array(0)) };
    this.sayAgain();
  }

  async hearKnocked(body) {
    if (this.stage !== Stage.KNOCKS) return;
    const came = readKnock(body);
    if (!isSame(came.id, this.knock.id) || came.step !== this.knock.step) return;
    if (came.isWrong) this.doubtCode();
    else if (this.pake !== null) await this.goOnKnocking(came.bytes);
    if (!this.hasKey) return;
    // What the host said last is behind the proof, sealed by the key that this makes.
    await this.hearOffer(came.more).catch(() => {});
    if (this.hasKey && !this.lobby.isOver) this.doubtCode();
  }

  async goOnKnocking(came) {
    const bytes = await this.pake.turn(came);
    if (this.pake.state === "wrong") {
      this.doubtCode();
      await this.knockAnew();
    } else if (this.pake.state === "done") {
      this.room.key = await this.pake.key();
      Object.assign(this, { pake: null, hasKey: true });
    } else {
      Object.assign(this.knock, { step: this.knock.step + 1, bytes });
      this.heardAt = this.wrongAt = this.lobby.now;
      this.sayAgain();
    }
  }

  // ---- What the host answers

  /** Whether the table names this machine in its place, and the host by the key that it speaks by. */
  isOurs({ me, members, isLate }) {
    return me !== 0 && !isLate && this.host.isOf(members[0].open) && isSame(members[me].open, this.lobby.keys.open);
  }

  hearAnswer(body) {
    if (this.stage !== Stage.ASKS_TO_JOIN) return;
    const came = readAnswer(this.host, body);
    if (came.counter <= this.answers) return;
    Object.assign(this, { answers: came.counter, heardAt: this.lobby.now });
    if (came.says === Says.REFUSED) {
      this.lobby.end(came.why);
      return;
    }
    const told = { name: came.name, text: this.host.words };
    if (came.says === Says.WAITS && !this.isAsked) {
      this.isAsked = true;
      this.lobby.tell("asks", told);
    }
    if (came.says !== Says.WAITS && !this.isSeated) {
      this.isSeated = true;
      this.lobby.tell("joined", told);
    }
    if (came.says !== Says.BEGINS || !this.isOurs(came.table)) return;
    this.stage = Stage.HAS_TABLE;
    this.lobby.begins(came.table);
  }

  // ---- A turn

  async turn(now) {
    if (this.stage === Stage.ASKS_DOOR || this.stage === Stage.HAS_TABLE) return;
    const pause = this.isSeated ? SEATED_AGAIN : SAID_AGAIN;
    if (this.lobby.isThere && (this.saidAt === null || now - this.saidAt >= pause)) this.sayAgain();
    this.giveUp(now);
  }

  /** Time counts while the broker is there. */
  giveUp(now) {
    if (!this.lobby.isThere || this.saidAt === null) this.heardAt = this.wrongAt = now;
    const isAnswered = this.stage === Stage.ASKS_TO_JOIN;
    if (!isAnswered && this.isWrong && now - this.wrongAt >= BELIEVED) this.lobby.end(Why.WRONG_CODE);
    else if (now - this.heardAt < NEVER_ANSWERED) return;
    else if (isAnswered) this.lobby.end(Why.HOST_LEFT);
    else this.lobby.end(Why.NO_SUCH_CODE, this.isUnheard ? undefined : UNANSWERED);
  }

  close() {
    if (this.stage === Stage.ASKS_TO_JOIN) this.ask(true);
  }
}
