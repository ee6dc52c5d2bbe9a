// The host's side of a lobby, as lib/lobby/hosting.c and knocking.c have it.
import { PAGE, Why } from "./reasons.js";
import {
  Asks, KINDS, Says, inboxSubject, isOlderInbox, openAsk, readAsk, readHello, readInbox, readKnock, roomSubject, writeAnswer, writeKnock,
  writeOffer,
} from "./messages.js";
import { Pair, codeOf, drawHost, drawShort, roomOf, writeCode, writeShort } from "./keys.js";
import { Pake } from "./pake.js";
import { drawn, hex, numberOf } from "./bytes.js";

// Milliseconds: without anything of a guest, who asks every two seconds; and in which who knocks has to show that it knows the code,
// and then to ask.
const GONE_AFTER = 10000;
const SHOWN_WITHIN = 5000;
const ASKED_WITHIN = 10000;
const WRONG_TRIES = 5; // that a code bears
const WRONG_IN_ALL = 20; // that a lobby does: one of 50,000 guesses one of its codes
const MOST_PROOFS = 2; // in a turn
const MOST_KNOCKERS = 8;
const MOST_GUESTS = 16;
const MOST_GONE = 4096; // who have left, and whose old messages others may say again

export class Host {
  constructor(lobby, { isShort = false, asks = false, players = 2, common = new Uint8Array(0) }) {
    Object.assign(this, { lobby, isShort, asks: asks || isShort, players, common });
    Object.assign(this, { guests: new Map(), knockers: new Map(), gone: new Set(), named: 0 });
    Object.assign(this, { plate: "", wrong: 0, isTold: false, proofs: 0 });
    Object.assign(this, { wrongInAll: 0, why: Why.NO_REASON });
  }

  async begin() {
    Object.assign(this, await drawHost());
    this.code = codeOf(this.host);
    if (this.isShort) this.renew();
    else this.enter(roomOf(this.code));
  }

  /** Why it is another one than before, if it is. */
  tellCode(text, why) {
    this.isTold = true;
    this.lobby.tell("code", { text, why });
  }

  enter(room) {
    this.room = room;
    this.lobby.hearRoom(roomSubject(room));
  }

  // ---- Short codes

  /** What was said by a code doesn't count any more. */
  forgetCode() {
    for (const [id, one] of this.knockers) if (one.room === null) this.knockers.delete(id);
    Object.assign(this, { wrong: 0, plate: "" });
  }

  /** Another name under which this host is heard, and another secret; the door is asked for a plate. */
  renew() {
    this.forgetCode();
    this.secret = drawShort();
    const token = drawn(16);
    this.lobby.door.ask({ asks: Asks.HOSTS, plate: "", token });
    this.enter({ name: hex(token), key: null });
  }

  hearPlate(plate) {
    if (this.plate === plate) return;
    this.plate = this.lobby.door.plate = plate;
    this.tellCode(writeShort(plate, this.secret), this.why);
    this.why = Why.NO_REASON;
  }

  /** From now on friends come by the long code alone, which nobody guesses. Once the match is known there is none any more. */
  endShortCode() {
    this.forgetCode();
    this.lobby.door.asks = Asks.RELAYS; // (by another answer of the door's the plate would be there again)
    if (this.lobby.table !== null) return;
    this.isShort = false;
    this.enter(roomOf(this.code));
    this.tellCode(writeCode(this.code), Why.WRONG_CODE);
  }

  noteWrong() {
    this.wrong++;
    this.wrongInAll++;
    if (this.wrong < WRONG_TRIES) return;
    this.why = Why.WRONG_CODE;
    if (this.lobby.table !== null || this.wrongInAll >= WRONG_IN_ALL) this.endShortCode();
    else this.renew();
  }

  async hearKnock(body, reply) {
    if (this.plate === "") return;
    const came = readKnock(body);
    const id = hex(came.id);
    const one = this.knockers.get(id) ?? this.newKnocker(id, came.step, reply);
    if (one === null || one.reply !== reply) return; // (nobody else is told what is said to it)
    if (came.step === one.step) {
      this.lobby.say(reply, one.said);
    } else if (came.step === one.step + 1 && one.room === null && this.proofs < MOST_PROOFS) {
      this.proofs++; // they take some milliseconds each: others ask again
      await this.prove(one, id, came, reply);
    }
  }

  newKnocker(id, step, reply) {
    if (step !== 1 || this.knockers.size >= MOST_KNOCKERS) return null;
    const one = { pake: new Pake(true, this.plate, this.secret), step: 0, begunAt: this.lobby.now, room: null, said: null, reply };
    this.knockers.set(id, one);
    return one;
  }

  async prove(one, id, came, reply) {
    const bytes = await one.pake.turn(came.bytes);
    const { state } = one.pake;
    one.step = came.step;
    const said = [writeKnock(KINDS.KNOCKED, { id: came.id, step: came.step, isWrong: state === "wrong", bytes })];
    if (state === "done") {
      one.begunAt = this.lobby.now;
      one.room = { name: this.room.name, key: await one.pake.key() };
      said.push(await this.offer(one.room)); // what it is told from now on is sealed by the key that both have
    }
    one.said = new Uint8Array(await new Blob(said).arrayBuffer());
    this.lobby.say(reply, one.said);
    if (state !== "wrong") return;
    this.knockers.delete(id);
    this.noteWrong();
  }

  /** Who doesn't show that it knows the code has had its try. */
  lookAtKnockers(now) {
    this.proofs = 0;
    for (const [id, one] of this.knockers) {
      if (now - one.begunAt < (one.room !== null ? ASKED_WITHIN : SHOWN_WITHIN)) continue;
      this.knockers.delete(id);
      if (one.room === null) this.noteWrong();
    }
  }

  // ---- What guests say

  async offer(room) {
    const { lobby: { keys, inbox }, host } = this;
    return writeOffer(room, { host, speaks: keys.open, proof: await this.vouch(keys.open), inbox });
  }

  hearNobody() {}

  async hear(kind, { reply, body }) {
    const inbox = reply === null ? null : readInbox(reply);
    if (inbox === null && (reply === null || !isOlderInbox(reply))) return;
    if (kind === KINDS.KNOCK && this.isShort && !this.lobby.isReady) await this.hearKnock(body, reply);
    if (kind === KINDS.HELLO && !this.isShort) await this.hearHello(body, reply);
    if (kind === KINDS.ASK && inbox !== null) await this.hearAsk(body, inbox);
  }

  async hearHello(body, reply) {
    readHello(this.room, body);
    this.lobby.say(reply, await this.offer(this.room));
  }

  /** By which room's key somebody asks, and what. */
  opened(body) {
    const known = [...this.guests.values(), ...this.knockers.values()].map((it) => it.room).filter((it) => it !== null);
    for (const room of new Set(this.isShort ? known : [this.room, ...known]))
      try {
        return { room, ...openAsk(room, body) };
      } catch {
        // (it is by another one's)
      }
    return null;
  }

  async hearAsk(body, inbox) {
    const found = this.opened(body);
    const id = found === null ? null : hex(found.open);
    if (id === null || this.gone.has(id)) return;
    const one = this.guests.get(id) ?? (await this.stranger(found, inbox));
    if (one === null) return;
    const came = readAsk(one.pair, found.rest);
    const isNew = one.stage === "new";
    if (came.counter <= one.counter || (came.leaves && (isNew || (this.lobby.table !== null && one.stage === "seated")))) return;
    this.guests.set(id, one);
    Object.assign(one, { counter: came.counter, heardAt: this.lobby.now });
    if (isNew) this.takeIn(one, came);
    if (came.leaves) {
      this.forget(id, one);
      return;
    }
    await this.answer(one);
    await this.lookAtSeats();
  }

  async stranger({ room, open }, inbox) {
    if (this.guests.size >= MOST_GUESTS) return null;
    const pair = await Pair.of(room, this.lobby.keys, open);
    return { stage: "new", room, inbox, pair, counter: -1, answers: 0, why: 0, machine: 0 };
  }

  /** Somebody asks for the first time. A native machine of the same game is told why it can't come in. */
  takeIn(one, { digest, here, name }) {
    Object.assign(one, { here, name, who: ++this.named });
    if (digest === (this.lobby.digest ^ PAGE)) {
      this.refuse(one, Why.A_PAGE);
      this.lobby.tell("refused", { name, text: `${name} doesn't play in a browser, and can't join a page: bindings/web/bridge can` });
    } else if (digest !== this.lobby.digest) {
      this.refuse(one, Why.OTHER_GAME);
    } else if (here > this.seatsLeft) {
      this.refuse(one, Why.NO_SEAT);
    } else if (!this.asks) {
      this.seat(one);
    } else {
      one.stage = "asks";
      this.lobby.tell("asks", { name, who: one.who, text: one.pair.words });
    }
  }

  forget(id, one) {
    if (one.stage === "seated" || one.stage === "asks") this.lobby.tell("left", { name: one.name, who: one.who });
    this.gone.add(id);
    if (this.gone.size > MOST_GONE) this.gone.delete(this.gone.keys().next().value);
    this.guests.delete(id);
  }

  // ---- Answers

  async answer(one) {
    const { lobby } = this;
    const text = { counter: ++one.answers, says: Says.WAITS, name: lobby.name };
    if (one.stage === "refused") {
      Object.assign(text, { says: Says.REFUSED, why: one.why });
    } else if (one.stage === "seated" && lobby.table !== null) {
      const proof = await this.vouch(one.pair.theirs);
      Object.assign(text, { says: Says.BEGINS, table: { ...lobby.table, me: one.machine, proof } });
    } else if (one.stage === "seated") {
      text.says = Says.SEATED;
    }
    lobby.say(inboxSubject(one.inbox), writeAnswer(one.pair, text));
  }

  get seatsLeft() {
    const seated = [...this.guests.values()].filter((it) => it.stage === "seated");
    return this.lobby.table !== null ? 0 : this.players - 1 - seated.reduce((sum, it) => sum + it.here, 0);
  }

  refuse(one, why) {
    Object.assign(one, { stage: "refused", why });
  }

  seat(one) {
    if (one.here > this.seatsLeft) {
      this.refuse(one, Why.NO_SEAT);
      return;
    }
    one.stage = "seated";
    this.lobby.tell("joined", { name: one.name, who: one.who, text: one.pair.words });
  }

  async letIn(who, yes) {
    const one = [...this.guests.values()].find((it) => it.stage === "asks" && it.who === who);
    if (one === undefined) return;
    if (yes) this.seat(one);
    else this.refuse(one, Why.NOT_LET_IN);
    await this.answer(one);
    await this.lookAtSeats();
  }

  // ---- The table

  async lookAtSeats() {
    const { lobby, code, host, common, asks } = this;
    if (lobby.table !== null || this.seatsLeft > 0) return;
    const seated = [...this.guests.values()].filter((it) => it.stage === "seated");
    const members = [{ open: lobby.keys.open, inbox: lobby.inbox, name: lobby.name }];
    const owners = [0];
    for (const one of seated) {
      one.machine = members.length;
      members.push({ open: one.pair.theirs, inbox: one.inbox, name: one.name });
      for (let at = 0; at < one.here; at++) owners.push(one.machine);
    }
    const proof = await this.vouch(lobby.keys.open);
    const number = (numberOf(drawn(8)) >> 1n) | 1n; // out/duel takes one of 63 bits
    lobby.begins({ me: 0, players: owners.length, owners, number, key: drawn(32), asks, code, host, proof, members, common });
    for (const one of seated) await this.answer(one);
  }

  // ---- A turn

  async turn(now) {
    if (!this.isShort && !this.isTold && this.lobby.isThere) this.tellCode(writeCode(this.code), Why.NO_REASON);
    this.lookAtKnockers(now);
    for (const [id, one] of this.guests) {
      const isIn = one.stage === "seated" && this.lobby.table !== null;
      if (!isIn && now - one.heardAt >= GONE_AFTER) this.forget(id, one);
    }
  }

  close() {
    for (const one of this.guests.values()) {
      if (one.stage !== "asks" && one.stage !== "seated") continue;
      this.refuse(one, Why.HOST_LEFT);
      this.answer(one);
    }
  }
}
