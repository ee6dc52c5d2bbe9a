// Rollback sessions for games in a browser, over the library for C as WebAssembly. docs/WEB.md shows a whole game.
//
// What a game calls in each turn answers with a number of `Answer`: `Answer.OK`, or why it was refused. What is opened once throws a
// `Refusal`. What no right program says (a setting that there isn't, a number that fits nowhere) is an error that names it. A word is
// an input of a player for a frame: 32 bits, as a number from 0 on.
import * as raw from "./raw.js";

export { raw };
export const { Answer, Code } = raw;

const ROOM = 32; // requests that are taken at once
const { OK } = Answer;

/** Why something can't be opened. */
export class Refusal extends Error {
  constructor(code, sentence) {
    super(sentence);
    this.name = "Refusal";
    this.code = code;
  }
}

/** Whether this browser has 64-bit memory for WebAssembly: Chromium from 133 on, Firefox from 134 on. */
export function hasMemory64() {
  return WebAssembly.validate(new Uint8Array([0, 97, 115, 109, 1, 0, 0, 0, 5, 3, 1, 4, 1]));
}

const LACKS = "this browser has no 64-bit memory for WebAssembly: Chromium has it from 133 on, Firefox from 134 on";

/** 64 random bits, which aren't 0. */
export function randomNumber() {
  const bits = new BigUint64Array(1);
  do crypto.getRandomValues(bits);
  while (bits[0] === 0n);
  return bits[0];
}

// ---- What a game says. Nothing has changed if it can't be taken.

const U8 = 0xff;
const U32 = 0xffffffff;

const shown = (value) => (typeof value === "string" ? JSON.stringify(value) : String(value));

/** A whole number. */
function whole(name, value, most = U32, least = 0) {
  if (Number.isInteger(value) && value >= least && value <= most) return value;
  throw new RangeError(`\`${name}\` is ${shown(value)}: a whole number from ${least} to ${most} is needed`);
}

/** A whole number of 64 bits. One that isn't a bigint has to be so small that JavaScript has it exactly. */
function whole64(name, value) {
  const big = typeof value === "bigint" || Number.isSafeInteger(value) ? BigInt(value) : -1n;
  if (big >= 0n && big >> 64n === 0n) return big;
  throw new RangeError(`\`${name}\` is ${shown(value)}: a whole number of 64 bits is needed, a bigint from 2^53 on`);
}

/** The whole numbers of a list. */
function listOf(name, list, most = U32, least = 0) {
  if (typeof list?.length !== "number") throw new TypeError(`\`${name}\` is ${shown(list)}: a list is needed`);
  return Array.from(list, (one, at) => whole(`${name}[${at}]`, one, most, least));
}

/** What each place of a list has; where there is nothing, what there was. */
function placesOf(name, list, made, most = U32) {
  if (list?.length > made.length) throw new RangeError(`\`${name}\` has ${list.length} places: ${made.length} are the most`);
  const found = listOf(name, Array.isArray(list) ? Array.from(list, (one, at) => one ?? made[at]) : (list ?? []), most);
  return made.map((one, at) => found[at] ?? one);
}

/** Those of some members that are given. */
function said(given, names, take = whole) {
  const found = names.filter((name) => (given[name] ?? null) !== null);
  return Object.fromEntries(found.map((name) => [name, take(name, given[name])]));
}

/** Milliseconds of a clock, as 32 bits. */
function clock(now) {
  if (Number.isFinite(now)) return now >>> 0;
  throw new RangeError(`\`now\` is ${shown(now)}: the milliseconds of a clock are needed`);
}

/** Bytes that came: of an ArrayBuffer, as a channel gives it, or of what is over one. */
function octets(name, bytes) {
  if (ArrayBuffer.isView(bytes)) return new Uint8Array(bytes.buffer, bytes.byteOffset, bytes.byteLength);
  if (Object.prototype.toString.call(bytes) === "[object ArrayBuffer]") return new Uint8Array(bytes);
  throw new TypeError(`\`${name}\` is ${shown(bytes)}: an ArrayBuffer or what is over one is needed`);
}

/** Settings have the names that there are, and those without which nothing can be opened. */
function checkNames(what, given, known, needed) {
  if (typeof given !== "object" || given === null) throw new TypeError(`${what} are ${shown(given)}: an object is needed`);
  for (const name of Object.keys(given))
    if (!known.includes(name)) throw new TypeError(`${what} have no \`${name}\`, but ${known.join(", ")}`);
  for (const name of needed) if (given[name] === undefined) throw new TypeError(`${what} need \`${name}\``);
}

async function bytesOf(source) {
  if (source instanceof ArrayBuffer || ArrayBuffer.isView(source)) return source;
  const response = source instanceof Response ? source : await fetch(source);
  if (!response.ok) throw new Error(`${response.url}: ${response.status} ${response.statusText}`);
  return response.arrayBuffer();
}

/** The library: a module, and its memory. One is enough for all matches of a page. */
export class Fazgrond {
  /** Loads it: from beside this file, a URL, a response, bytes, or a module that is compiled. */
  static async load(source = new URL("./fazgrond.wasm", import.meta.url)) {
    if (source instanceof WebAssembly.Module) return new Fazgrond(source);
    if (!hasMemory64()) throw new Error(LACKS);
    return new Fazgrond(await WebAssembly.compile(await bytesOf(source)));
  }

  constructor(module) {
    this.calls = { ...new WebAssembly.Instance(module, {}).exports };
    this.memory = this.calls.memory;
    this.refresh();
    this.room = this.allocate(4096); // what calls are given, and give back
    this.requests = this.allocate(ROOM * raw.Request.size);
    this.bytes = this.allocate(2 * raw.DATAGRAM);
    const version = this.calls.version();
    if (version >>> 8 !== raw.VERSION >>> 8) throw new Error(`the module has version ${version >>> 16}.${(version >>> 8) & 255}`);
  }

  /** "0.1.0": the version of the library. */
  get version() {
    const version = this.calls.version();
    return `${version >>> 16}.${(version >>> 8) & 255}.${version & 255}`;
  }

  /** What an answer or the code of an event means, in a sentence. */
  text(code) {
    const length = Math.min(this.calls.text(code, this.room, 256), 256);
    return new TextDecoder().decode(this.u8().subarray(this.room, this.room + length));
  }

  /** Opens a session of a game whose state is the opening now. */
  session(settings, game) {
    return new Session(this, settings, game);
  }

  /** Opens the network of a match beside a session. With an epoch the match goes on in epochs, beginning with this one, and carries. */
  peer(session, match, epoch) {
    return new Peer(this, session, match, epoch);
  }

  /** The first epoch of a match whose sessions have these settings. Put the delays of other machines' players into it. */
  epoch(match, settings) {
    const { id, base, words, threshold, machines, owners, delays } = raw.epochFor(matchOf(match), settingsOf(settings));
    const players = owners.filter((owner) => owner !== raw.NO_PLAYER).length;
    return { id, base, words, threshold, machines, owners: owners.slice(0, players), delays: delays.slice(0, players) };
  }

  /** Whether a machine is in an epoch: it owns a player there. Send to those that are in the one which is played, but for this machine. */
  epochHas(epoch, machine) {
    return whole("machine", machine, U8) < raw.MACHINES && epoch.owners.includes(machine);
  }

  /** The ticket by which somebody comes to a match with these `comers`, under a name of 32 bits. */
  ticket(comers, name) {
    return BigInt.asUintN(64, this.calls.ticket(whole64("comers", comers), whole("name", name)));
  }

  /** Opens a host's end of a viewer's line, beside a session. */
  line(session, settings) {
    return new Line(this, session, settings);
  }

  /** Opens a viewer's end of a line. */
  viewer(settings) {
    return new Viewer(this, settings);
  }

  /** Opens the habits of a player. */
  habits(parts = [], likely = []) {
    return new Habits(this, parts, likely);
  }

  /** Opens who gives a state to others before a match. */
  giver(which, frame, bytes) {
    return new Giver(this, which, frame, bytes);
  }

  /** Opens who takes a state of this name, of so many bytes at most. */
  taker(name, limit) {
    return new Taker(this, name, limit);
  }

  /** Which machine a datagram says that it is of, if it is for a giver or a taker; null if it is for a peer. */
  stateSender(bytes) {
    const found = octets("bytes", bytes);
    if (found.length > raw.DATAGRAM) return null;
    this.u8().set(found, this.bytes);
    return this.calls.state_sender(this.bytes, found.length, this.room) === OK ? this.u8()[this.room] : null;
  }

  /** A match's digest that has a state in it, beside what another has. */
  stateDigest(name, digest) {
    this.write(raw.StateName, this.room, stateNameOf(name));
    return BigInt.asUintN(64, this.calls.state_digest(this.room, whole64("digest", digest)));
  }

  // ---- Memory. It moves when it grows: views of it are empty then, and asked for anew.

  refresh() {
    const { buffer } = this.memory;
    this.view8 = new Uint8Array(buffer);
    this.view32 = new Uint32Array(buffer);
    this.view = new DataView(buffer);
  }

  u8() {
    if (this.view8.length === 0) this.refresh();
    return this.view8;
  }

  u32() {
    if (this.view32.length === 0) this.refresh();
    return this.view32;
  }

  data() {
    if (this.view8.length === 0) this.refresh();
    return this.view;
  }

  allocate(size) {
    const at = this.calls.alloc(size) >>> 0;
    if (at === 0) throw new Refusal(Answer.NO_MEMORY, "out of memory");
    this.u8().fill(0, at, at + size);
    return at;
  }

  /** A number that a call wrote. */
  number(at = this.room) {
    return this.u32()[at >>> 2];
  }

  /** Writes those members of a struct that a value has. */
  write(layout, at, value) {
    const view = this.data();
    for (const [name, member] of Object.entries(layout.members)) {
      if (value[name] === undefined) continue;
      const all = member.count > 0 ? value[name] : [value[name]];
      const width = widthOf(member.kind);
      for (let one = 0; one < Math.max(member.count, 1) && one < all.length; one++)
        put(view, at + member.at + one * width, member.kind, all[one]);
    }
  }

  /** All members of a struct. */
  read(layout, at = this.room) {
    const view = this.data();
    const found = {};
    for (const [name, member] of Object.entries(layout.members)) {
      const width = widthOf(member.kind);
      const get = (one) =>
        member.kind in raw.structs
          ? this.read(raw.structs[member.kind], at + member.at + one * width)
          : got(view, at + member.at + one * width, member.kind);
      found[name] = member.count > 0 ? Array.from({ length: member.count }, (_, one) => get(one)) : get(0);
    }
    return found;
  }
}

function widthOf(kind) {
  return kind in raw.structs ? raw.structs[kind].size : { u8: 1, u32: 4, i32: 4, u64: 8, pointer: 8 }[kind];
}

function put(view, at, kind, value) {
  if (kind === "u8") view.setUint8(at, value);
  else if (kind === "u64") view.setBigUint64(at, BigInt(value), true);
  else view.setUint32(at, value, true);
}

function got(view, at, kind) {
  if (kind === "u8") return view.getUint8(at);
  if (kind === "u64" || kind === "pointer") return view.getBigUint64(at, true);
  return kind === "i32" ? view.getInt32(at, true) : view.getUint32(at, true);
}

/** What has a handle in the module's memory. */
class Handle {
  constructor(library) {
    this.library = library;
    this.at = library.allocate(raw.Session.size);
  }

  /** Throws why this can't be opened, and gives its memory back. */
  opened(code) {
    if (code === OK) return;
    this.library.calls.dealloc(this.at);
    this.at = 0;
    throw new Refusal(code, this.library.text(code));
  }

  /** Closes it. Nothing happens if it is closed. */
  close() {
    if (this.at === 0) return;
    this.library.calls.close(this.at);
    this.library.calls.dealloc(this.at);
    this.at = 0;
  }

  /** Throws if it is closed: a place of 0 means nothing to the module. */
  get open() {
    if (this.at === 0) throw new Refusal(Answer.IS_CLOSED, this.library.text(Answer.IS_CLOSED));
    return this.at;
  }

  /** A number that a call wrote, or null if it answers that there is none. */
  told(code) {
    return code === OK ? this.library.number() : null;
  }
}

const SETTINGS = ["players", "local", "threshold", "profile", "limit", "log", "delays", "masks"];

/** Settings as `fazgrond_settings_for` has them, with what the game says. */
function settingsOf(given) {
  checkNames("settings", given, SETTINGS, ["players", "local"]);
  const local = listOf("local", given.local, raw.PLAYERS, 1);
  const made = raw.settingsFor(whole("players", given.players));
  return {
    ...made,
    ...said(given, ["threshold", "profile", "limit", "log"]),
    local: local.reduce((bits, player) => bits | (1 << (player - 1)), 0),
    delays: placesOf("delays", given.delays, made.delays),
    masks: placesOf("masks", given.masks, made.masks),
  };
}

/** A session, which plays a game. It carries out its requests by itself. */
export class Session extends Handle {
  constructor(library, settings, game) {
    const told = settingsOf(settings);
    super(library);
    library.write(raw.Settings, library.room, told);
    this.opened(library.calls.open(this.at, library.room));
    this.game = game;
    this.local = [...settings.local];
    /** The states that the session has saved, by their slots. */
    this.states = [game.save()];
    /** Where the last advance led: the new frame, the one that it started from, and how many frames were run. */
    this.reached = { frame: 0, from: 0, rerun: 0 };
    /** The answer of the last `guess`. */
    this.answer = OK;
    this.words = new Uint32Array(told.players);
    this.isBroken = false;
    this.noted = -1;
    /** How many epochs of its match are over. */
    this.epochs = 0;
    /** The jobs that are out. */
    this.jobs = new Set();
  }

  close() {
    super.close();
    for (const state of this.states) if (state !== undefined) this.game.free?.(state);
    this.states = [];
  }

  get open() {
    if (this.isBroken) throw new Error("a function of the game has thrown, so its states aren't those of the session");
    return this.at !== 0 ? this.at : super.open;
  }

  /** The current frame. */
  get frame() {
    return this.told(this.library.calls.frame(this.open, this.library.room));
  }

  /** How many rows are settled: they never change. */
  get settled() {
    return this.told(this.library.calls.settled(this.open, this.library.room));
  }

  /** Whether the state that is shown may be out of date. */
  get hasNews() {
    return this.told(this.library.calls.has_news(this.open, this.library.room)) === 1;
  }

  /** How many frames this machine should wait, if there is no peer. */
  get framesAhead() {
    return this.told(this.library.calls.frames_ahead(this.open, this.library.room));
  }

  /** How many entries the log has. */
  get logLength() {
    return this.told(this.library.calls.log_length(this.open, this.library.room));
  }

  /** A local player's word of this frame. */
  addLocalInput(player, word) {
    return this.library.calls.add_local_input(this.open, whole("player", player, U8), whole("word", word));
  }

  /** A remote player's next word, for a game with a network of its own. */
  remoteInput(player, frame, word) {
    const { calls, room } = this.library;
    return calls.remote_input(this.open, whole("player", player, U8), whole("frame", frame), whole("word", word), room);
  }

  /** A remote player leaves, for a game with a network of its own. */
  disconnectPlayer(player) {
    return this.library.calls.disconnect_player(this.open, whole("player", player, U8));
  }

  /** Rolls back if a prediction was wrong. */
  synchronizeInput() {
    const code = this.library.calls.synchronize_input(this.open, this.library.room);
    this.carryOut();
    return code;
  }

  /** Goes on to the next frame, after a rollback if a prediction was wrong. */
  advanceFrame() {
    const { calls, room } = this.library;
    const code = calls.advance_frame(this.open, room);
    if (code === OK) {
      const memory = this.library.u32();
      this.reached = { frame: memory[room >>> 2], from: memory[(room >>> 2) + 1], rerun: memory[(room >>> 2) + 2] };
    }
    this.carryOut();
    return code;
  }

  /**
   * A turn: the words of the local players, in their order, and a frame. If that is refused, or there are no words since the game
   * is to wait, what came too late is played again. The answer is that of the frame.
   */
  turn(words) {
    let code = words === null ? Answer.LOCAL_INPUT_MISSING : OK;
    for (let at = 0; at < this.local.length && code === OK; at++) whole(`words[${at}]`, words?.[at]);
    for (let at = 0; at < this.local.length && code === OK; at++) {
      code = this.addLocalInput(this.local[at], words[at]);
      if (code === Answer.INPUT_TWICE) code = OK; // another player's word was refused after it
    }
    if (code === OK) return this.advanceFrame();
    if (this.hasNews) this.synchronizeInput();
    return code;
  }

  /** A guess: a job to carry out anywhere, or null if there is none; `answer` says why. */
  guess(player, words, until) {
    const { calls, room } = this.library;
    const given = listOf("words", words).slice(0, 64);
    this.library.u32().set(given, (room + 64) >>> 2);
    return this.jobOf(calls.guess(this.open, whole("player", player, U8), room + 64, given.length, whole("until", until), room));
  }

  /** The job whose requests a guess has left, or null. */
  jobOf(answer) {
    this.answer = answer;
    if (answer !== OK) return null;
    const job = new Job(this.library.number(), this.epochs);
    for (let count = this.take(); count > 0; count = this.take())
      for (let at = 0; at < count; at++) this.addToJob(job, this.library.u32(), placeOf(this.library, at));
    this.jobs.add(job);
    return job;
  }

  addToJob(job, memory, place) {
    const [kind, slot] = [memory[place], memory[place + 1]];
    if (kind === raw.JOB_LOAD) job.from = this.states[slot];
    else if (kind === raw.JOB_STEP) job.steps.push(rowAt(this.library, (place + ROW) << 2));
    else job.slots.push(slot);
  }

  /** Takes a job's states in. The answer says whether they are of use; afterwards the job is over in any case. */
  graft(job) {
    if (job.states.length !== job.slots.length) throw new Error("the job has not been carried out");
    if (job.epoch !== this.epochs) return this.over(job);
    this.putStates(job);
    this.jobs.delete(job);
    return this.library.calls.graft(this.open, job.number, this.library.room);
  }

  /** Gives a job up. It may not be carried out any more. */
  forget(job) {
    if (job.epoch !== this.epochs) return this.over(job);
    this.putStates(job);
    this.jobs.delete(job);
    return this.library.calls.forget(this.open, job.number);
  }

  /** A job that was given up with its epoch is over, and its slots have other states now. */
  over(job) {
    for (const state of job.states) this.game.free?.(state);
    [job.states, job.slots] = [[], []];
    return Answer.NO_JOB;
  }

  /** Gives all jobs up that are out, as of an epoch before. */
  giveUp() {
    for (const job of this.jobs) {
      job.epoch = -1;
      this.library.calls.forget(this.open, job.number);
    }
    this.jobs.clear();
  }

  /** Goes on in the next epoch, if a peer answers that it has begun: its frames begin anew, and so many were run. */
  goneOn(code, frames) {
    if (code !== OK) return code;
    this.epochs++;
    this.noted = -1;
    this.reached = { frame: frames, from: 0, rerun: frames };
    this.carryOut();
    return code;
  }

  /** A job's states lie in its slots, until the session has them freed. */
  putStates(job) {
    job.states.forEach((state, at) => {
      this.states[job.slots[at]] = state;
    });
  }

  /** The settled frame, and the state after all settled rows. */
  settledState() {
    const { calls, room } = this.library;
    if (calls.settled_slot(this.open, room, room + 4) !== OK) return null;
    return { frame: this.library.number(), state: this.states[this.library.number(room + 4)] };
  }

  /** A settled row, or null. */
  settledRow(frame) {
    return this.library.calls.settled_row(this.open, whole("frame", frame), this.library.room) === OK ? rowAt(this.library) : null;
  }

  /** How many words of a player are confirmed. */
  confirmed(player) {
    return this.told(this.library.calls.confirmed(this.open, whole("player", player, U8), this.library.room));
  }

  /** The confirmed word of a player at a frame, or null. */
  confirmedWord(player, frame) {
    const { calls, room } = this.library;
    return this.told(calls.confirmed_word(this.open, whole("player", player, U8), whole("frame", frame), room));
  }

  /** The frame in which a local player's next word counts. */
  inputFrame(player) {
    return this.told(this.library.calls.input_frame(this.open, whole("player", player, U8), this.library.room));
  }

  /** The entry at a place of the log, or null. */
  logEntry(place) {
    const { calls, room } = this.library;
    return calls.log_entry(this.open, whole("place", place), room) === OK ? this.library.read(raw.Entry) : null;
  }

  noteAdvantages(local, remote) {
    const [least, most] = [-(2 ** 31), 2 ** 31 - 1];
    return this.library.calls.note_advantages(this.open, whole("local", local, most, least), whole("remote", remote, most, least));
  }

  limitSlots(slots) {
    return this.library.calls.limit_slots(this.open, whole("slots", slots));
  }

  reserveLog(events) {
    return this.library.calls.reserve_log(this.open, whole("events", events));
  }

  /** The text of the last rollback's claim, or null if there was none. */
  claim() {
    const { calls, room } = this.library;
    if (calls.claim(this.open, room + 8, 0, room) !== Answer.TOO_SHORT) return null;
    const length = this.library.number();
    const at = this.library.allocate(length);
    const code = calls.claim(this.open, at, length, room);
    const text = new TextDecoder().decode(this.library.u8().slice(at, at + length));
    calls.dealloc(at);
    return code === OK ? text : null;
  }

  // ---- Requests.

  /** Takes requests, and says how many: 0 if there are no more. Those of a seam come in two parts. */
  take() {
    return this.library.calls.take_requests(this.at, this.library.requests, ROOM);
  }

  carryOut() {
    this.isBroken = true; // unless no function of the game throws
    const { library } = this;
    for (let count = this.take(); count > 0; count = this.take())
      for (let at = 0; at < count; at++) this.carryOutOne(library.u32(), placeOf(library, at));
    this.isBroken = false;
  }

  /** Carries out the request at a place of the memory's words. */
  carryOutOne(memory, place) {
    const { game, states, words } = this;
    const slot = memory[place + 1];
    switch (memory[place]) {
      case raw.STEP:
        for (let player = 0; player < words.length; player++) words[player] = memory[place + ROW + 2 + player];
        game.step(words, memory[place + ROW + 1]);
        break;
      case raw.SAVE:
        states[slot] = game.save();
        break;
      case raw.LOAD:
        game.load(states[slot]);
        break;
      case raw.FREE:
        if (states[slot] !== undefined) game.free?.(states[slot]); // of a job that was never run there is none
        states[slot] = undefined;
        break;
    }
  }
}

/** Where in the memory's words a request is that was taken. */
function placeOf(library, at) {
  return (library.requests + at * raw.Request.size) >>> 2;
}

const ROW = raw.Request.members.row.at >>> 2; // where a request's row is in it

function rowAt(library, at = library.room) {
  const memory = library.u32();
  const place = at >>> 2;
  return { words: memory.slice(place + 2, place + 2 + memory[place]), gone: memory[place + 1] };
}

/**
 * A guess's frames: load `from`, and then for each step make it and save the state. A worker can be given `from` and `steps`, and
 * gives `states` back.
 */
export class Job {
  constructor(number, epoch) {
    this.number = number;
    this.epoch = epoch;
    this.from = undefined;
    this.steps = [];
    this.slots = [];
    this.states = [];
  }

  /** Carries it out by a game that is not the session's: its state is another one afterwards. */
  run(game) {
    game.load(this.from);
    this.states = this.steps.map(({ words, gone }) => {
      game.step(words, gone);
      return game.save();
    });
  }
}

/**
 * A sync test: does a game come out the same when it is run again? It runs frames with these words, `depth` at a time, goes back to the
 * state before them and runs them once more. The first frame that comes out another, or whose state before it has changed since it was
 * saved; null if there is none. The game needs its `digest`, and is afterwards at its last frame.
 */
export function syncTest(game, rows, depth = 8) {
  const all = Array.from(rows, (words, frame) => Uint32Array.from(listOf(`rows[${frame}]`, words)));
  whole("depth", depth, U32, 1);
  for (let first = 0; first < all.length; first += depth) {
    const found = firstOther(game, all.slice(first, first + depth));
    if (found !== null) return first + found;
  }
  return null;
}

/** Which of some frames is the first that comes out another. */
function firstOther(game, rows) {
  const states = [game.save()];
  const digests = [game.digest(states[0])];
  const run = (words) => {
    game.step(words.slice(), 0);
    const state = game.save();
    return { state, digest: game.digest(state) };
  };
  for (const words of rows) {
    const { state, digest } = run(words);
    states.push(state);
    digests.push(digest);
  }
  game.load(states[0]);
  const again = rows.map(run);
  const other = again.findIndex(({ digest }, at) => digest !== digests[at + 1]);
  const changed = states.findIndex((state, at) => game.digest(state) !== digests[at]);
  for (const state of [...states, ...again.map((it) => it.state)]) game.free?.(state);
  const found = [other, changed].filter((at) => at >= 0);
  return found.length > 0 ? Math.min(...found) : null;
}

/** Datagrams of what has one other end, or several. */
class Sealed extends Handle {
  /** Puts bytes where calls read them, and says how many they are; null if they are too many. */
  given(bytes) {
    const found = octets("bytes", bytes);
    if (found.length > raw.DATAGRAM) return null;
    this.library.u8().set(found, this.library.bytes);
    return found.length;
  }

  /** A copy of the datagram that a call wrote, or null if there is none. */
  written(code, bytes = this.library.bytes) {
    return code === OK ? this.library.u8().slice(bytes, bytes + this.library.number()) : null;
  }
}

const MATCH = ["me", "machines", "owners", "number", "numbers", "draw", "digest", "opening", "comers", "silentAfter", "notifyAfter",
  "stalledAfter", "words", "heldTurns", "carries"];

/** The number that a match has with each machine. */
function numbersOf({ me, machines, number, numbers }) {
  if (number === undefined && numbers === undefined) throw new TypeError("matches need `number`, or `numbers` by machines");
  return Array.from({ length: raw.MACHINES }, (_, at) => {
    const one = numbers?.[at] ?? number;
    if (one !== undefined) return whole64(numbers?.[at] === undefined ? "number" : `numbers[${at}]`, one);
    if (at < machines && at !== me) throw new TypeError(`matches need \`numbers[${at}]\``);
    return 0n;
  });
}

/** A match as `fazgrond_match_for` has it, with what the game says. */
function matchOf(given) {
  checkNames("matches", given, MATCH, ["me", "machines", "owners"]);
  const made = raw.matchFor(whole("machines", given.machines), whole("me", given.me));
  return {
    ...made,
    numbers: numbersOf(given),
    draw: whole64("draw", given.draw ?? randomNumber()),
    ...said(given, ["digest", "opening", "comers"], whole64),
    owners: placesOf("owners", given.owners, made.owners),
    ...said(given, ["silentAfter", "notifyAfter", "stalledAfter", "words", "heldTurns"]),
  };
}

const EPOCH = ["id", "base", "words", "threshold", "machines", "owners", "delays"];

function epochOf(given) {
  checkNames("epochs", given, EPOCH, ["threshold", "owners"]);
  const made = raw.epochFor(raw.matchFor(0, 0), raw.settingsFor(0));
  return {
    ...made,
    ...said(given, ["words", "threshold", "machines"]),
    ...said(given, ["id", "base"], whole64),
    owners: placesOf("owners", given.owners, made.owners),
    delays: placesOf("delays", given.delays, made.delays),
  };
}

const MARK = ["threshold", "delays", "comes", "ticket"];

function markOf(given) {
  checkNames("marks", given, MARK, []);
  const comes = listOf("comes", given.comes ?? [], raw.PLAYERS, 1);
  const made = raw.markFor();
  return {
    ...made,
    ...said(given, ["threshold"]),
    ...said(given, ["ticket"], whole64),
    comes: made.comes.map((none, at) => (comes.includes(at + 1) ? 1 : none)),
    delays: placesOf("delays", given.delays, made.delays),
  };
}

/** The network of a match, at one of its machines. `now` is this machine's clock in whole milliseconds. */
export class Peer extends Sealed {
  constructor(library, session, match, epoch) {
    const [told, beside] = [matchOf(match), epoch === undefined ? null : epochOf(epoch)];
    super(library);
    this.session = session;
    const { calls, room } = library;
    library.write(raw.Match, room, told);
    if (beside !== null) {
      library.write(raw.Epoch, room + raw.Match.size, beside);
      this.opened(calls.peer_open_lasting(this.at, session.open, room, room + raw.Match.size));
    } else this.opened((match.carries ? calls.peer_open_carrying : calls.peer_open)(this.at, session.open, room));
  }

  /** Takes a datagram that came. */
  receive(bytes, now) {
    const length = this.given(bytes);
    if (length === null) return Answer.NOT_SEALED;
    return this.library.calls.peer_receive(this.open, this.session.open, this.library.bytes, length, clock(now));
  }

  /** Once a turn, before the session's own calls. */
  poll(now) {
    return this.library.calls.peer_poll(this.open, this.session.open, clock(now));
  }

  /** Whether the match has begun: give the session no words before. */
  get isRunning() {
    return this.told(this.library.calls.peer_is_running(this.open, this.library.room)) === 1;
  }

  /** The datagram to send to a machine in this turn, or null. */
  send(machine, now) {
    const { calls, bytes, room } = this.library;
    const to = whole("machine", machine, U8);
    return this.written(calls.peer_send(this.open, this.session.open, to, clock(now), bytes, raw.DATAGRAM, room));
  }

  /** After `send` to each other machine, what a peer that carries has to send besides, and to which machine; null if there is no more. */
  sendMore() {
    const { calls, bytes, room } = this.library;
    const machine = room + 8; // beside the length
    const more = this.written(calls.peer_send_more(this.open, machine, bytes, raw.DATAGRAM, room));
    return more && { machine: this.library.u8()[machine], bytes: more };
  }

  /** The datagram that says to a machine that this one leaves, and why, or null. Send it a few times. */
  bye(machine, why = raw.BYE_LEAVES) {
    const { calls, bytes, room } = this.library;
    const [to, said] = [whole("machine", machine, U8), whole("why", why, U8)];
    return this.written(calls.peer_bye(this.open, to, said, bytes, raw.DATAGRAM, room));
  }

  /** Regards a machine as gone, for good. */
  disconnect(machine) {
    return this.library.calls.peer_disconnect(this.open, whole("machine", machine, U8));
  }

  /** Tells the others the digest of the settled state, if the game has a function for it. */
  noteSettled() {
    const { session } = this;
    const settled = session.game.digest === undefined ? null : session.settledState();
    if (settled === null || settled.frame === session.noted) return OK;
    session.noted = settled.frame;
    return this.library.calls.peer_note_settled(this.open, session.open, whole64("digest", session.game.digest(settled.state)));
  }

  /** What happened, the oldest first; null if nothing did. */
  event() {
    return this.library.calls.peer_event(this.open, this.library.room) === OK ? this.library.read(raw.Event) : null;
  }

  /** What was counted and measured of a machine. */
  stats(machine) {
    const { calls, room } = this.library;
    return calls.peer_stats(this.open, whole("machine", machine, U8), room) === OK ? this.library.read(raw.Stats) : null;
  }

  // ---- Words held back, with `heldTurns` in the match.

  /** The words that wait, in the order in which they came. */
  waiting() {
    const { calls, room } = this.library;
    const count = calls.peer_waiting(this.open, room, raw.HELD_WORDS);
    return Array.from({ length: count }, (_, at) => this.library.read(raw.Entry, room + at * raw.Entry.size));
  }

  /** How many frames the session would have to run again for the first words that wait, or null. */
  rerun(count) {
    return this.told(this.library.calls.peer_rerun(this.open, this.session.open, whole("count", count), this.library.room));
  }

  /** A guess with all words that wait: a job, or null; the session's `answer` says why. */
  guess(until) {
    const { calls, room } = this.library;
    return this.session.jobOf(calls.peer_guess(this.open, this.session.open, whole("until", until), room));
  }

  /** Hands the first words that wait over to the session. */
  handOver(count) {
    return this.library.calls.peer_hand_over(this.open, this.session.open, whole("count", count));
  }

  /** Once a turn: hands over the words that have waited long enough. */
  handOverDue() {
    return this.library.calls.peer_hand_over_due(this.open, this.session.open, this.library.room);
  }

  /** Whether the game would stand without the words that wait. */
  get isPressed() {
    return this.told(this.library.calls.peer_is_pressed(this.open, this.session.open, this.library.room)) === 1;
  }

  // ---- Epochs: in each turn, after `poll` and before the session is given words, `goOn`.

  /** How the epoch opened that is played now; null if the match doesn't go on in epochs. */
  epoch() {
    if (this.library.calls.peer_epoch(this.open, this.library.room) !== OK) return null;
    const { size, owners, delays, ...told } = this.library.read(raw.Epoch);
    const players = owners.filter((owner) => owner !== raw.NO_PLAYER).length;
    return { ...told, owners: owners.slice(0, players), delays: delays.slice(0, players) };
  }

  /** Whether a machine is in this epoch and was in the one before: false of each in the epoch with which the peer was opened. */
  hasStayed(machine) {
    return this.told(this.library.calls.peer_has_stayed(this.open, whole("machine", machine, U8), this.library.room)) === 1;
  }

  /** Puts a mark on the next word that a player of this machine gives: the epoch ends after that frame. */
  mark(player, mark = {}) {
    const { library } = this;
    library.write(raw.Mark, library.room, markOf(mark));
    return library.calls.peer_mark(this.open, this.session.open, whole("player", player, U8), library.room);
  }

  /**
   * Goes on in the next epoch if this one is over; else the answer is `NOTHING`. The session's `reached` says at what frame it is. Jobs
   * that are out are given up first.
   */
  goOn() {
    const goOn = () => this.library.calls.peer_go_on(this.open, this.session.open, this.library.room);
    let code = goOn();
    if (code === Answer.JOBS_OUT) {
      this.session.giveUp();
      code = goOn();
    }
    return this.session.goneOn(code, this.library.number());
  }

  /** What is to be sent, after `send`, to a machine in the epoch before, or null. */
  sendBefore(machine, now) {
    const { calls, bytes, room } = this.library;
    return this.written(calls.peer_send_before(this.open, whole("machine", machine, U8), clock(now), bytes, raw.DATAGRAM, room));
  }
}

const LINE = ["number", "draw", "digest", "opening", "host", "machines", "owners", "silentAfter"];

function lineOf(given) {
  checkNames("lines", given, LINE, ["number", "host", "machines", "owners"]);
  return {
    number: whole64("number", given.number),
    draw: whole64("draw", given.draw ?? randomNumber()),
    digest: whole64("digest", given.digest ?? 0n),
    opening: whole64("opening", given.opening ?? 0n),
    host: whole("host", given.host),
    machines: whole("machines", given.machines),
    owners: placesOf("owners", given.owners, raw.matchFor(0, 0).owners),
    silentAfter: whole("silentAfter", given.silentAfter ?? raw.SILENT_AFTER),
  };
}

/** A host's end of a viewer's line. */
export class Line extends Sealed {
  constructor(library, session, settings) {
    const told = lineOf(settings);
    super(library);
    this.session = session;
    library.write(raw.LineSettings, library.room, told);
    this.opened(library.calls.line_open(this.at, library.room));
  }

  receive(bytes, now) {
    const length = this.given(bytes);
    if (length === null) return Answer.NOT_SEALED;
    return this.library.calls.line_receive(this.open, this.library.bytes, length, clock(now));
  }

  send(now) {
    const { calls, bytes, room } = this.library;
    return this.written(calls.line_send(this.open, this.session.open, clock(now), bytes, raw.DATAGRAM, room));
  }

  /**
   * The same of a line of the epoch before, in a match that goes on in epochs: a line is of one epoch, so open another one for the next.
   * Null too if there is no epoch before, or nobody can be in it any more.
   */
  sendBefore(peer, now) {
    const { calls, bytes, room } = this.library;
    return this.written(calls.line_send_before(this.open, peer.open, clock(now), bytes, raw.DATAGRAM, room));
  }

  bye() {
    const { calls, bytes, room } = this.library;
    return this.written(calls.line_bye(this.open, bytes, raw.DATAGRAM, room));
  }

  look(now) {
    return this.library.calls.line_look(this.open, clock(now), this.library.room) === OK ? this.library.read(raw.LineState) : null;
  }
}

/** A viewer's end of a line. */
export class Viewer extends Sealed {
  constructor(library, settings) {
    const told = lineOf(settings);
    super(library);
    library.write(raw.LineSettings, library.room, told);
    this.opened(library.calls.viewer_open(this.at, library.room));
  }

  receive(bytes, now) {
    const length = this.given(bytes);
    if (length === null) return Answer.NOT_SEALED;
    const { calls, room } = this.library;
    return calls.viewer_receive(this.open, this.library.bytes, length, clock(now), room);
  }

  send(now) {
    const { calls, bytes, room } = this.library;
    return this.written(calls.viewer_send(this.open, clock(now), bytes, raw.DATAGRAM, room));
  }

  bye() {
    const { calls, bytes, room } = this.library;
    return this.written(calls.viewer_bye(this.open, bytes, raw.DATAGRAM, room));
  }

  /** The next row to play, from frame 0 on, or null. */
  row() {
    return this.library.calls.viewer_row(this.open, this.library.room) === OK ? rowAt(this.library) : null;
  }

  look(now) {
    return this.library.calls.viewer_look(this.open, clock(now), this.library.room) === OK ? this.library.read(raw.LineState) : null;
  }
}

const NAME = ["which", "frame", "length", "digest"];

/** What a state is called. */
function stateNameOf(given) {
  checkNames("names of states", given, NAME, NAME);
  if (given.digest.length !== raw.DIGEST_BYTES) throw new RangeError(`\`digest\` has ${given.digest.length} bytes: 32 are needed`);
  return {
    which: whole64("which", given.which),
    frame: whole("frame", given.frame),
    length: whole("length", given.length),
    digest: placesOf("digest", given.digest, Array(raw.DIGEST_BYTES).fill(0), U8),
  };
}

/** Who gives a state to the other machines before a match. */
export class Giver extends Sealed {
  constructor(library, which, frame, bytes) {
    const [number, of, state] = [whole64("which", which), whole("frame", frame), octets("bytes", bytes)];
    super(library);
    const at = library.allocate(Math.max(state.length, 1));
    library.u8().set(state, at);
    const code = library.calls.giver_open(this.at, number, of, at, state.length);
    library.calls.dealloc(at);
    this.opened(code);
  }

  /** What the state is called: tell it those who are to take it. */
  get name() {
    return this.library.calls.giver_name(this.open, this.library.room) === OK ? this.library.read(raw.StateName) : null;
  }

  /** The datagram for the piece that bytes ask for at this place of their list, or null. */
  reply(number, me, bytes, place) {
    const length = this.given(bytes);
    if (length === null) return null;
    const { calls, room, bytes: asked } = this.library;
    const to = asked + raw.DATAGRAM;
    const told = [whole64("number", number), whole("me", me, U8), asked, length, whole("place", place)];
    return this.written(calls.giver_reply(this.open, ...told, to, raw.DATAGRAM, room), to);
  }
}

/** Who takes a state before a match. */
export class Taker extends Sealed {
  constructor(library, name, limit) {
    const [told, most] = [stateNameOf(name), whole("limit", limit)];
    super(library);
    library.write(raw.StateName, library.room, told);
    this.length = told.length;
    this.opened(library.calls.taker_open(this.at, library.room, most));
  }

  /** How many pieces the state has, and how many are missing. */
  look() {
    return this.library.calls.taker_look(this.open, this.library.room) === OK ? this.library.read(raw.TakerState) : null;
  }

  /** The datagram that asks for the next missing pieces, or null if none is missing. */
  send(number, me, most = 4) {
    const { calls, bytes, room } = this.library;
    const told = [whole64("number", number), whole("me", me, U8), whole("most", most)];
    return this.written(calls.taker_send(this.open, ...told, bytes, raw.DATAGRAM, room));
  }

  /** What came of a datagram: `what` is `raw.PIECE_TAKEN` or the like. Null if it is refused. */
  receive(number, bytes) {
    const length = this.given(bytes);
    if (length === null) return null;
    const { calls, room, bytes: at } = this.library;
    const code = calls.taker_receive(this.open, whole64("number", number), at, length, room);
    return code === OK ? this.library.read(raw.Heard) : null;
  }

  /** Whether pieces of a machine are taken for now. */
  takesOf(machine) {
    return this.told(this.library.calls.taker_takes_of(this.open, whole("machine", machine, U8), this.library.room)) === 1;
  }

  /** From now on pieces of this machine alone are taken, or with `raw.NO_MACHINE` of each that gave no wrong state. */
  takeOf(machine) {
    return this.library.calls.taker_take_of(this.open, whole("machine", machine, U8));
  }

  /** The state's bytes, or null if pieces are missing. */
  bytes() {
    const at = this.library.allocate(this.length);
    const code = this.library.calls.taker_bytes(this.open, at, this.length);
    const found = this.library.u8().slice(at, at + this.length);
    this.library.calls.dealloc(at);
    return code === OK ? found : null;
  }
}

/** What a player may press next, by what was seen of the player. */
export class Habits extends Handle {
  constructor(library, parts, likely) {
    const [masks, words] = [listOf("parts", parts).slice(0, 64), listOf("likely", likely).slice(-64)];
    super(library);
    const { room } = library;
    library.u32().set(masks, room >>> 2);
    library.u32().set(words, (room + 256) >>> 2);
    this.opened(library.calls.habits_open(this.at, room, masks.length, room + 256, words.length));
  }

  /** Notes the player's next confirmed word. */
  note(word) {
    return this.library.calls.habits_note(this.open, whole("word", word));
  }

  /** The best guesses of the next words, best first. */
  guesses(frames) {
    const most = 32;
    const { calls, room } = this.library;
    const count = calls.habits_guesses(this.open, whole("frames", frames), room, most);
    return Array.from({ length: count }, (_, at) => {
      const { count: length, worth, words } = this.library.read(raw.Foreseen, room + at * raw.Foreseen.size);
      return { words: words.slice(0, length), worth };
    });
  }
}
