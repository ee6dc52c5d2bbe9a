// Rollback sessions for games in a browser. docs/WEB.md shows a whole game.
import * as raw from "./raw.js";

export { raw };
export const Answer: typeof raw.Answer;
export const Code: typeof raw.Code;

/** The game, as a session plays it. A state that was saved never changes any more: `save` makes a copy, and `load` takes from it. */
export interface Game<State> {
  save(): State;
  load(state: State): void;
  /** A frame. `words` has a word for each player, and is another one in the next call; bit p - 1 of `gone` is set if player p has left. */
  step(words: Uint32Array, gone: number): void;
  /** Nothing needs this state any more. */
  free?(state: State): void;
  /** A number that is another one for most other states: by it the machines see that they play alike. Not negative. */
  digest?(state: State): number | bigint;
}

export interface SessionSettings {
  /** How many players there are, 1 to 8. */
  players: number;
  /** Those of this machine, from 1 on. */
  local: number[];
  /** How many frames the session may run ahead of the confirmed inputs. 8, or 15 with more than 4 players. */
  threshold?: number;
  /** `raw.GGPO` or `raw.WIDE`: by the number of players, if it isn't said. */
  profile?: number;
  limit?: number;
  log?: number;
  /** By how many frames each player's words count later, player 1 first: 0 for a remote one. */
  delays?: number[];
  /** Which bits of a player's last word are predicted as held. All, if it isn't said. */
  masks?: number[];
}

export interface MatchSettings {
  /** Which machine this is, from 0 on, and how many there are. */
  me: number;
  machines: number;
  /** The machine of each player, player 1 first. */
  owners: number[];
  /** A number that all machines know, 64 random bits; or one with each of them. One of the two is needed. */
  number?: bigint;
  numbers?: bigint[];
  /** Drawn anew for each opening, if it isn't said. */
  draw?: bigint | number;
  /** Of all else that has to be alike at all machines, but for the opening state. */
  digest?: bigint;
  /** A digest of the opening state, which is compared before the match begins. 0n, if it isn't said. */
  opening?: bigint;
  /** Who may come to a match that goes on: see `ticket`. 0, if it isn't said: anybody whom a mark has come. */
  comers?: bigint;
  /** Milliseconds: 5000, 750 and 0, if it isn't said. */
  silentAfter?: number;
  notifyAfter?: number;
  stalledAfter?: number;
  /** How many words an input has. */
  words?: number;
  /** For how many turns at most the others' words wait beside the session. */
  heldTurns?: number;
  /** Of three machines or more: hand on what two others send each other whose line is broken. */
  carries?: boolean;
}

/** How an epoch of a match opens: the same at all machines. */
export interface Epoch {
  /** Which epoch it is: 0 is the first one, and any other has a number of 64 bits of its own. */
  id: bigint;
  /** How many frames of the match came before its first one. */
  base: bigint;
  /** How many words an input has. */
  words: number;
  /** How many frames its sessions may run ahead of the confirmed inputs. */
  threshold: number;
  /** How many machines there are. Where an epoch is opened, it isn't looked at. */
  machines: number;
  /** The machine of each player, player 1 first; `raw.NOBODY` if nobody owns it now. */
  owners: number[];
  /** By how many frames each player's words count later, player 1 first. */
  delays: number[];
}

/** What is to be otherwise in the next epoch. With nothing in it the frames begin anew, and that is all. */
export interface Mark {
  /** How many frames sessions may run ahead of the confirmed inputs. */
  threshold?: number;
  /** New delays, player 1 first: of players of the machine that puts the mark. */
  delays?: (number | undefined)[];
  /** The players that somebody who comes is to own, from 1 on, and the ticket: a mark with one that isn't of the `comers` is void. */
  comes?: number[];
  ticket?: bigint;
}

export interface LineSettings {
  number: bigint;
  draw?: bigint | number;
  digest?: bigint;
  opening?: bigint;
  host: number;
  machines: number;
  owners: number[];
  silentAfter?: number;
}

export interface Row {
  words: Uint32Array;
  gone: number;
}

export class Refusal extends Error {
  constructor(code: number, sentence: string);
  readonly code: number;
}

export function hasMemory64(): boolean;
export function randomNumber(): bigint;

export class Fazgrond {
  static load(source?: string | URL | Response | BufferSource | WebAssembly.Module): Promise<Fazgrond>;
  constructor(module: WebAssembly.Module);
  readonly calls: raw.Exports;
  readonly memory: WebAssembly.Memory;
  get version(): string;
  text(code: number): string;
  session<State>(settings: SessionSettings, game: Game<State>): Session<State>;
  peer(session: Session<any>, match: MatchSettings, epoch?: Epoch): Peer;
  epoch(match: MatchSettings, settings: SessionSettings): Epoch;
  epochHas(epoch: Epoch, machine: number): boolean;
  ticket(comers: bigint, name: number): bigint;
  line(session: Session<any>, settings: LineSettings): Line;
  viewer(settings: LineSettings): Viewer;
  habits(parts?: number[], likely?: number[]): Habits;
  giver(which: bigint | number, frame: number, bytes: BufferSource): Giver;
  taker(name: raw.StateName, limit: number): Taker;
  stateSender(bytes: BufferSource): number | null;
  stateDigest(name: raw.StateName, digest: bigint): bigint;
}

declare class Handle {
  close(): void;
}

export class Session<State> extends Handle {
  readonly states: (State | undefined)[];
  readonly reached: { frame: number; from: number; rerun: number };
  readonly answer: number;
  get frame(): number;
  get settled(): number;
  get hasNews(): boolean;
  get framesAhead(): number;
  get logLength(): number;
  addLocalInput(player: number, word: number): number;
  remoteInput(player: number, frame: number, word: number): number;
  disconnectPlayer(player: number): number;
  synchronizeInput(): number;
  advanceFrame(): number;
  turn(words: ArrayLike<number> | null): number;
  guess(player: number, words: number[], until: number): Job<State> | null;
  graft(job: Job<State>): number;
  forget(job: Job<State>): number;
  settledState(): { frame: number; state: State } | null;
  settledRow(frame: number): Row | null;
  confirmed(player: number): number | null;
  confirmedWord(player: number, frame: number): number | null;
  inputFrame(player: number): number | null;
  logEntry(place: number): raw.Entry | null;
  noteAdvantages(local: number, remote: number): number;
  limitSlots(slots: number): number;
  reserveLog(events: number): number;
  claim(): string | null;
}

export class Job<State> {
  readonly number: number;
  readonly from: State;
  readonly steps: Row[];
  states: State[];
  run(game: Game<State>): void;
}

/**
 * A sync test: the first of some frames that comes out another when it is run again, or whose state before it has changed since it was
 * saved; null if there is none. The frames have these words; so many at a time are run again.
 */
export function syncTest<State>(
  game: Game<State> & Required<Pick<Game<State>, "digest">>,
  rows: ArrayLike<number>[],
  depth?: number,
): number | null;

export class Peer extends Handle {
  receive(bytes: BufferSource, now: number): number;
  poll(now: number): number;
  get isRunning(): boolean;
  send(machine: number, now: number): Uint8Array | null;
  sendMore(): { machine: number; bytes: Uint8Array } | null;
  bye(machine: number, why?: number): Uint8Array | null;
  disconnect(machine: number): number;
  noteSettled(): number;
  event(): raw.Event | null;
  stats(machine: number): raw.Stats | null;
  waiting(): raw.Entry[];
  rerun(count: number): number | null;
  guess(until: number): Job<any> | null;
  handOver(count: number): number;
  handOverDue(): number;
  get isPressed(): boolean;
  epoch(): Epoch | null;
  hasStayed(machine: number): boolean;
  mark(player: number, mark?: Mark): number;
  goOn(): number;
  sendBefore(machine: number, now: number): Uint8Array | null;
}

export class Line extends Handle {
  receive(bytes: BufferSource, now: number): number;
  send(now: number): Uint8Array | null;
  sendBefore(peer: Peer, now: number): Uint8Array | null;
  bye(): Uint8Array | null;
  look(now: number): raw.LineState | null;
}

export class Viewer extends Handle {
  receive(bytes: BufferSource, now: number): number;
  send(now: number): Uint8Array | null;
  bye(): Uint8Array | null;
  row(): Row | null;
  look(now: number): raw.LineState | null;
}

export class Giver extends Handle {
  get name(): raw.StateName;
  reply(number: bigint, me: number, bytes: BufferSource, place: number): Uint8Array | null;
}

export class Taker extends Handle {
  look(): raw.TakerState | null;
  send(number: bigint, me: number, most?: number): Uint8Array | null;
  receive(number: bigint, bytes: BufferSource): raw.Heard | null;
  takesOf(machine: number): boolean;
  takeOf(machine: number): number;
  bytes(): Uint8Array | null;
}

export class Habits extends Handle {
  note(word: number): number;
  guesses(frames: number): { words: number[]; worth: number }[];
}
