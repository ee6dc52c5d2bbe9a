// What no right game does is found: what can't be taken is refused by its name, and a game that doesn't come out the same by the sync
// test. Each gets the library, and gives what it prints.
import { Code, syncTest } from "/site/fazgrond/fazgrond.js";

const SETTINGS = { players: 2, local: [1] };
const MATCH = { me: 0, machines: 2, owners: [0, 1], number: 7n };
const LINE = { number: 8n, host: 0, machines: 2, owners: [0, 1] };
const NAME = { which: 1n, frame: 0, length: 5, digest: new Array(32).fill(7) };

/** Two numbers of a list: to the first one the words are added, and the second one is the sum of all that the first one was. */
class List {
  constructor() {
    this.list = [0, 0];
  }

  save() {
    return this.list.slice();
  }

  load(state) {
    this.list = state.slice();
  }

  step(words) {
    this.list[0] = (this.list[0] + words[0] + 2 * words[1]) % 1009;
    this.list[1] = (this.list[1] + this.list[0]) % 1013;
  }

  digest(state) {
    return state[0] + 1013 * state[1];
  }
}

/** It hands out its own list, which goes on to change. */
class Lends extends List {
  save() {
    return this.list;
  }
}

/** It goes on in the list that it was given. */
class Borrows extends List {
  load(state) {
    this.list = state;
  }
}

/** It has a counter beside its state, by which each hundredth step comes out another: that of frame 51 as it is run again. */
class Hides extends List {
  steps = 0;

  step(words) {
    super.step(words);
    this.list[0] += ++this.steps % 100 === 0 ? 1 : 0;
  }
}

export function syncTests() {
  const rows = Array.from({ length: 80 }, (_, frame) => [(frame * 7) % 5, (frame * 3) % 4]);
  const at = (game) => `${game.name} ${syncTest(new game(), rows)}\n`;
  return [List, Lends, Borrows, Hides].map(at).join("");
}

function settings(library, session) {
  const opens = (more) => () => library.session({ ...SETTINGS, ...more }, new List());
  const peer = (more) => () => library.peer(session, { ...MATCH, ...more });
  const epoch = (more) => () => library.peer(session, MATCH, { ...library.epoch(MATCH, SETTINGS), ...more });
  const line = (more) => () => library.line(session, { ...LINE, ...more });
  return [
    ["settings are undefined", () => library.session(undefined, new List())],
    ["settings have no `locals`", opens({ locals: [1] })],
    ["settings need `players`", opens({ players: undefined })],
    ["settings need `local`", opens({ local: undefined })],
    ["`players` is 1.5", opens({ players: 1.5 })],
    ["`local` is 1", opens({ local: 1 })],
    ["`local[0]` is 9", opens({ local: [9] })],
    ["`threshold` is -1", opens({ threshold: -1 })],
    ["`delays[1]` is 0.5", opens({ delays: [0, 0.5] })],
    ["`masks` has 9 places", opens({ masks: new Array(9).fill(0) })],
    ["matches have no `silentafter`", peer({ silentafter: 500 })],
    ["matches need `owners`", peer({ owners: undefined })],
    ["matches need `number`", peer({ number: undefined })],
    ["matches need `numbers[1]`", peer({ number: undefined, numbers: [7n] })],
    ["`number` is 1.5", peer({ number: 1.5 })],
    ["`number` is -7", peer({ number: -7n })],
    ["`number` is 18446744073709551616", peer({ number: 1n << 64n })],
    ["`words` is 1.5", peer({ words: 1.5 })],
    ["`silentAfter` is 4294967296", peer({ silentAfter: 2 ** 32 })],
    ["`comers` is -1", peer({ comers: -1n })],
    ["`name` is 4294967296", () => library.ticket(5n, 2 ** 32)],
    ["`owners` is 1", peer({ owners: 1 })],
    ["epochs have no `delay`", epoch({ delay: [1] })],
    ["`base` is -1", epoch({ base: -1 })],
    ["lines need `number`", line({ number: undefined })],
    ["`host` is 0.5", line({ host: 0.5 })],
    ["`which` is \"one\"", () => library.taker({ ...NAME, which: "one" }, 9)],
    ["`digest` has 2 bytes", () => library.taker({ ...NAME, digest: [1, 2] }, 9)],
    ["`parts[0]` is -1", () => library.habits([-1])],
  ];
}

function calls(session, peer) {
  return [
    ["`words[0]` is undefined", () => session.turn([])],
    ["`words[0]` is 1.5", () => session.turn([1.5])],
    ["`words[0]` is -1", () => session.turn([-1])],
    ["`words[0]` is 4294967296", () => session.turn([2 ** 32])],
    ["`word` is \"7\"", () => session.addLocalInput(1, "7")],
    ["`player` is 257", () => session.addLocalInput(257, 7)],
    ["`frame` is NaN", () => session.remoteInput(2, NaN, 7)],
    ["`words[1]` is -1", () => session.guess(2, [1, -1], 2)],
    ["`slots` is 0.5", () => session.limitSlots(0.5)],
    ["`now` is undefined", () => peer.poll()],
    ["`now` is NaN", () => peer.receive(new ArrayBuffer(60), NaN)],
    ["`bytes` is \"text\"", () => peer.receive("text", 0)],
    ["`bytes` is [object Object]", () => peer.receive({ length: 60 }, 0)],
    ["`machine` is 256", () => peer.send(256, 0)],
    ["`count` is -1", () => peer.handOver(-1)],
    ["marks have no `delay`", () => peer.mark(1, { delay: [2] })],
    ["`comes[0]` is 0", () => peer.mark(1, { comes: [0] })],
  ];
}

/** What a call says that throws. */
function said(call) {
  try {
    return `${call()} came back`;
  } catch (why) {
    return why.message;
  }
}

/** What can't be taken is refused by its name, and nothing has changed. */
export function refusals(library) {
  const session = library.session(SETTINGS, new List());
  const peer = library.peer(session, MATCH);
  const printed = [...settings(library, session), ...calls(session, peer)].flatMap(([due, call]) => {
    const found = said(call);
    return found.startsWith(due) ? [] : [`${due}: ${found}\n`];
  });
  printed.push(`${session.logLength} calls were accepted\n`);
  peer.close();
  session.close();
  return printed.join("");
}

/** Datagrams as a channel gives them, or within a longer buffer: two machines meet by each. */
export function buffers(library) {
  const within = (bytes) => {
    const buffer = new Uint8Array(bytes.length + 9);
    buffer.set(bytes, 5);
    return new DataView(buffer.buffer, 5, bytes.length);
  };
  const meets = (as) => {
    const both = [0, 1].map((me) => {
      const session = library.session({ ...SETTINGS, local: [me + 1] }, new List());
      return { session, peer: library.peer(session, { ...MATCH, me }) };
    });
    for (let turn = 0; turn < 8; turn++)
      for (const me of [0, 1]) {
        both[me].peer.poll(16 * turn);
        both[1 - me].peer.receive(as(both[me].peer.send(1 - me, 16 * turn)), 16 * turn);
      }
    const isMet = both.every(({ peer }) => peer.isRunning);
    for (const { session, peer } of both) [peer, session].forEach((it) => it.close());
    return isMet;
  };
  return [(bytes) => bytes.buffer, (bytes) => bytes, within].map((as) => `${meets(as)}\n`).join("");
}

/** Whether a machine that doesn't come is told to be missing after five seconds, if nothing is said of times. */
export function missing(library) {
  const session = library.session(SETTINGS, new List());
  const peer = library.peer(session, MATCH);
  const told = [0, 4900, 5100].map((now) => {
    peer.poll(now);
    return peer.event()?.code;
  });
  peer.close();
  session.close();
  return `${told[0] === undefined && told[1] === undefined && told[2] === Code.MISSING}\n`;
}
