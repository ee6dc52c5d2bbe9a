// The examples of examples/c once more, by the classes of the package: what they print is known (examples/c/*.stdout). Each gets the
// library, and gives what it prints. Then what a turn costs, as bench/c_frames.c measures it.
const FRAMES = 600;
const TURN = 16;
const UNDER_WAY = 64;

const { LEFT, DESYNC, TIME_SYNC } = { LEFT: 1101, DESYNC: 1102, TIME_SYNC: 1005 };
const GONE = [LEFT, 1104, 1109]; // gone, dropped, cut off
const [NO_JOB, PENDING, NOTHING, WRONG_TICKET] = [120, 202, 203, 330];

function must(code, answer = 0) {
  if (code !== answer) throw new Error(`the answer was ${code}`);
}

/** 31 times the number (or 10 times), and of each player the number times the word, or 5 if the player has left. */
class Sum {
  constructor(times = 31, most = 1000003) {
    Object.assign(this, { times, most, state: 0, steps: 0 });
  }

  save() {
    return this.state;
  }

  load(state) {
    this.state = state;
  }

  step(words, gone) {
    let sum = this.times * this.state;
    words.forEach((word, at) => {
      sum += (gone >> at) & 1 ? 5 : (at + 1) * word;
    });
    this.state = sum % this.most;
    this.steps++;
  }

  digest(state) {
    return state;
  }
}

const wordOf = (me, frame) => Math.imul(Math.floor(frame / (5 + 2 * me)), 2654435761) >>> 28;

/** Ways on which one datagram in four is lost, and the others come one to four turns later. */
class Ways {
  constructor(count) {
    this.seed = 1;
    this.all = Array.from({ length: count }, () => []);
  }

  send(to, from, turn, bytes) {
    this.seed = (Math.imul(this.seed, 1664525) + 1013904223) >>> 0;
    if (this.seed >>> 30 === 0 || this.all[to].length === UNDER_WAY || bytes === null) return;
    this.all[to].push({ due: turn + 1 + ((this.seed >>> 16) % 4), from, bytes });
  }

  /** What is due, in the order in which the examples in C take it. */
  due(to, turn, isBackwards) {
    const way = this.all[to];
    const found = [];
    for (let at = isBackwards ? way.length - 1 : 0; at >= 0 && at < way.length; ) {
      if (way[at].due > turn) {
        at += isBackwards ? -1 : 1;
        continue;
      }
      found.push(way[at]);
      const last = way.pop();
      if (at < way.length) way[at] = last;
      if (isBackwards) at--;
    }
    return found;
  }
}

function open(library, me, draw) {
  const game = new Sum();
  const session = library.session({ players: 2, local: [me + 1], limit: FRAMES }, game);
  const peer = library.peer(session, { me, machines: 2, owners: [0, 1], number: 0x5eed5eed5eed5eedn, draw });
  return { me, game, session, peer, wait: 0, rerun: 0, alone: false, settled: { frame: 0, state: 0 } };
}

function takeTurn(machine, turn, ways) {
  const { me, session, peer } = machine;
  for (const { bytes } of ways.due(me, turn, false)) peer.receive(bytes, turn * TURN);
  must(peer.poll(turn * TURN));
  if (peer.isRunning) {
    const waits = machine.wait > 0;
    if (waits) machine.wait--;
    if (session.turn(waits ? null : [wordOf(me, session.frame)]) === 0) machine.rerun += session.reached.rerun;
  }
  machine.settled = session.settledState();
  must(peer.noteSettled());
  for (let event = peer.event(); event !== null; event = peer.event()) {
    if (event.code === TIME_SYNC) machine.wait = event.framesAhead;
    machine.alone ||= event.code === LEFT;
    if (event.code === DESYNC) throw new Error("another state");
  }
}

export function twoPeers(library) {
  const draw = 0x9e3779b97f4a7c15n;
  const ways = new Ways(2);
  const both = [open(library, 0, draw), open(library, 1, BigInt.asUintN(64, 2n * draw))];
  const printed = [];
  let turn = 0;
  for (; both.some((it) => it.settled.frame < FRAMES); turn++)
    for (const machine of both) {
      takeTurn(machine, turn, ways);
      ways.send(1 - machine.me, machine.me, turn, machine.peer.send(1 - machine.me, turn * TURN));
    }
  for (const { me, settled, rerun } of both)
    printed.push(`machine ${me}: settled ${settled.frame} state ${settled.state}${rerun > FRAMES ? ", after rollbacks" : ""}\n`);
  const bye = both[0].peer.bye(1);
  for (let time = 0; time < 3; time++) ways.send(1, 0, turn, bye);
  for (; !both[1].alone; turn++) takeTurn(both[1], turn, ways);
  printed.push("machine 1 is alone\n");
  for (const { peer, session } of both) {
    peer.close();
    session.close();
  }
  return printed.join("");
}

export function watch(library) {
  const VIEWER = 2;
  const ways = new Ways(3);
  let draws = 0n;
  const newDraw = () => (draws = BigInt.asUintN(64, draws + 0x9e3779b97f4a7c15n));
  const both = [open(library, 0, newDraw()), open(library, 1, newDraw())];
  const settings = () => ({ number: 0x1157e2n, draw: newDraw(), host: 0, machines: 2, owners: [0, 1], silentAfter: 5000 });
  const line = library.line(both[0].session, settings());
  const viewer = library.viewer(settings());
  const seen = new Sum();
  let rows = 0;
  for (let turn = 0, hasEnded = 0; hasEnded === 0; turn++) {
    const now = turn * TURN;
    for (const { me, session, peer } of both) {
      for (const { from, bytes } of ways.due(me, turn, true))
        if (from === VIEWER) line.receive(bytes, now);
        else peer.receive(bytes, now);
      must(peer.poll(now));
      if (peer.isRunning) session.turn([wordOf(me, session.frame)]);
      ways.send(1 - me, me, turn, peer.send(1 - me, now));
    }
    const told = line.send(now);
    if (told !== null) ways.send(VIEWER, 0, turn, told);
    for (const { bytes } of ways.due(VIEWER, turn, true)) viewer.receive(bytes, now);
    for (let row = viewer.row(); row !== null; row = viewer.row(), rows++) seen.step(row.words, row.gone);
    ways.send(0, VIEWER, turn, rows < FRAMES ? viewer.send(now) : viewer.bye());
    hasEnded = line.look(now).hasEnded;
  }
  viewer.close();
  line.close();
  for (const { peer, session } of both) {
    peer.close();
    session.close();
  }
  return `viewer: rows ${rows} state ${seen.state}\n`;
}

export function guess(library) {
  const play = (isGuessed) => {
    const printed = [];
    const game = new Sum(10, 1000000);
    const session = library.session({ players: 2, local: [1] }, game);
    must(session.limitSlots(64));
    must(session.turn([1]));
    must(session.turn([1]));
    const job = isGuessed ? session.guess(2, [3], 3) : null;
    must(session.turn([1])); // the game goes on meanwhile
    if (isGuessed) {
      job.run(new Sum(10, 1000000));
      must(session.graft(job));
      printed.push(`job ${job.number}: ${job.states.length} states\n`);
    }
    for (let frame = 0; frame < 3; frame++) must(session.remoteInput(2, frame, 3));
    game.steps = 0;
    must(session.synchronizeInput());
    printed.push(`${isGuessed ? "guessed" : "not guessed"}: ${game.steps} frames run again, state ${game.state}\n`);
    session.close();
    return printed.join("");
  };
  return play(false) + play(true);
}

/** A game whose states have to be given back once each. */
class Counted {
  constructor() {
    this.frame = 0;
  }

  save() {
    return { frame: this.frame, isFreed: false };
  }

  load(state) {
    if (state.isFreed) throw new Error("a state is loaded that was given back");
    this.frame = state.frame;
  }

  step() {
    this.frame++;
  }

  free(state) {
    if (state.isFreed) throw new Error("a state is given back twice");
    state.isFreed = true;
  }
}

/** Jobs that are of no use in the end: their states are given back. */
export function refused(library) {
  const session = library.session({ players: 2, local: [1] }, new Counted());
  for (let frame = 0; frame < 3; frame++) must(session.turn([1]));
  const [late, forgotten, idle] = [3, 4, 5].map((word) => session.guess(2, [word], 3));
  late.run(new Counted());
  forgotten.run(new Counted());
  for (let frame = 0; frame < 3; frame++) must(session.remoteInput(2, frame, 6));
  must(session.synchronizeInput());
  const code = session.graft(late);
  must(session.forget(forgotten));
  must(session.forget(idle));
  for (let frame = 0; frame < 8; frame++) session.turn([1]);
  session.close();
  const kept = [...late.states, ...forgotten.states].filter((state) => !state.isFreed).length;
  return `graft ${code}, ${late.states.length} and ${forgotten.states.length} states, ${kept} not given back\n`;
}

const pressedOf = (me, frame) => Math.floor((frame * (me + 3)) / 7) % 4;

/** Three machines that carry for each other, of which two don't hear each other from a turn on: nobody is gone. */
export function lines(library) {
  const frames = 200;
  const all = [0, 1, 2].map((me) => {
    const session = library.session({ players: 3, local: [me + 1] }, new Sum());
    const match = { me, machines: 3, owners: [0, 1, 2], number: 7n, draw: 70 + me, silentAfter: 500, carries: true };
    return { me, session, peer: library.peer(session, match), here: [], coming: [], gone: 0 };
  });
  const post = (from, to, turn, bytes) => {
    if (bytes !== null && (turn < 40 || from + to !== 1)) all[to].coming.push(bytes);
  };
  for (let turn = 0; turn < 600; turn++) {
    for (const it of all) [it.here, it.coming] = [it.coming, []];
    for (const { me, session, peer, here } of all) {
      for (const bytes of here) peer.receive(bytes, turn * TURN);
      must(peer.poll(turn * TURN));
      if (peer.isRunning) session.turn(session.frame < frames ? [pressedOf(me, session.frame)] : null);
      for (let event = peer.event(); event !== null; event = peer.event()) all[me].gone += GONE.includes(event.code);
      for (let to = 0; to < 3; to++) post(me, to, turn, peer.send(to, turn * TURN));
      for (let more = peer.sendMore(); more !== null; more = peer.sendMore()) post(me, more.machine, turn, more.bytes);
    }
  }
  const told = all.map(({ session, gone }) => `settled ${session.settled} state ${session.game.state}, ${gone} told of\n`);
  for (const { peer, session } of all) {
    peer.close();
    session.close();
  }
  return told.join("");
}

/** How many machines were in the epoch before, and are in this one. */
const stayed = (peer) => Array.from({ length: 256 }, (_, machine) => peer.hasStayed(machine)).filter(Boolean).length;

// Who may come, and the ticket of the name 3: hashlib of Python made it.
const COMERS = 0xfedcba9876543210n;
const TICKET = 0xa00ed4d700000003n;

/** The mark of a turn. That of turn 70 isn't put: its tag isn't that of its name. Nobody gets a player by the last one: none is free. */
function markIn(turn, me) {
  if (turn === 40 && me === 0) return {};
  if (turn === 70 && me === 0) return { comes: [2], ticket: TICKET - 1n };
  return turn === 100 && me === 1 ? { comes: [2], ticket: TICKET } : null;
}

function lasting(library, me) {
  const settings = { players: 2, local: [me + 1] };
  const match = { me, machines: 2, owners: [0, 1], number: 7n, comers: COMERS, draw: 70 + me };
  const session = library.session(settings, new Sum());
  const peer = library.peer(session, match, library.epoch(match, settings));
  const counts = { epochs: [peer.epoch()], stayed: [stayed(peer)], missing: 0 };
  return { me, session, peer, markIn, isWatched: true, here: [], coming: [], ...counts };
}

/** How many rows of the epoch before somebody isn't told, or wrongly, who begins to watch now. */
function missingOf(library, { me, session, peer, epochs }) {
  const settings = { number: 8n, host: me, machines: 2, owners: [0, 1] };
  const line = library.line(session, { ...settings, draw: 21 });
  const viewer = library.viewer({ ...settings, draw: 22 });
  let missing = Number(epochs[1].base);
  for (let now = 0, frame = 0; now < 20 * TURN; now += TURN) {
    viewer.receive(line.sendBefore(peer, now), now);
    for (let row = viewer.row(); row !== null; row = viewer.row(), frame++)
      missing -= row.words.every((word, player) => word === pressedOf(player, frame)) ? 1 : 0;
    line.receive(viewer.send(now), now);
  }
  line.close();
  viewer.close();
  return missing;
}

function goOn(library, it) {
  if (it.isWatched && it.session.hasNews) it.session.synchronizeInput(); // so that all rows are told of the epoch that may be over
  const code = it.peer.goOn();
  if (code === NOTHING) return;
  must(code);
  it.epochs.push(it.peer.epoch());
  it.stayed.push(stayed(it.peer));
  if (it.isWatched && it.epochs.length === 2) it.missing = missingOf(library, it);
}

function lastingTurn(library, it, turn, frames) {
  const { me, session, peer } = it;
  for (const bytes of it.here) peer.receive(bytes, turn * TURN);
  must(peer.poll(turn * TURN));
  goOn(library, it);
  const frame = Number(it.epochs.at(-1).base) + session.frame;
  const mark = it.markIn(turn, me);
  if (mark !== null) must(peer.mark(me + 1, mark), mark?.ticket === TICKET - 1n ? WRONG_TICKET : 0);
  if (peer.isRunning && session.turn(frame < frames ? [pressedOf(me, frame)] : null) === PENDING) throw new Error("requests are left");
  return [peer.send(1 - me, turn * TURN), peer.sendBefore(1 - me, turn * TURN)].filter((bytes) => bytes !== null);
}

/**
 * Two machines, each of which ends an epoch by a mark. Of the first one somebody is told who begins to watch after its end; a job that is
 * out then is given up.
 */
export function epochs(library) {
  const frames = 200;
  const tickets = [3, 0xffffffff].map((name) => library.ticket(COMERS, name));
  if (tickets[0] !== TICKET || tickets[1] !== 0x6994a5ddffffffffn) throw new Error(`the tickets are ${tickets}`);
  const both = [0, 1].map((me) => lasting(library, me));
  const line = library.line(both[0].session, { number: 8n, draw: 21, host: 0, machines: 2, owners: [0, 1] });
  if (line.sendBefore(both[0].peer, 0) !== null) throw new Error("there is no epoch before");
  let job = null;
  for (let turn = 0; turn < 600; turn++) {
    for (const it of both) [it.here, it.coming] = [it.coming, []];
    for (const it of both) both[1 - it.me].coming.push(...lastingTurn(library, it, turn, frames));
    if (turn === 38) job = both[0].session.guess(2, [77], both[0].session.frame + 2);
  }
  job.run(new Sum());
  must(both[0].session.graft(job), NO_JOB);
  if (line.sendBefore(both[0].peer, 0) !== null) throw new Error("all have come to this epoch");
  line.close();
  const told = both.map(({ session, epochs: seen, stayed: counts, missing }) => {
    const settled = Number(seen.at(-1).base) + session.settled;
    return `settled ${settled} state ${session.game.state}, stayed ${counts.join(" ")}, ${missing} rows are missing\n`;
  });
  for (const { peer, session } of both) {
    peer.close();
    session.close();
  }
  return told.join("");
}

/** Two machines, one of which ends epochs, hear each other so many turns late. No call of theirs stands between the poll and the seam. */
function seamsOver(library, marker, lag) {
  const marked = (turn, me) => (me === marker && [30, 70, 110, 150].includes(turn) ? undefined : null);
  const both = [0, 1].map((me) => ({ ...lasting(library, me), isWatched: false, markIn: marked }));
  const ways = both.map(() => Array.from({ length: lag }, () => []));
  for (let turn = 0; turn < 600; turn++)
    for (const it of both) {
      it.here = ways[it.me].shift();
      ways[1 - it.me].push(lastingTurn(library, it, turn, 200));
    }
  const [one, two] = both.map(({ epochs: seen }) => seen.map(({ id }) => id).join(" "));
  const told = both.map(({ session, epochs: seen }) => {
    const settled = Number(seen.at(-1).base) + session.settled;
    return `settled ${settled} state ${session.game.state}, ${one === two && seen.length > 4 ? "the same" : "other"} epochs\n`;
  });
  for (const { peer, session } of both) {
    peer.close();
    session.close();
  }
  return told.join("");
}

export function seams(library) {
  return seamsOver(library, 0, 1) + seamsOver(library, 1, 3) + seamsOver(library, 0, 5);
}

/** Nanoseconds of a turn of one of two machines, with a datagram that comes and one that goes: the least of some runs. */
export function turnsOf(library, turns = 60000, runs = 3) {
  let least = Infinity;
  let told = null;
  for (let run = 0; run < runs; run++) {
    const both = [0, 1].map((me) => {
      const game = new Sum(10, 1000000);
      const session = library.session({ players: 2, local: [me + 1] }, game);
      const peer = library.peer(session, { me, machines: 2, owners: [0, 1], number: 7n, draw: me + 1 });
      return { me, game, session, peer, bytes: null };
    });
    const from = performance.now();
    for (let turn = 0; turn < turns; turn++)
      for (const { me, session, peer, bytes } of both) {
        const now = turn * TURN;
        if (bytes !== null) peer.receive(bytes, now);
        peer.poll(now);
        if (peer.isRunning) session.turn([turn]);
        both[1 - me].bytes = peer.send(1 - me, now);
      }
    least = Math.min(least, ((performance.now() - from) * 1e6) / turns / 2);
    told = { frames: both[0].session.frame, states: both.map((it) => it.session.settledRow(turns - 100) !== null) };
    for (const { peer, session } of both) {
      peer.close();
      session.close();
    }
  }
  return { nanoseconds: Math.round(least), ...told };
}
