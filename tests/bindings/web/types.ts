// A game in TypeScript, as the compiler has to take it; and what it has to refuse.
import { Answer, Code, Fazgrond, Refusal, raw, syncTest } from "fazgrond";
import type { Game, Job, Row, Session } from "fazgrond";
import { Lobby, Why } from "fazgrond/lobby.js";
import type { LobbyEvent } from "fazgrond/lobby.js";
import { Watched } from "fazgrond/watch.js";
import type { WatchedGame } from "fazgrond/watch.js";

class Places implements Game<Int32Array> {
  places = new Int32Array(4);

  save(): Int32Array {
    return this.places.slice();
  }

  load(state: Int32Array): void {
    this.places.set(state);
  }

  step(words: Uint32Array, gone: number): void {
    words.forEach((word, player) => {
      if (((gone >> player) & 1) === 0) this.places[player] += word;
    });
  }

  digest(state: Int32Array): bigint {
    return BigInt.asUintN(64, BigInt(state[0]));
  }
}

export async function play(channel: RTCDataChannel, me: 0 | 1): Promise<number> {
  const library: Fazgrond = await Fazgrond.load();
  const session: Session<Int32Array> = library.session({ players: 2, local: [me + 1], delays: [1, 0] }, new Places());
  const peer = library.peer(session, { me, machines: 2, owners: [0, 1], number: 7n });
  const code: number = session.turn([1]);
  if (code !== Answer.OK) throw new Refusal(code, library.text(code));
  for (let event = peer.event(); event !== null; event = peer.event())
    if (event.code === Code.TIME_SYNC) console.log(event.framesAhead + 1);
  const bytes: Uint8Array | null = peer.send(1 - me, 16);
  if (bytes !== null) channel.send(bytes);
  channel.onmessage = ({ data }: { data: ArrayBuffer }) => peer.receive(data, 16);
  const frame: number | null = syncTest(new Places(), [[1, 2], new Uint32Array(2)], 4);
  if (frame !== null) throw new Error(`frame ${frame} comes out another`);
  const more: { machine: number; bytes: Uint8Array } | null = library.peer(session, {
    me, machines: 3, owners: [0, 1, 2], number: 7n, carries: true,
  }).sendMore();
  if (more !== null && more.machine === 1 - me) channel.send(more.bytes);
  const lasting = library.peer(session, { me, machines: 2, owners: [0, 1], number: 7n, comers: 5n }, peer.epoch() ?? undefined);
  if (lasting.mark(me + 1, { threshold: 8, comes: [2], ticket: library.ticket(5n, 3) }) === Answer.OK && lasting.goOn() === Answer.OK)
    console.log(
      lasting.sendBefore(1 - me, 16),
      library.epochHas(library.epoch({ me, machines: 2, owners: [0, 1], number: 7n }, { players: 2, local: [1] }), me),
    );
  const line = library.line(session, { number: 8n, host: me, machines: 2, owners: [0, 1] });
  const last: Uint8Array | null = lasting.hasStayed(1 - me) === true ? line.sendBefore(lasting, 16) : null;
  if (last !== null) channel.send(last);
  const job: Job<Int32Array> | null = session.guess(2, [3], 3);
  job?.run(new Places());
  const row: Row | null = session.settledRow(0);
  const trip: number | undefined = peer.stats(1 - me)?.roundTrip;
  return (row?.words[0] ?? 0) + (trip ?? 0) + raw.DATAGRAM;
}

export function look(library: Fazgrond, game: WatchedGame): boolean {
  const watched = new Watched(library, { url: "wss://watch.example:4280", user: "viewer", password: "viewer", match: "cup", game });
  watched.turn();
  return watched.hasEnded;
}

export function met(code: string | null): Lobby {
  const how = {
    broker: "wss://broker.example:4224", digest: 7n, name: "Anna", isShort: true,
    told: (event: LobbyEvent) => {
      if (event.what === "asks" && event.who !== undefined) lobby.letIn(event.who, true);
      if (event.what === "ended" && event.why === Why.WRONG_CODE) console.log(event.text);
      if (event.what === "ready") lobby.match?.channels[1 - lobby.match.me]?.close();
    },
  };
  const lobby = code === null ? Lobby.host(how) : Lobby.join(code, how);
  // @ts-expect-error: a broker has to be named
  if (code === "") Lobby.host({ digest: 7n });
  return lobby;
}

export function refused(library: Fazgrond, session: Session<Int32Array>): void {
  // @ts-expect-error: a game has to save its state
  library.session({ players: 2 }, { load() {}, step() {} });
  // @ts-expect-error: it has to be said how many players there are
  library.session({ local: [1] }, new Places());
  // @ts-expect-error: a match's number has 64 bits
  library.peer(session, { me: 0, machines: 2, owners: [0, 1], number: 7 });
  // @ts-expect-error: words are numbers
  session.turn(["left"]);
  // @ts-expect-error: there may be no row
  console.log(session.settledRow(0).words);
}
