// A machine that meets another one by a code, for tests: `?name=..&broker=ws://..` hosts, and leaves its code in the server's mailbox as
// NAME-code; with `&join=CODE` it joins. Then it plays `frames`, or sends 60 datagrams if there are none, and posts what came of it as
// its `name`. A player may look at the page for a while before that: `after` milliseconds.
import { Line } from "/site/fazgrond/line.js";
import { Lobby } from "/site/fazgrond/lobby.js";

const BEGAN = performance.now();
const COUNT = 60;
const options = new URLSearchParams(location.search);
const number = (name) => Number(options.get(name) ?? 0);
const name = options.get("name");
const post = (path, text) => fetch(path, { method: "POST", body: text });
const events = [];
const lines = new Set();
const { put } = Line.prototype;
Line.prototype.put = function (item) {
  lines.add(this);
  put.call(this, item);
};

/** What `lobby.js` takes. */
function settings(told) {
  return {
    broker: options.get("broker"), name: options.get("player") ?? name, digest: BigInt(options.get("digest") ?? "0x6475656c00000001"),
    isShort: options.has("short"), hasDoor: options.has("door"), relayOnly: options.has("relay"), players: number("players") || 2, told,
  };
}

function opened(told) {
  return options.has("join") ? Lobby.join(options.get("join"), settings(told)) : Lobby.host(settings(told));
}

/** Comes with the lobby once its match is ready; it fails once that won't come. */
function met() {
  return new Promise((resolve, reject) => {
    const lobby = opened((event) => {
      events.push({ ...event, at: Math.round(performance.now() - BEGAN) });
      if (event.what === "code") post(`/mail/${name}-code-${events.filter((it) => it.what === "code").length}`, event.text);
      if (event.what === "asks" && event.who !== undefined) lobby.letIn(event.who, options.get("asks") !== "no");
      if (event.what === "refused") reject(new Error(event.text));
      if (event.what === "ended") reject(new Error(event.text));
      if (event.what === "ready") resolve(lobby);
    });
  });
}

/** Sends datagrams to all others, and counts what comes of each. Who has all goes on for a moment, since others may lack some. */
async function talk({ me, channels }) {
  const came = channels.map(() => 0);
  channels.forEach((channel, machine) => {
    if (channel === null) return;
    channel.onmessage = ({ data }) => {
      if (new Uint8Array(data)[0] === machine) came[machine]++;
    };
  });
  const lacks = () => channels.some((channel, machine) => channel !== null && came[machine] < COUNT);
  for (let after = 0; after < COUNT; after += lacks() ? 0 : 1) {
    for (const channel of channels) if (channel?.readyState === "open") channel.send(Uint8Array.of(me, 1, 2, 3));
    await new Promise((resolve) => setTimeout(resolve, 16));
  }
  return { came };
}

async function play({ me, number: matchNumber, channels }) {
  const [{ Fazgrond }, { Match, eachTurn }, { Bot }] = await Promise.all(
    ["fazgrond/fazgrond.js", "match.js", "rules.js"].map((it) => import(`/site/${it}`)));
  const library = await Fazgrond.load();
  const bot = new Bot(number("bot"), me + 1);
  const match = new Match(library, {
    number: matchNumber, me, channel: channels[1 - me], word: () => bot.word, taken: () => bot.draw(), delay: number("delay"),
    frames: number("frames"), lag: number("lag"), loss: number("loss"), timeout: 60000,
  });
  return new Promise((resolve) => {
    const stop = eachTurn((now) => {
      match.turn(now);
      if (!match.isDone && !match.isOver && !match.isAlone) return;
      stop();
      resolve({ frame: match.session.frame, state: match.game.atLast, again: match.again });
      match.close();
    }, number("speed") || 1);
  });
}

async function run() {
  await new Promise((resolve) => setTimeout(resolve, number("after")));
  const lobby = await met();
  const { me, machines, names } = lobby.match;
  const channel = lobby.match.channels[me === 0 ? 1 : 0];
  const kind = { ordered: channel.ordered, again: channel.maxRetransmits };
  const came = number("frames") > 0 ? await play(lobby.match) : await talk(lobby.match);
  setTimeout(() => lobby.close(), 500);
  const told = JSON.stringify([...lines].map(({ items }) => items));
  return { me, machines, names, kind, told, number: String(lobby.match.number), ...came };
}

run()
  .catch((why) => ({ lacks: String(why.message ?? why) }))
  .then((found) => post(`/result/${name}`, JSON.stringify({ ...found, events })));
