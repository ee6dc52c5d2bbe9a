// The page: two players meet by a code, or by texts that they send each other, and play; or a match is watched.
//
// Behind the address, for trials: `?bot=5` flies the ship, `frames=1800` ends the match there and shows the state, `delay=2`,
// `lag=50`, `loss=10`, `timeout=5000` and `speed=4` are as those of out/duel. `?broker=URL&host` hosts at once, and
// `?broker=URL&join=CODE` joins; `name=Anna`, `long` and `relay` are what the fields say.
import { Code, Fazgrond, raw } from "./fazgrond/fazgrond.js";
import { Lobby, Why } from "./fazgrond/lobby.js";
import { Match, eachTurn } from "./match.js";
import { Meeting, serversOf } from "./meet.js";
import { Bot, FIRE, LEFT, RIGHT, THRUST, WatchedDuel, opening, text } from "./rules.js";
import { Watched } from "./fazgrond/watch.js";
import { draw } from "./draw.js";

const DIGEST = 0x6475656c00000001n; // that of programs/duel/online.c: keeps other games out, and other rules
const KEYS = { ArrowUp: THRUST, ArrowLeft: LEFT, ArrowRight: RIGHT, Space: FIRE };
const at = (id) => document.getElementById(id);
const options = new URLSearchParams(location.search);
const number = (name, otherwise) => Number(options.get(name) ?? otherwise);

let library = null;
let stop = null; // ends the turns
let match = null;
let meeting = null;
let held = 0;

function tell(words) {
  at("told").textContent = words;
}

/** Runs what a button asks for, and tells what goes wrong. */
function on(id, act) {
  at(id).addEventListener("click", async () => {
    try {
      await act();
    } catch (why) {
      tell(why.message);
    }
  });
}

function show(id, is) {
  at(id).hidden = !is;
}

// ---- Keys, and buttons for screens without them.

addEventListener("keydown", (event) => {
  const bit = KEYS[event.code];
  if (bit === undefined || match === null) return;
  held |= bit;
  event.preventDefault();
});
addEventListener("keyup", (event) => {
  held &= ~(KEYS[event.code] ?? 0);
});
// A key that is let go elsewhere isn't told.
addEventListener("blur", () => {
  held = 0;
});
for (const button of document.querySelectorAll("#held button")) {
  const bit = Number(button.dataset.word);
  button.addEventListener("pointerdown", () => {
    held |= bit;
  });
  for (const name of ["pointerup", "pointerleave", "pointercancel"])
    button.addEventListener(name, () => {
      held &= ~bit;
    });
}

// ---- A match.

function wordOf(me) {
  const seed = number("bot", 0);
  if (seed === 0) return { word: () => held, taken: () => {} };
  const bot = new Bot(seed, me + 1);
  return { word: () => bot.word, taken: () => bot.draw() };
}

/** What is to be done for another match: of who met by texts, and by a code. */
function another() {
  return meeting?.isByCode
    ? "for another match host again, or ask the other one for a new code"
    : "for another match make a new invitation";
}

let counted = null; // what is told with the seconds that are left

/** Tells a moment, by the turns' clock, to which seconds count down. */
function countDown(words, until) {
  counted = { words, until, seconds: Infinity };
}

function tellSeconds(now) {
  const seconds = counted === null ? 0 : Math.ceil((counted.until - now) / 1000);
  if (seconds <= 0 || seconds >= counted.seconds) return;
  counted.seconds = seconds;
  tell(`${counted.words} ${seconds} s`);
}

const SAYINGS = {
  [Code.SYNCHRONIZING]: () => "the other one is heard",
  [Code.SYNCHRONIZED]: () => "both hear each other",
  [Code.RUNNING]: () => "the match begins",
  [Code.RESUMED]: () => "the other one is back",
  [Code.LEFT]: () => `the other one has left: ${another()}`,
  [Code.MISSING]: () => `the other one doesn't begin the match: ${another()}`,
  [Code.DROPPED]: () => `the other one regards you as gone: ${another()}`,
  [Code.DESYNC]: (it) => `the two machines don't have the same state at frame ${it.frame}: the match is over`,
  [Code.MISMATCH]: () => "the other one plays another game: the match is over",
};

function hear(event, now) {
  if (SAYINGS[event.code] !== undefined) {
    counted = null;
    tell(SAYINGS[event.code](event));
  }
  if (event.code === Code.INTERRUPTED) countDown("nothing comes of the other one, who is gone in", now + event.disconnectIn);
}

function begin(me, channel) {
  const { word, taken } = wordOf(me);
  let now = 0;
  match = new Match(library, {
    number: BigInt(meeting.number), me, channel, word, taken, delay: number("delay", 1), frames: number("frames", 0),
    lag: number("lag", 0), loss: number("loss", 0), timeout: number("timeout", raw.SILENT_AFTER),
    told: (event) => hear(event, now),
  });
  show("meet", false);
  show("match", true);
  show("held", matchMedia("(pointer: coarse)").matches);
  stop = eachTurn((moment) => {
    now = moment;
    match.turn(now);
    tellSeconds(now);
    if (match.isDone) end(`frame ${match.frames} state ${match.game.atLast}`);
    else if (match.isOver || match.isAlone) end(null);
  }, number("speed", 1));
  frame();
}

function linesOf({ session, peer, other, again }) {
  const stats = peer.stats(other);
  const ping = stats !== null && stats.isMeasured ? `${stats.roundTrip} ms to the other one` : "";
  return [ping, `frame ${session.frame}, ${again} of them played again`];
}

function frame() {
  if (match === null) return;
  draw(at("canvas"), match.game.field, match.me + 1, linesOf(match));
  requestAnimationFrame(frame);
}

/** The match is over. What is under way gets a moment to arrive. */
function end(result) {
  stop();
  counted = null;
  const ended = { match, meeting };
  match = null;
  ended.match.close();
  setTimeout(() => ended.meeting.close(), 500);
  meeting = null;
  if (result !== null) {
    at("result").textContent = result;
    show("result", true);
  }
  show("match", false);
  show("held", false);
  openMeet();
}

on("leave", () => {
  tell("you have left the match");
  end(null);
});

// A page that is closed or loaded anew says so, if it still can. It can't come back into the match, and says what can be done.
addEventListener("pagehide", () => {
  if (match !== null) sessionStorage.setItem("left", `this page was loaded anew, and has left its match: ${another()}`);
  match?.close();
  meeting?.close();
});

// ---- Meeting.

function openMeet() {
  for (const id of ["invitation", "their-answer", "their-invitation", "answer", "their-code"]) at(id).value = "";
  for (const id of ["invited", "accepted", "hosted", "asks"]) show(id, false);
  asking = [];
  show("meet", true);
}

function newMeeting() {
  meeting?.close();
  localStorage.setItem("servers", at("servers").value);
  meeting = new Meeting(serversOf(at("servers").value));
  return meeting;
}

/** Begins the match once there is a way to the other one. */
async function awaitChannel(me, mine) {
  try {
    const channel = await mine.channel;
    if (meeting === mine && match === null) begin(me, channel);
  } catch (why) {
    if (meeting === mine) tell(why.message);
  }
}

on("invite", async () => {
  tell("looking for this machine's addresses ..");
  const mine = newMeeting();
  at("invitation").value = await mine.invite();
  show("invited", true);
  tell("send the invitation, and paste the answer");
  awaitChannel(0, mine);
});

on("begin", async () => {
  await meeting.finish(at("their-answer").value);
  tell("looking for a way to the other one ..");
});

on("accept", async () => {
  const mine = newMeeting();
  at("answer").value = await mine.answer(at("their-invitation").value);
  show("accepted", true);
  tell("send the answer back; the match begins when it is pasted there");
  awaitChannel(1, mine);
});

for (const id of ["invitation", "answer"]) on(`copy-${id}`, () => navigator.clipboard.writeText(at(id).value));

// ---- Meeting by a code.

let asking = []; // who wait for an answer of this player's, who is asked of one after another

function showAsking() {
  at("asking").textContent = asking[0]?.text ?? "";
  show("asks", asking.length > 0);
}

function answerFirst(yes) {
  const { lobby, who } = asking.shift();
  lobby.letIn(who, yes);
  showAsking();
}

/** What a lobby tells, in words; what needs none isn't there. */
const LOBBY_SAYINGS = {
  code: ({ why }) => (why === Why.WRONG_CODE ? "wrong codes were tried, so the code is another one" : "waiting for the other player"),
  away: ({ text }) => `waiting: ${text}`,
  unanswered: ({ text }) => text,
  asks: ({ name, text, who }) => (who === undefined ? `${name} is asked; both see ${text}` : `${name} wants to join`),
  joined: ({ name, text }) => `with ${name}: both see ${text}`,
  left: ({ name }) => `${name} has left`,
  refused: ({ text }) => text,
  full: () => "looking for a way to the other one ..",
  blocked: () => "no way to the other one was found so far",
  up: ({ text }) => `the line is up, ${text}`,
  ended: ({ text }) => text,
};

function reactToLobby(event, lobby) {
  if (LOBBY_SAYINGS[event.what] !== undefined) tell(LOBBY_SAYINGS[event.what](event));
  if (event.what === "code") {
    at("code").textContent = event.text;
    show("hosted", true);
  }
  if (event.who !== undefined) {
    asking = asking.filter(({ who }) => who !== event.who);
    if (event.what === "asks") asking.push({ lobby, who: event.who, text: `${event.name} wants to join, and sees ${event.text}.` });
    showAsking();
  }
  if (event.what === "ended") {
    lobby.close();
    openMeet();
  }
  if (event.what !== "ready") return;
  const { me, number: matchNumber, channels } = lobby.match;
  meeting.number = matchNumber;
  begin(me, channels[1 - me]);
}

/** What the fields say. */
function lobbySettings() {
  for (const id of ["meet-broker", "player", "servers"]) localStorage.setItem(id, at(id).value);
  const servers = serversOf(at("servers").value);
  return {
    broker: at("meet-broker").value.trim(), name: at("player").value, digest: DIGEST, hasDoor: true,
    isShort: !at("long-code").checked, servers: servers.length > 0 ? servers : null, relayOnly: at("relay-only").checked,
  };
}

function openLobby(open) {
  meeting?.close();
  openMeet();
  let lobby = null;
  const mine = { isByCode: true, close: () => lobby?.close() };
  lobby = open({ ...lobbySettings(), told: (event) => meeting === mine && match === null && reactToLobby(event, lobby) });
  meeting = mine;
  tell("looking for the broker ..");
}

function host() {
  openLobby((settings) => Lobby.host(settings));
}

function join() {
  const code = at("their-code").value;
  openLobby((settings) => Lobby.join(code, settings));
}

on("host", host);
on("join", join);
on("let-in", () => answerFirst(true));
on("say-no", () => answerFirst(false));
on("copy-code", () => navigator.clipboard.writeText(at("code").textContent));

/** What the address says. */
function openByAddress(hasLeft) {
  for (const [name, id] of [["broker", "meet-broker"], ["name", "player"], ["join", "their-code"]])
    if (options.has(name)) at(id).value = options.get(name);
  at("long-code").checked = options.has("long");
  at("relay-only").checked = options.has("relay");
  if (options.has("host")) host();
  if (options.has("join") && !hasLeft) join(); // (a code is good for one match)
}

// ---- Watching.

on("watch", () => {
  const game = new WatchedDuel();
  const watched = new Watched(library, {
    url: at("broker").value, user: at("user").value, password: at("password").value, match: at("name").value, game,
  });
  show("meet", false);
  const stopTurns = eachTurn(() => watched.turn());
  const look = () => {
    if (watched.isShown) draw(at("canvas"), game.field, 0, [`frame ${watched.frame}, ${watched.known - watched.frame} behind`]);
    const isSame = watched.desync === null;
    tell(watched.why ?? (isSame ? "you watch the match" : `the players have other states from frame ${watched.desync} on`));
    if (!watched.hasEnded) {
      requestAnimationFrame(look);
      return;
    }
    tell(`the match has ended: ${watched.end.reason}`);
    stopTurns();
    watched.close();
    at("result").textContent = `frame ${watched.frame} state ${text(game.field)}`;
    show("result", true);
    openMeet();
  };
  look();
});

// ---- The begin.

for (const id of ["meet-broker", "player", "servers"]) at(id).value = localStorage.getItem(id) ?? "";
draw(at("canvas"), opening(2), 0, []);
try {
  library = await Fazgrond.load();
  const left = sessionStorage.getItem("left");
  sessionStorage.removeItem("left");
  tell(left ?? `library ${library.version}`);
  openMeet();
  openByAddress(left !== null);
} catch (why) {
  tell(why.message);
}
