// A machine of a match, for tests: it meets the other one by the server's mailbox, plays as its address says, and posts what came of it
// as its `name`.
import { Fazgrond } from "/site/fazgrond/fazgrond.js";
import { Match, eachTurn } from "/site/match.js";
import { Meeting } from "/site/meet.js";
import { Bot } from "/site/rules.js";

const options = new URLSearchParams(location.search);
const number = (name) => Number(options.get(name) ?? 0);
const [name, room, me] = [options.get("name"), options.get("room"), number("me")];

const post = (path, text) => fetch(path, { method: "POST", body: text });

async function mail(path) {
  for (;;) {
    const answer = await fetch(`/mail/${path}`);
    if (answer.ok) return answer.text();
  }
}

async function met(meeting) {
  if (me === 0) {
    await post(`/mail/${room}-invitation`, await meeting.invite());
    await meeting.finish(await mail(`${room}-answer`));
  } else await post(`/mail/${room}-answer`, await meeting.answer(await mail(`${room}-invitation`)));
  return meeting.channel;
}

function told(match, events, hiddenFor) {
  return {
    name, frame: match.session.frame, state: match.game.atLast, again: match.again, events, hiddenFor,
    isAlone: match.isAlone, isOver: match.isOver, lacks: null,
  };
}

async function run() {
  const library = await Fazgrond.load();
  const meeting = new Meeting();
  const channel = await met(meeting);
  const bot = new Bot(number("bot"), me + 1);
  const events = [];
  const match = new Match(library, {
    number: BigInt(meeting.number), me, channel, word: () => bot.word, taken: () => bot.draw(), delay: number("delay"),
    frames: number("frames"), lag: number("lag"), loss: number("loss"), timeout: number("timeout") || 5000,
    told: (event) => events.push(event.code),
  });
  let hiddenTurns = 0;
  let announced = false;
  const stop = eachTurn((now) => {
    match.turn(now);
    if (document.visibilityState === "hidden") hiddenTurns++;
    if (!announced && match.session.frame >= 60) {
      announced = true;
      post(`/mail/${name}-begun`, "begun");
    }
    if (!match.isDone && !match.isOver && !match.isAlone) return;
    const result = told(match, events, hiddenTurns);
    stop();
    match.close();
    post(`/result/${name}`, JSON.stringify(result)).then(() => setTimeout(() => meeting.close(), 300));
  }, number("speed") || 1);
  addEventListener("pagehide", () => match.close());
}

run().catch((why) => post(`/result/${name}`, JSON.stringify({ name, lacks: String(why.message ?? why) })));
