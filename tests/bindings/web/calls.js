// The examples, and what a turn costs, in this browser: posts what they print as `name`.
import { Fazgrond } from "/site/fazgrond/fazgrond.js";
import * as examples from "./examples.js";
import * as misuse from "./misuse.js";

const options = new URLSearchParams(location.search);
const name = options.get("name");

async function run() {
  const library = await Fazgrond.load();
  const { turnsOf, ...all } = { ...examples, ...misuse };
  const printed = Object.fromEntries(Object.entries(all).map(([one, run]) => [one, run(library)]));
  const turns = Number(options.get("turns") ?? 0);
  return { printed, cost: turns > 0 ? turnsOf(library, turns) : null, memory: library.memory.buffer.byteLength };
}

run()
  .catch((why) => ({ lacks: String(why.message ?? why) }))
  .then((found) => fetch(`/result/${name}`, { method: "POST", body: JSON.stringify({ browser: navigator.userAgent, ...found }) }));
