// The program of docs/WEB.md in two frames: keys are held in each, and what both come to is posted.
const name = new URLSearchParams(location.search).get("name");
const windows = ["zero", "one"].map((id) => document.getElementById(id).contentWindow);
const pause = (time) => new Promise((resolve) => setTimeout(resolve, time));

const press = (window, kind, code) => window.dispatchEvent(new window.KeyboardEvent(kind, { code }));

async function run() {
  while (!windows.every((it) => it.match?.peer.isRunning)) await pause(50);
  press(windows[0], "keydown", "ArrowRight");
  press(windows[1], "keydown", "ArrowUp");
  await pause(500);
  press(windows[0], "keyup", "ArrowRight");
  press(windows[1], "keydown", "ArrowLeft");
  while (!windows.every((it) => it.match.session.settled >= 120)) await pause(50);
  return windows.map(({ match: { session } }) => {
    const { frame, state } = session.settledState();
    const rows = Array.from({ length: frame }, (_, at) => Array.from(session.settledRow(at).words));
    return { frame, state, rows };
  });
}

run()
  .catch((why) => ({ lacks: String(why.message ?? why) }))
  .then((found) => fetch(`/result/${name}`, { method: "POST", body: JSON.stringify(found) }));
