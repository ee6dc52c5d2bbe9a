// A worker that tells the page a turn's beginning.
setInterval(() => postMessage(0), 1000 / 120);
