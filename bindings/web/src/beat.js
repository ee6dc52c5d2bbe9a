// A worker that tells a lobby to look around: a page's own timers stand nearly still while it is hidden, as behind a messenger.
setInterval(() => postMessage(0), 100);
