// Two browsers meet: one makes an invitation, the other an answer to it, and each is a text that people send each other by whatever
// they have. Then there is a data channel between them, which keeps no order and sends nothing again.

const MARK = "fazgrond-duel:";
const GATHERING = 4000; // milliseconds for servers to tell this machine's addresses

/** What a text of servers says, one in a line: `stun:HOST:PORT`, or `turn:HOST:PORT USER PASSWORD`. */
export function serversOf(text) {
  return text
    .split("\n")
    .map((line) => line.trim())
    .filter((line) => line !== "")
    .map((line) => {
      const [urls, username, credential] = line.split(/\s+/);
      if (!/^(stun|turn)s?:/.test(urls)) throw new Error(`"${line}" is no server: stun:HOST:PORT, or turn:HOST:PORT USER PASSWORD`);
      if (urls.startsWith("turn") && credential === undefined) throw new Error(`"${line}" lacks a user and a password`);
      return username === undefined ? { urls } : { urls, username, credential };
    });
}

/** A text to be sent: what the other needs. */
export function written(said) {
  return MARK + btoa(JSON.stringify(said));
}

/** What such a text says; it throws if it is none, or not of this kind. */
export function read(text, kind) {
  const plain = text.trim().replace(/\s+/g, "");
  let said = null;
  try {
    if (plain.startsWith(MARK)) said = JSON.parse(atob(plain.slice(MARK.length)));
  } catch {
    // (it was cut off, or changed on its way)
  }
  if (said === null || typeof said.sdp !== "string") throw new Error("this is no invitation and no answer: copy all of it");
  if (said.kind !== kind) throw new Error(`this is an ${said.kind}, and an ${kind} was expected`);
  return said;
}

/** Waits until the addresses of this machine are known, or as many as came in time. */
function gathered(connection) {
  return new Promise((resolve) => {
    const timer = setTimeout(resolve, GATHERING);
    const look = () => {
      if (connection.iceGatheringState !== "complete") return;
      clearTimeout(timer);
      resolve();
    };
    connection.addEventListener("icegatheringstatechange", look);
    look();
  });
}

/** 63 random bits, as a decimal number: out/duel takes it too. */
function newNumber() {
  const bits = new BigUint64Array(1);
  do crypto.getRandomValues(bits);
  while (bits[0] >> 1n === 0n);
  return String(bits[0] >> 1n);
}

/** A connection to another browser. */
export class Meeting {
  constructor(servers = []) {
    this.connection = new RTCPeerConnection({ iceServers: servers });
    this.number = null;
    /** Comes once the channel is open; it fails if no way to the other is found. */
    this.channel = new Promise((resolve, reject) => {
      this.opened = (channel) => {
        channel.binaryType = "arraybuffer";
        channel.onopen = () => resolve(channel);
        if (channel.readyState === "open") resolve(channel);
      };
      this.connection.onconnectionstatechange = () => {
        if (this.connection.connectionState === "failed")
          reject(new Error("no way was found to the other: beyond one network it takes a STUN server, and often a TURN server"));
      };
    });
    this.channel.catch(() => {}); // (whoever waits for it is told)
  }

  /** The invitation. */
  async invite() {
    this.number = newNumber();
    this.opened(this.connection.createDataChannel("duel", { ordered: false, maxRetransmits: 0 }));
    await this.connection.setLocalDescription(await this.connection.createOffer());
    return this.told("invitation");
  }

  /** The answer to an invitation. */
  async answer(text) {
    const said = read(text, "invitation");
    this.number = said.number;
    this.connection.ondatachannel = ({ channel }) => this.opened(channel);
    await this.connection.setRemoteDescription({ type: "offer", sdp: said.sdp });
    await this.connection.setLocalDescription(await this.connection.createAnswer());
    return this.told("answer");
  }

  /** The answer has come. */
  async finish(text) {
    const said = read(text, "answer");
    if (said.number !== this.number) throw new Error("this answer is to another invitation");
    await this.connection.setRemoteDescription({ type: "answer", sdp: said.sdp });
  }

  async told(kind) {
    await gathered(this.connection);
    return written({ kind, number: this.number, sdp: this.connection.localDescription.sdp });
  }

  close() {
    this.connection.close();
  }
}
