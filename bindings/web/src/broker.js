// A broker (NATS) through its WebSocket door: a connection, and what a viewer of matches needs of it (JetStream).
import { drawn, hex, joined, textBytes } from "./bytes.js";

const WAIT = 2000;
const AGAIN = 500;
const MOST_UNANSWERED = 3;
const MOST_READ = 1 << 21; // bytes of one message that hasn't come whole; a broker takes 2^20 if nobody asks for more

/** A connection, which is made anew as often as it breaks. What is said while it isn't there is lost. */
export class Connection {
  /** `heard` is given each message: its subject, where it may be answered, its status if that is all of it, its head and its body;
   * and `there` is called once there is a connection. `shows` makes what a broker with an operator is shown, of its nonce. */
  constructor({ url, user, password, shows = null, heard, there = () => {} }) {
    Object.assign(this, { url, user, password, shows, heard, there });
    this.subjects = new Map(); // by their numbers
    this.subscribed = 0;
    this.isClosed = false;
    /** Why there is no connection, in words; null if there is one. */
    this.why = "no broker is there yet";
    this.connect();
  }

  connect() {
    if (this.isClosed) return;
    const socket = new WebSocket(this.url);
    socket.binaryType = "arraybuffer";
    this.read = new Uint8Array(0);
    this.socket = socket;
    this.unanswered = 0; // PINGs
    this.isMet = this.isGreeted = false;
    socket.onmessage = ({ data }) => this.take(socket, new Uint8Array(data));
    socket.onclose = () => this.renew(socket);
  }

  renew(socket) {
    if (socket !== this.socket) return;
    this.socket = null;
    if (this.why === null) this.why = "the broker is gone";
    setTimeout(() => this.connect(), AGAIN);
  }

  /** Looks whether the broker is still there, since nobody tells if a network is gone: to be called every few seconds. */
  look() {
    if (this.unanswered++ < MOST_UNANSWERED) {
      if (this.isGreeted) this.say("PING\r\n"); // (a greeting is the first that a broker is told)
      return;
    }
    const { socket } = this;
    socket?.close();
    this.renew(socket);
  }

  close() {
    this.isClosed = true;
    const { socket } = this;
    this.socket = null;
    socket?.close();
  }

  say(text, body = new Uint8Array(0), end = "") {
    if (this.socket?.readyState === WebSocket.OPEN) this.socket.send(joined(textBytes(text), body, textBytes(end)));
  }

  /** Says something; who hears it may answer at `reply`, if that isn't null. */
  publish(subject, reply, body) {
    this.say(`PUB ${subject} ${reply === null ? "" : `${reply} `}${body.length}\r\n`, body, "\r\n");
  }

  /** Hears a subject from now on. The number that comes back is for `leave`. */
  hear(subject) {
    this.subjects.set(++this.subscribed, subject);
    if (this.isGreeted) this.say(`SUB ${subject} ${this.subscribed}\r\n`);
    return this.subscribed;
  }

  leave(number) {
    if (this.subjects.delete(number) && this.isGreeted) this.say(`UNSUB ${number}\r\n`);
  }

  take(socket, bytes) {
    if (socket !== this.socket) return;
    const all = new Uint8Array(this.read.length + bytes.length);
    all.set(this.read);
    all.set(bytes, this.read.length);
    let at = 0;
    for (let used = this.line(socket, all, at); used > 0; used = this.line(socket, all, at)) at += used;
    this.read = all.slice(at);
    if (this.read.length <= MOST_READ) return;
    this.why = "the broker says too much at once";
    socket.close();
    this.renew(socket);
  }

  refusal(text) {
    const isPass = this.shows !== null && text.includes("Authorization Violation");
    return isPass ? "the broker doesn't take this pass" : `the broker says: ${text}`;
  }

  /** Takes a line, and what belongs to it. How many bytes those are; 0 if not all of them have come. */
  line(socket, all, from) {
    const end = all.indexOf(10, from);
    if (end < 0) return 0;
    const [kind, ...words] = new TextDecoder().decode(all.subarray(from, end - 1)).split(" ");
    const length = end + 1 - from;
    if (kind === "PING") this.say("PONG\r\n");
    if (kind === "INFO" && !this.isMet) this.meet(socket, words.join(" "));
    if (kind === "PONG") this.answered();
    if (kind === "-ERR") this.why = this.refusal(words.join(" "));
    if (kind !== "MSG" && kind !== "HMSG") return length;
    const size = Number(words.at(-1));
    const front = kind === "HMSG" ? Number(words.at(-2)) : 0;
    if (all.length < end + 1 + size + 2) return 0;
    const body = all.slice(end + 1, end + 1 + size);
    const head = new TextDecoder().decode(body.subarray(0, front));
    const hasReply = words.length === (kind === "HMSG" ? 5 : 4);
    this.heard({ subject: words[0], reply: hasReply ? words[2] : null, head, body: body.subarray(front) });
    return length + size + 2;
  }

  answered() {
    const isNew = this.why !== null;
    Object.assign(this, { why: null, unanswered: 0 });
    if (isNew) this.there();
  }

  /** A broker has said who it is. */
  meet(socket, info) {
    this.isMet = true;
    this.greet(socket, info).catch((why) => (this.why = `nothing can be shown to the broker: ${why.message}`));
  }

  /** What it is shown takes a moment. */
  async greet(socket, info) {
    const told = { verbose: false, pedantic: false, headers: true, no_responders: true, lang: "js", version: "1" };
    if (this.shows === null) Object.assign(told, { user: this.user, pass: this.password });
    else Object.assign(told, await this.shows(nonceOf(info)));
    if (socket !== this.socket) return;
    const subjects = Array.from(this.subjects, ([number, subject]) => `SUB ${subject} ${number}\r\n`);
    this.isGreeted = true;
    this.say(`CONNECT ${JSON.stringify(told)}\r\n${subjects.join("")}PING\r\n`);
  }
}

/** What a broker wants to have signed. */
function nonceOf(info) {
  try {
    return String(JSON.parse(info).nonce ?? "");
  } catch {
    return "";
  }
}

/** Whether it says that nobody hears what was asked. */
export const isNobody = ({ head }) => /^NATS\/1\.0 503/.test(head);

/** The broker of published matches. */
export class Broker {
  /** `heard` is given what comes for `subject` by itself: a Uint8Array each. */
  constructor({ url, user, password, subject, heard }) {
    this.inbox = `_INBOX.${hex(drawn(12))}`;
    this.asked = 0;
    this.waiting = new Map();
    this.connection = new Connection({ url, user, password, heard: (it) => this.message(it, heard) });
    this.connection.hear(`${this.inbox}.*`);
    this.connection.hear(subject);
  }

  /** Why there is no connection, in words; null if there is one. */
  get why() {
    return this.connection.why;
  }

  close() {
    this.connection.close();
    for (const { resolve } of this.waiting.values()) resolve(null);
  }

  message({ subject, head, body }, heard) {
    if (!subject.startsWith(this.inbox)) {
      heard(body);
      return;
    }
    const one = this.waiting.get(subject);
    this.waiting.delete(subject);
    const field = (name) => new RegExp(`^${name}: *(.*?)\r?$`, "mi").exec(head)?.[1];
    const isThere = field("Nats-Sequence") !== undefined;
    one?.resolve(isThere ? { body, place: Number(field("Nats-Sequence")), subject: field("Nats-Subject") } : { body: null });
  }

  /** A message of the stream: null if the broker says nothing, and without a body if there is none. */
  async get(which) {
    const reply = `${this.inbox}.${this.asked++}`;
    const text = JSON.stringify(which);
    const answer = new Promise((resolve) => {
      this.waiting.set(reply, { resolve });
      setTimeout(() => resolve(null), WAIT);
    });
    this.connection.publish("$JS.API.DIRECT.GET.FAZ", reply, new TextEncoder().encode(text));
    const found = await answer;
    this.waiting.delete(reply);
    return found;
  }

  /** The first message of a subject from a place on. */
  next(subject, place) {
    return this.get({ seq: Math.max(place, 1), next_by_subj: subject });
  }

  /** The last message of a subject. */
  last(subject) {
    return this.get({ last_by_subj: subject });
  }
}
