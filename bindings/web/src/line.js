// A line between two pages: a WebRTC data channel, which keeps no order and sends nothing again. It finds its way by texts that a lobby
// carries, sealed. Texts may be lost, and come twice: what the other hasn't said that it heard is said again.

const AGAIN = 500; // milliseconds
const BLOCKED = 6000;
const NEVER = 30000;
const MOST_TEXT = 4500; // bytes, of which a broker takes 8,000 with what seals them
const MOST_ITEMS = 256; // that the other one may say: a browser has a few dozen ways

/** What is told of a way by a relay alone: rows without this computer's addresses. */
function hidden(text) {
  const rows = text.split("\r\n").filter((row) => !/^(a=)?candidate:/.test(row) || row.includes(" typ relay"));
  const plain = rows.map((row) => row.replace(/ raddr \S+ rport \d+/, " raddr 0.0.0.0 rport 0"));
  return plain.map((row) => row.replace(/^([co]=.*)IN IP[46] \S+$/, "$1IN IP4 0.0.0.0")).join("\r\n");
}

/** The same of an item; null: nothing is left. */
function withoutAddress({ description, candidate, ...more }) {
  if (description !== undefined) return { description: { ...description, sdp: hidden(description.sdp) } };
  if (candidate === undefined) return more;
  const left = hidden(candidate.candidate);
  return left === candidate.candidate || left !== "" ? { candidate: { ...candidate, candidate: left } } : null;
}

/** By which way the channel of a connection goes, in words. */
async function wayOf(connection) {
  const stats = await connection.getStats();
  const all = [...stats.values()];
  const chosen = stats.get(all.find((it) => it.type === "transport")?.selectedCandidatePairId);
  const pair = chosen ?? all.find((it) => it.type === "candidate-pair" && it.nominated && it.state === "succeeded");
  const kinds = [pair?.localCandidateId, pair?.remoteCandidateId].map((id) => stats.get(id)?.candidateType);
  return kinds.includes("relay") ? "by a relay" : "directly";
}

export class Line {
  /** `isFirst` makes the offer. `say` carries a text to the other, and `told` is told "up", "blocked" or "never". */
  constructor({ isFirst, servers, relayOnly, say, told, now }) {
    this.connection = new RTCPeerConnection({ iceServers: servers, iceTransportPolicy: relayOnly ? "relay" : "all" });
    Object.assign(this, { say, told, relayOnly, began: now, channel: null, isBlocked: false, isOver: false });
    Object.assign(this, { items: [], heardOfUs: 0, heard: 0, owes: false, saidAt: now });
    this.connection.onicecandidate = ({ candidate }) => this.put(candidate ? { candidate: candidate.toJSON() } : { end: true });
    this.connection.ondatachannel = ({ channel }) => this.opens(channel);
    this.connection.onconnectionstatechange = () => {
      if (this.connection.connectionState === "failed") this.fails();
    };
    if (isFirst) this.offer();
  }

  async offer() {
    this.opens(this.connection.createDataChannel("match", { ordered: false, maxRetransmits: 0 }));
    await this.connection.setLocalDescription();
    this.put({ description: this.connection.localDescription.toJSON() });
  }

  opens(channel) {
    channel.binaryType = "arraybuffer";
    channel.onopen = async () => {
      if (this.channel !== null) return;
      this.channel = channel;
      this.told("up", await wayOf(this.connection));
    };
    if (channel.readyState === "open") channel.onopen();
  }

  /** No way was found to begin with. */
  fails() {
    if (this.isOver || this.channel !== null) return;
    this.isOver = true;
    this.told("never");
  }

  // ---- Texts

  put(item) {
    const told = this.relayOnly ? withoutAddress(item) : item;
    if (told === null) return;
    this.items.push(told);
    this.tell(this.items.length - 1);
  }

  /** Says what there is from an item on. */
  tell(first) {
    const items = [];
    for (const item of this.items.slice(first)) {
      if (items.length > 0 && JSON.stringify([...items, item]).length > MOST_TEXT) break;
      items.push(item);
    }
    this.owes = false;
    this.say(JSON.stringify({ first, items, heard: this.heard }));
  }

  /** Takes a text of the other's. It throws if that is none. */
  async hear(text) {
    const { first, items, heard } = JSON.parse(text);
    if (!(first >= 0 && heard >= 0 && Array.isArray(items))) throw new RangeError("it is no text of a line");
    this.heardOfUs = Math.max(this.heardOfUs, Math.min(heard, this.items.length));
    this.owes = this.owes || items.length > 0;
    for (const item of items.slice(Math.max(this.heard - first, 0))) {
      if (first > this.heard || this.heard >= MOST_ITEMS) return;
      this.heard++;
      await this.take(item);
    }
  }

  async take({ description, candidate }) {
    if (candidate !== undefined) {
      // (one that this browser can't use is none)
      await this.connection.addIceCandidate(candidate).catch(() => {});
      return;
    }
    if (description === undefined) return; // (it has no more candidates)
    await this.connection.setRemoteDescription(description);
    if (description.type !== "offer") return;
    await this.connection.setLocalDescription();
    this.put({ description: this.connection.localDescription.toJSON() });
  }

  turn(now) {
    const isDue = this.heardOfUs < this.items.length && now - this.saidAt >= AGAIN;
    if (isDue) this.saidAt = now;
    if (isDue || this.owes) this.tell(this.heardOfUs);
    if (this.channel !== null || this.isOver) return;
    if (!this.isBlocked && now - this.began >= BLOCKED) {
      this.isBlocked = true;
      this.told("blocked");
    }
    if (now - this.began >= NEVER) this.fails();
  }

  close() {
    this.isOver = true;
    this.connection.close();
  }
}
