// What a lobby asks the door beside the broker: a plate for a code or who has it, and servers that help to find a way.
import { Asks, DOOR, DoorSays, inboxSubject, readDoor, writeRequest } from "./messages.js";
import { INBOX, drawKeys } from "./keys.js";
import { drawn, isSame } from "./bytes.js";

// Milliseconds: between two requests, and of a host that keeps its plate; without an answer; and until lines go without relays.
const ASKED_AGAIN = 1000;
const KEPT_AGAIN = 20000;
const NO_ANSWER = 3000;
const WITHOUT = 2000;
const TOKEN = 16;

export class Door {
  constructor(lobby, takesServers) {
    Object.assign(this, { lobby, takesServers, asks: Asks.RELAYS, plate: "", token: new Uint8Array(TOKEN) });
    Object.assign(this, { beganAt: null, saidAt: null, answeredAt: null, isAwayTold: false, isMissing: false });
  }

  /** It has an inbox of its own: so it is known that it is the door, and not a host, whom nobody hears. With a pass it is a part of the
   * lobby's, where nobody but the door may say anything. */
  async begin() {
    const { lobby } = this;
    this.keys = await drawKeys();
    this.inbox = lobby.hasPass ? `${lobby.inboxName}.door` : inboxSubject(drawn(INBOX));
    lobby.connection.hear(this.inbox);
  }

  /** Asks anew, for something else. */
  ask(more) {
    Object.assign(this, { ...more, saidAt: null, answeredAt: null });
  }

  /** Whether lines needn't wait for it. */
  isOver(now) {
    return this.isMissing || this.answeredAt !== null || (this.beganAt !== null && now - this.beganAt >= WITHOUT);
  }

  turn(now) {
    if (!this.lobby.isThere) return;
    const keeps = this.asks === Asks.HOSTS && !this.lobby.isReady;
    const isDue = this.answeredAt === null || (keeps && now - this.answeredAt >= KEPT_AGAIN);
    if (isDue && (this.saidAt === null || now - this.saidAt >= ASKED_AGAIN)) this.say(now);
    const isWanted = this.asks !== Asks.RELAYS && this.answeredAt === null && this.beganAt !== null;
    if (!isWanted || this.isAwayTold || now - this.beganAt < NO_ANSWER) return;
    this.isAwayTold = true;
    this.lobby.tell("away", { text: "the door beside the broker doesn't answer" });
  }

  say(now) {
    this.beganAt ??= now;
    this.saidAt = now;
    this.lobby.say(DOOR, writeRequest({ asks: this.asks, open: this.keys.open, plate: this.plate, token: this.token }), this.inbox);
  }

  /** Nobody hears what it is asked: this broker has none, or it is away. */
  hearNobody() {
    this.isMissing = true;
  }

  async hear(body) {
    const came = await readDoor(this.keys, body);
    if (this.asks === Asks.HOSTS && came.says === DoorSays.OK && !isSame(came.token, this.token)) return;
    Object.assign(this, { answeredAt: this.lobby.now, isAwayTold: false, isMissing: false });
    if (came.says === DoorSays.OK && this.takesServers) this.lobby.servers = came.servers;
    if (this.asks === Asks.JOINS) await this.lobby.side.hearDoor(came);
    else if (came.says === DoorSays.FULL) this.lobby.tell("away", { text: "the door has no codes left" });
    else if (came.says === DoorSays.TOO_MANY) this.lobby.tell("away", { text: "the door was asked too often from this address" });
    else if (this.asks === Asks.HOSTS) this.lobby.side.hearPlate(came.plate);
  }
}
