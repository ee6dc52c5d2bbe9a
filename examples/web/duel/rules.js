// A duel of two to four ships: the rules alone. They are those of the game `duel` of the program rollduel (docs/SCRIPTS.md), and its
// states lie in memory as those of programs/duel/duel.h.

export const SHIPS = 4;
export const BULLETS = 32;
// The field, in 1/256 of a unit. It wraps.
export const WIDTH = 81920;
export const HEIGHT = 61440;
// What a player holds down: the bits of a word.
export const THRUST = 1;
export const LEFT = 2;
export const RIGHT = 4;
export const FIRE = 8;

// What a heading adds to a speed, to the right and downwards.
export const DIRECTIONS = [[16, 0], [11, 11], [0, 16], [-11, 11], [-16, 0], [-11, -11], [0, -16], [11, -11]];

const HEADINGS = 8;
const MOST_SPEED = 512;
const SHOT_SPEED = 32;
const SHOT_LIFE = 60;
const COOL = 8;
const REACH = 2048;
const MOST_HITS = 65535;

// The words of a state: how many ships and bullets there are, then of each ship and of each bullet these.
const COUNT = 0;
const SHOTS = 1;
const SHIP = { at: 2, size: 7, x: 0, y: 1, vx: 2, vy: 3, heading: 4, cool: 5, hits: 6 };
const SHOT = { at: SHIP.at + SHIPS * SHIP.size, size: 6, owner: 0, life: 1, x: 2, y: 3, vx: 4, vy: 5 };
const WORDS = SHOT.at + BULLETS * SHOT.size;
export const STATE_BYTES = 4 * WORDS;

const PLACES = [[20480, 15360, 0], [61440, 46080, 4], [61440, 15360, 4], [20480, 46080, 0]];

/** The opening, with 2 to 4 ships. */
export function opening(ships) {
  if (!(ships >= 2 && ships <= SHIPS)) throw new Error(`${ships} ships: 2 to 4 were expected`);
  const field = new Int32Array(WORDS);
  field[COUNT] = ships;
  for (let at = 0; at < ships; at++) {
    const ship = SHIP.at + at * SHIP.size;
    [field[ship + SHIP.x], field[ship + SHIP.y], field[ship + SHIP.heading]] = PLACES[at];
  }
  return field;
}

// The place after a frame at this speed, on a field of this size.
const moved = (size, place, speed) => (place + speed + size) % size;
const held = (speed) => Math.min(Math.max(speed, -MOST_SPEED), MOST_SPEED);

function fire(field, number, ship) {
  const [right, down] = DIRECTIONS[field[ship + SHIP.heading]];
  const shot = SHOT.at + field[SHOTS]++ * SHOT.size;
  field[shot + SHOT.owner] = number;
  field[shot + SHOT.life] = SHOT_LIFE;
  field[shot + SHOT.x] = field[ship + SHIP.x];
  field[shot + SHOT.y] = field[ship + SHIP.y];
  field[shot + SHOT.vx] = field[ship + SHIP.vx] + SHOT_SPEED * right;
  field[shot + SHOT.vy] = field[ship + SHIP.vy] + SHOT_SPEED * down;
}

// A ship turns, thrusts, cools its gun, fires and moves.
function runShip(field, number, word) {
  const ship = SHIP.at + (number - 1) * SHIP.size;
  const left = (word & LEFT) !== 0;
  if (left !== ((word & RIGHT) !== 0))
    field[ship + SHIP.heading] = (field[ship + SHIP.heading] + (left ? HEADINGS - 1 : 1)) % HEADINGS;
  if ((word & THRUST) !== 0) {
    const [right, down] = DIRECTIONS[field[ship + SHIP.heading]];
    field[ship + SHIP.vx] = held(field[ship + SHIP.vx] + right);
    field[ship + SHIP.vy] = held(field[ship + SHIP.vy] + down);
  }
  if (field[ship + SHIP.cool] > 0) field[ship + SHIP.cool]--;
  if ((word & FIRE) !== 0 && field[ship + SHIP.cool] === 0 && field[SHOTS] < BULLETS) {
    fire(field, number, ship);
    field[ship + SHIP.cool] = COOL;
  }
  field[ship + SHIP.x] = moved(WIDTH, field[ship + SHIP.x], field[ship + SHIP.vx]);
  field[ship + SHIP.y] = moved(HEIGHT, field[ship + SHIP.y], field[ship + SHIP.vy]);
}

// The way between two places, round the field if that is shorter.
function distance(size, one, other) {
  const gap = Math.abs(one - other);
  return Math.min(gap, size - gap);
}

// Counts a hit for the first ship that a bullet hits, and says whether there is one.
function strike(field, shot) {
  for (let at = 0; at < field[COUNT]; at++) {
    const ship = SHIP.at + at * SHIP.size;
    if (
      at + 1 === field[shot + SHOT.owner] ||
      distance(WIDTH, field[ship + SHIP.x], field[shot + SHOT.x]) > REACH ||
      distance(HEIGHT, field[ship + SHIP.y], field[shot + SHOT.y]) > REACH
    )
      continue;
    if (field[ship + SHIP.hits] < MOST_HITS) field[ship + SHIP.hits]++;
    return true;
  }
  return false;
}

/** A frame, with a word for each ship. */
export function step(field, words) {
  for (let number = 1; number <= field[COUNT]; number++) runShip(field, number, words[number - 1]);
  let kept = 0;
  for (let at = 0; at < field[SHOTS]; at++) {
    const shot = SHOT.at + at * SHOT.size;
    field[shot + SHOT.x] = moved(WIDTH, field[shot + SHOT.x], field[shot + SHOT.vx]);
    field[shot + SHOT.y] = moved(HEIGHT, field[shot + SHOT.y], field[shot + SHOT.vy]);
    field[shot + SHOT.life]--;
    if (!strike(field, shot) && field[shot + SHOT.life] > 0)
      field.copyWithin(SHOT.at + kept++ * SHOT.size, shot, shot + SHOT.size);
  }
  // What is past the last bullet is always 0, so that equal states have equal bytes.
  field.fill(0, SHOT.at + kept * SHOT.size, SHOT.at + field[SHOTS] * SHOT.size);
  field[SHOTS] = kept;
}

const isWithin = (value, least, most) => value >= least && value <= most;

function isOnField(field, x, speed) {
  return (
    isWithin(field[x], 0, WIDTH - 1) && isWithin(field[x + 1], 0, HEIGHT - 1) &&
    isWithin(field[x + 2], -speed, speed) && isWithin(field[x + 3], -speed, speed)
  );
}

/** Whether words that come from elsewhere are a state with so many ships: then it is safe to go on from it. */
export function isState(field, ships) {
  if (field.length !== WORDS || field[COUNT] !== ships || !isWithin(ships, 2, SHIPS) || !isWithin(field[SHOTS], 0, BULLETS))
    return false;
  for (let at = 0; at < ships; at++) {
    const ship = SHIP.at + at * SHIP.size;
    if (
      !isOnField(field, ship + SHIP.x, MOST_SPEED) || !isWithin(field[ship + SHIP.heading], 0, HEADINGS - 1) ||
      !isWithin(field[ship + SHIP.cool], 0, COOL) || !isWithin(field[ship + SHIP.hits], 0, MOST_HITS)
    )
      return false;
  }
  for (let at = 0; at < field[SHOTS]; at++) {
    const shot = SHOT.at + at * SHOT.size;
    if (
      !isOnField(field, shot + SHOT.x, MOST_SPEED + 16 * SHOT_SPEED) || !isWithin(field[shot + SHOT.owner], 1, ships) ||
      !isWithin(field[shot + SHOT.life], 1, SHOT_LIFE)
    )
      return false;
  }
  return true;
}

/** A number that is another for most other states: that of duel_checksum in programs/duel/duel.c. */
export function checksum(field) {
  let sum = 0x811c9dc5;
  for (let at = 0; at < WORDS; at++) {
    const word = field[at];
    sum = Math.imul(sum ^ (word & 255), 0x01000193);
    sum = Math.imul(sum ^ ((word >> 8) & 255), 0x01000193);
    sum = Math.imul(sum ^ ((word >> 16) & 255), 0x01000193);
    sum = Math.imul(sum ^ (word >>> 24), 0x01000193);
  }
  return sum >>> 0;
}

/** The ships and the bullets, to be drawn. */
export function look(field) {
  const ships = Array.from({ length: field[COUNT] }, (_, at) => {
    const ship = SHIP.at + at * SHIP.size;
    return { x: field[ship], y: field[ship + 1], heading: field[ship + SHIP.heading], hits: field[ship + SHIP.hits] };
  });
  const bullets = Array.from({ length: field[SHOTS] }, (_, at) => {
    const shot = SHOT.at + at * SHOT.size;
    return { x: field[shot + SHOT.x], y: field[shot + SHOT.y], owner: field[shot + SHOT.owner] };
  });
  return { ships, bullets };
}

/** The state as text, as rollduel writes it. */
export function text(field) {
  let told = "";
  for (let at = 0; at < field[COUNT]; at++)
    told += `${Array.from(field.subarray(SHIP.at + at * SHIP.size, SHIP.at + (at + 1) * SHIP.size)).join(",")} `;
  return `${told}b${field[SHOTS]}`;
}

/** A game of the duel, as a session plays it. */
export class Duel {
  constructor(ships = 2) {
    this.field = opening(ships);
  }

  save() {
    return this.field.slice();
  }

  load(state) {
    this.field.set(state);
  }

  step(words) {
    step(this.field, words);
  }

  digest(state) {
    return checksum(state);
  }
}

/** A duel that is watched: it goes on from bytes that come from elsewhere. */
export class WatchedDuel extends Duel {
  name = "duel";
  size = STATE_BYTES;

  load(bytes, players) {
    const words = new Int32Array(bytes.slice().buffer);
    if (!isState(words, players)) return false;
    this.field = words;
    return true;
  }

  digest() {
    return checksum(this.field);
  }
}

/** A bot, which flies a ship: it always gives the same words, that of programs/common/bot.h. */
export class Bot {
  constructor(seed, player) {
    this.seed = BigInt.asUintN(64, 0x9e3779b97f4a7c15n * BigInt(seed * SHIPS + player));
    this.word = 0;
  }

  /** Draws the next word, after one was taken. */
  draw() {
    let { seed } = this;
    seed = BigInt.asUintN(64, seed ^ (seed << 13n));
    seed ^= seed >> 7n;
    seed = BigInt.asUintN(64, seed ^ (seed << 17n));
    this.seed = seed;
    if (((seed >> 32n) & 7n) === 0n) this.word = Number((seed >> 40n) & 15n);
  }
}
