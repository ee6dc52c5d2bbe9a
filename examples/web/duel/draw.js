// The duel on a canvas.
import { DIRECTIONS, HEIGHT, WIDTH, look } from "./rules.js";

const COLOURS = ["#4fc3f7", "#ffb74d", "#81c784", "#e57373"];
const SIZE = 9; // of a ship, in units of 256

/** Draws a state. `mine` is the number of the ship that is this machine's, or 0; `lines` are shown below. */
export function draw(canvas, field, mine, lines) {
  const context = canvas.getContext("2d");
  const scale = (canvas.width * 256) / WIDTH;
  context.fillStyle = "#10141c";
  context.fillRect(0, 0, canvas.width, canvas.height);
  const { ships, bullets } = look(field);
  const place = (x, y) => [(x * scale) / 256, (y * scale) / 256];
  for (const bullet of bullets) {
    const [x, y] = place(bullet.x, bullet.y);
    context.fillStyle = COLOURS[bullet.owner - 1];
    context.fillRect(x - scale, y - scale, 2 * scale, 2 * scale);
  }
  ships.forEach((ship, at) => {
    drawShip(context, place(ship.x, ship.y), ship.heading, scale, COLOURS[at], at + 1 === mine);
    context.fillStyle = COLOURS[at];
    context.font = `${7 * scale}px monospace`;
    context.fillText(`${at + 1 === mine ? "you" : `player ${at + 1}`}: hit ${ship.hits} times`, 6 * scale, (10 + 9 * at) * scale);
  });
  context.fillStyle = "#9aa4b5";
  context.font = `${6 * scale}px monospace`;
  lines.forEach((line, at) => context.fillText(line, 6 * scale, (HEIGHT / 256) * scale - (6 + 8 * (lines.length - 1 - at)) * scale));
}

function drawShip(context, [x, y], heading, scale, colour, isMine) {
  const [right, down] = DIRECTIONS[heading];
  const length = Math.hypot(right, down);
  context.save();
  context.translate(x, y);
  context.transform(right / length, down / length, -down / length, right / length, 0, 0);
  context.scale(scale, scale);
  context.beginPath();
  context.moveTo(SIZE, 0);
  context.lineTo(-SIZE * 0.8, SIZE * 0.7);
  context.lineTo(-SIZE * 0.4, 0);
  context.lineTo(-SIZE * 0.8, -SIZE * 0.7);
  context.closePath();
  context.strokeStyle = context.fillStyle = colour;
  context.lineWidth = 1.5;
  if (isMine) context.fill();
  else context.stroke();
  context.restore();
}
