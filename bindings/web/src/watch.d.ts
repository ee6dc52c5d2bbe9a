// Watches a match that its players publish on a broker. docs/WEB.md says how.
import { Fazgrond } from "./fazgrond.js";

/** A game that is watched. */
export interface WatchedGame {
  /** As its players publish it, and how many bytes a state has. */
  name: string;
  size: number;
  /** Goes on from these bytes, and says whether they are a state: they may be forged. */
  load(bytes: Uint8Array, players: number): boolean;
  step(words: Uint32Array, gone: number): void;
  digest(): number | bigint;
}

export class Watched {
  constructor(library: Fazgrond, how: { url: string; user: string; password: string; match: string; game: WatchedGame });
  readonly frame: number;
  readonly known: number;
  readonly isShown: boolean;
  readonly desync: number | null;
  readonly gaps: number;
  readonly end: { frames: number; reason: string } | null;
  get why(): string | null;
  get ahead(): number;
  get hasEnded(): boolean;
  turn(): void;
  close(): void;
}
