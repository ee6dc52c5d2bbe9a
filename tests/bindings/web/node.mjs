// A match without a browser: node --experimental-wasm-memory64 tests/bindings/web/node.mjs PACKAGE
import { readFileSync } from "node:fs";

const source = readFileSync(new URL("examples.js", import.meta.url), "utf8");
const { twoPeers } = await import("data:text/javascript," + encodeURIComponent(source));
const { Fazgrond } = await import(`${process.argv[2]}/fazgrond.js`);
process.stdout.write(twoPeers(await Fazgrond.load(readFileSync(`${process.argv[2]}/fazgrond.wasm`))));
