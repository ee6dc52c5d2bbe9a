// What the library is given, if nothing more is said, as tests/c/makers.c prints it: node tests/bindings/web/makers.mjs FOLDER
const { Fazgrond, Peer, Session, raw } = await import(`${process.argv[2]}/fazgrond.js`);

const inC = (name) => name.replace(/[A-Z]/g, (sign) => `_${sign.toLowerCase()}`);

/** In place of the module: what writes down what it is given. */
const library = {
  calls: new Proxy({}, { get: () => () => raw.Answer.OK }),
  allocate: () => 8,
  write(layout, at, told) {
    const kind = Object.keys(raw.structs).find((name) => raw.structs[name] === layout);
    const members = Object.keys(layout.members).map((name) => [inC(name), ...[told[name]].flat()].join(" "));
    console.log([kind.toLowerCase(), ...members].join(" "));
  },
};

const game = { save: () => null };
const two = { players: 2, local: [2] };
const match = { me: 1, machines: 2, owners: [0, 1], number: 7, draw: 5 };
const session = new Session(library, two, game);
new Session(library, { players: 5, local: [2, 5] }, game);
new Peer(library, session, match, Fazgrond.prototype.epoch(match, two)).mark(2);
