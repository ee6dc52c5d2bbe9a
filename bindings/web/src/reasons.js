// Why a lobby won't come to a match: the numbers of faz_lobby_why in include/faz_lobby.h, but the last.

/** Why it won't come to a match. */
export const Why = {
  NO_REASON: 0, NO_SUCH_CODE: 1, NO_SEAT: 2, OTHER_GAME: 3, NOT_LET_IN: 4, HOST_LEFT: 5, OTHER_LIBRARY: 6, SYSTEM: 7, WRONG_CODE: 8,
  TOO_MANY: 9, A_PAGE: 10, NO_WAY: 11,
};

/** In words. */
export const REASONS = {
  [Why.NO_REASON]: "the host said no",
  [Why.NO_SUCH_CODE]: "nobody hosts a match with this code now",
  [Why.NO_SEAT]: "all seats are taken",
  [Why.OTHER_GAME]: "the host plays another game, or another version of it",
  [Why.NOT_LET_IN]: "the host's player said no",
  [Why.HOST_LEFT]: "the host has left",
  [Why.OTHER_LIBRARY]: "the host's game has another version of this library",
  [Why.SYSTEM]: "the host's system said no",
  [Why.WRONG_CODE]: "the code's last four signs are wrong",
  [Why.TOO_MANY]: "the door was asked too often from this address: try later",
  [Why.A_PAGE]: "the host doesn't play in a browser: a page joins pages alone, and a native game through bindings/web/bridge",
  [Why.NO_WAY]: "no way was found to another page: it takes a STUN server, and often a TURN server, which the door names",
};

// Pages say by their digest that they are pages: so that a native machine of the same game knows why there can't be a line.
export const PAGE = 0x66617a2d70616765n;
