"use strict";
/*
 * The texts that a relay sends, one JSON object each, told apart by `reply`, and those that a feed adds in a channel. A page that was
 * given a wrong address may get anything: what is none of these texts is no relay's.
 */
const Texts = (() => {
  const isText = (it) => typeof it === "string";
  const isPlace = (it) => Number.isInteger(it) && it >= 0;
  const isName = (it) => isText(it) && /^[A-Za-z0-9_-]{1,32}$/.test(it);
  const isMove = (it) => isText(it) && /^[a-h][1-8][a-h][1-8][nbrq]?$/.test(it);
  const FEN = /^[pnbrqkPNBRQK1-8]+(\/[pnbrqkPNBRQK1-8]+){7} [wb] (-|[A-Ha-h]{1,4}) (-|[a-h][36]) \d+ \d+$/;
  const isFen = (it) => isText(it) && FEN.test(it) && Position.write(Position.read(it)) === it;
  const orNull = (test) => (it) => it === null || test(it);

  /* What each text has beside its `reply`. */
  const FORMS = new Map([
    ["opened", {}],
    ["played", { place: isPlace, outcome: orNull(isText) }],
    ["ended", { outcome: isText }],
    ["refused", { code: isPlace, name: isText }],
    ["following", { fen: isFen, joined: isPlace }],
    ["move", { place: isPlace, move: isMove }],
    ["over", { outcome: isText }],
    ["cut", {}],
    ["board", {
      board: isName, fen: isFen, last: orNull(isMove), outcome: orNull(isText), plies: isPlace, start: (it) => Position.isStart(it),
    }],
    ["beat", { time: isPlace }],
    ["next", { board: isName }],
  ]);

  /** Whether a value read from JSON is a relay's text. */
  function fits(value) {
    const form = value !== null && typeof value === "object" ? FORMS.get(value.reply) : undefined;
    return form !== undefined && Object.entries(form).every(([key, test]) => test(value[key]));
  }

  /** A text of the relay as an object, or null where it is none. */
  function read(text) {
    try {
      const value = JSON.parse(text);
      return fits(value) ? value : null;
    } catch (fault) {
      return null;
    }
  }

  return { read, fits, isMove };
})();
