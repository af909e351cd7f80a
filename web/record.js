"use strict";
/*
 * A game as a follower of it knows it: the position at its first known place, and each move from there on. Places are numbered
 * from 0. It takes the relay's texts in the order in which they come, drops what it has had, and says what it met:
 *   "joined"  the first position                    "moved"  a new move
 *   "had"     a place that it has had already       "gap"    places were missed; it goes on from a later position
 *   "other"   another game than before, which       "over"   the game has ended
 *             begins with this text: also one that
 *             begins behind an end
 *   "lost"    a move that has no position before it, or moves no man there (only where texts are missing)
 * Its file is one text a line: first {"board":..,"record":1,"start":..}, perhaps with the players ("white", "black"), then the relay's
 * texts as they came.
 */
const createRecord = () => {
  const record = { origin: null, plies: [], next: 0, outcome: null };

  const begin = (place, position) => {
    record.origin = { place, position };
    record.plies = [];
    record.next = place;
    record.outcome = null;
  };

  /** The position before the move of a place, or null where it is not known. */
  const positionAt = (place) => {
    if (!record.origin) {
      return null;
    }
    const ply = record.plies.find((it) => it.place + 1 === place && it.place >= 0);
    if (ply) {
      return ply.after;
    }
    return place === record.origin.place ? record.origin.position : null;
  };

  const present = () => (record.plies.length > 0 ? record.plies[record.plies.length - 1].after : record.origin.position);

  function following(text) {
    const position = Position.read(text.fen);
    if (!record.origin) {
      begin(text.joined, position);
      return "joined";
    }
    if (record.outcome !== null) {
      begin(text.joined, position);
      return "other";
    }
    if (text.joined > record.next) {
      record.plies.push({ gap: true, place: text.joined - 1, first: record.next, after: position });
      record.next = text.joined;
      record.outcome = null;
      return "gap";
    }
    const known = positionAt(text.joined);
    if (known && Position.write(known) !== text.fen) {
      begin(text.joined, position);
      return "other";
    }
    if (!known) {
      begin(text.joined, position);
      return "joined";
    }
    return "had";
  }

  function append(text) {
    const before = present();
    const deed = Position.effect(before, text.move);
    const after = Position.after(before, text.move);
    record.plies.push({ place: text.place, text: text.move, deed, after, check: Position.inCheck(after) });
    record.next = text.place + 1;
    record.outcome = null;
    return "moved";
  }

  function moved(text) {
    if (!record.origin || text.place > record.next) {
      return "lost";
    }
    if (text.place === record.next) {
      return Position.movesMan(present(), text.move) ? append(text) : "lost";
    }
    const index = record.plies.findIndex((it) => it.place === text.place);
    if (index < 0 || record.plies[index].gap || record.plies[index].text === text.move) {
      return "had";
    }
    if (!Position.movesMan(positionAt(text.place), text.move)) {
      return "lost";
    }
    record.plies = record.plies.slice(0, index);
    append(text);
    return "other";
  }

  function over(text) {
    if (record.outcome === text.outcome) {
      return "had";
    }
    record.outcome = text.outcome;
    return "over";
  }

  /** Whether another record has the same game from the same place on, and at least as far. */
  function isPartOf(other) {
    const isSame = (it, index) =>
      index < other.plies.length && it.place === other.plies[index].place && it.text === other.plies[index].text;
    return record.origin !== null && other.origin.place === record.origin.place
      && Position.write(other.origin.position) === Position.write(record.origin.position) && record.plies.every(isSame);
  }

  /** Takes one text of a follower: following, move or over. */
  function take(text) {
    const takers = { following, move: moved, over };
    return takers[text.reply](text);
  }

  return Object.assign(record, { take, present, positionAt, isPartOf });
};

/** The record of a game from its start: the number of that, its moves, and its outcome where it has one. */
const recordOf = ({ start, moves, outcome = null }) => {
  const record = createRecord();
  record.take({ reply: "following", joined: 0, fen: Position.write(Position.start(start)) });
  moves.forEach((move, place) => record.take({ reply: "move", place, move }));
  if (outcome !== null) {
    record.take({ reply: "over", outcome });
  }
  return record;
};

/* What a record's file says: the board's name, the start number, perhaps the players, and the texts of the moves from place 0. */
const RecordFile = (() => {
  /** The lines of a file, of which the last may have been cut off in the middle. */
  function lines(content) {
    const read = [];
    for (const line of content.split("\n")) {
      try {
        read.push(JSON.parse(line));
      } catch (fault) {
        break;
      }
    }
    return read;
  }

  /** Reads a file; the answer has `fault` where it is no record, or not one from place 0. */
  function read(content) {
    const [head, ...texts] = lines(content);
    if (!head || head.record !== 1) {
      return { fault: "This file is no record of a board." };
    }
    const record = createRecord();
    for (const text of texts.filter(Texts.fits)) {
      if (["following", "move", "over"].includes(text.reply) && ["gap", "lost"].includes(record.take(text))) {
        return { fault: "The record has a gap, so the game cannot be played again from it." };
      }
    }
    if (record.origin && record.origin.place !== 0) {
      return { fault: `The record begins at place ${record.origin.place}, so the game cannot be played again from it.` };
    }
    const start = record.origin ? Position.startNumber(record.origin.position) : head.start;
    if (!Position.isStart(start)) {
      return { fault: "The record does not begin with a starting position." };
    }
    const moves = record.plies.map((it) => it.text);
    return { board: String(head.board), start, players: Players.of(head), moves, outcome: record.outcome };
  }

  /** The content of a file for a game from its start. */
  function write({ board, start, players, moves, outcome }) {
    const fen = Position.write(Position.start(start));
    const named = Object.fromEntries(Object.entries(players).filter(([, name]) => name !== ""));
    const texts = [{ board, record: 1, start, ...named }, { fen, joined: 0, reply: "following" }];
    moves.forEach((move, place) => texts.push({ move, place, reply: "move" }));
    if (outcome) {
      texts.push({ outcome, reply: "over" });
    }
    return texts.map((it) => `${JSON.stringify(it)}\n`).join("");
  }

  return { read, write };
})();
