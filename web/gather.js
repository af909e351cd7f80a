"use strict";
/*
 * The whole games of boards of which the list tells no more than the last move: each is followed from its first move to where the list has
 * it, on a connection of its own, which is closed then.
 */
const Gather = (() => {
  const PATIENCE = 30; // Seconds for all of them.

  /** Whether a record has all that a text of the list tells. */
  function isWhole(record, { plies, fen, outcome }) {
    const position = record.origin !== null && record.origin.place === 0 && record.next >= plies ? record.positionAt(plies) : null;
    return position !== null && Position.write(position) === fen && (outcome === null || record.outcome === outcome);
  }

  /** Calls `done` once, with the record of the game that a text of the list tells of, or with null where it did not come. */
  function game({ kind, server }, text, done) {
    const record = createRecord();
    const own = { link: null, timer: null, isDone: false };
    const isChannel = kind === "channel";

    function end() {
      if (!own.isDone) {
        own.isDone = true;
        clearTimeout(own.timer);
        own.link.close();
        done(isWhole(record, text) ? record : null);
      }
    }

    function heard(it) {
      if (["following", "move", "over"].includes(it.reply)) {
        record.take(it);
      }
      if (it.reply === "refused" || isWhole(record, text)) {
        end();
      }
      return true;
    }

    own.timer = setTimeout(end, 1000 * PATIENCE);
    own.link = Link.open(isChannel ? Address.ofChannel(server, text.board) : server, {
      opened: () => isChannel || own.link.send({ cmd: "follow", board: text.board, spectator: 0, from: 0 }),
      heard,
      closed: end,
    });
  }

  /** Calls `done` with the records of the games of these texts, in their order. */
  function games(source, texts, done) {
    const records = texts.map(() => null);
    let missing = texts.length;
    texts.forEach((text, index) => game(source, text, (record) => {
      records[index] = record;
      missing -= 1;
      if (missing === 0) {
        done(records);
      }
    }));
  }

  return { games };
})();
