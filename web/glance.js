"use strict";
/*
 * A look at a board from outside: a connection without a key follows it as a spectator does, tells what it saw, and is closed. It answers
 * from the place `next` on: the position there, the moves behind it that have been played, and the end where the game `isOver`.
 *
 * Where the game goes on, nothing says which move was the last so far. So it is followed from the present first, whose place is the number
 * of moves that there are, and from `next` on only where there are more.
 *
 * `seen(texts)`      the relay's texts: the first is `following`
 * `refused(answer)`  the board is not there, has fewer moves, or has no room for another follower
 * `closed()`         the connection was lost
 */
const Glance = (() => {
  const ENDED = 1000; // Milliseconds in which a relay tells the end of a board behind its position.

  function look(address, { board, next, isOver }, { seen, refused, closed }) {
    let link = null;

    function end(tell, value) {
      link.close();
      tell(value);
      return true;
    }

    function follow(from, heard) {
      const command = { cmd: "follow", board, spectator: 0 };
      link = Link.open(address, {
        opened: () => link.send(from === null ? command : { ...command, from }),
        heard: (text) => (text.reply === "refused" ? end(refused, text) : heard(text)),
        closed,
      });
    }

    /** Finds out how many moves there are. */
    function measure() {
      follow(null, (text) => {
        if (text.reply !== "following") {
          return false;
        }
        const { joined } = text;
        return joined > next ? end(() => read((it) => it.reply === "move" && it.place + 1 >= joined)) : end(seen, [text]);
      });
    }

    /** Reads from the place `next` on, until the last text that is wanted. */
    function read(isLast) {
      const texts = [];
      follow(next, (text) => {
        texts.push(text);
        return isLast(text) ? end(seen, texts) : texts[0].reply === "following";
      });
    }

    if (isOver) {
      read((it) => it.reply === "over");
    } else {
      measure();
    }
    return { close: () => link.close() };
  }

  /** Looks how a board stands, and calls `seen` with { plies, outcome }, or with null where it is not to be seen. */
  function stand(address, board, seen) {
    let timer = null;
    let plies = 0;
    const close = () => {
      clearTimeout(timer);
      link.close();
    };
    const answer = (value) => {
      close();
      seen(value);
    };
    const takers = {
      following: ({ joined }) => {
        plies = joined;
        timer = setTimeout(() => answer({ plies, outcome: null }), ENDED);
      },
      over: ({ outcome }) => answer({ plies, outcome }),
      refused: () => answer(null),
    };
    const link = Link.open(address, {
      opened: () => link.send({ cmd: "follow", board, spectator: 0 }),
      heard: (text) => {
        const taker = takers[text.reply];
        if (taker) {
          taker(text);
        }
        return true;
      },
      closed: () => answer(null),
    });
    return { close };
  }

  return { look, stand };
})();
