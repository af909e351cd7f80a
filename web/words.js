"use strict";
/* The texts of the relay in words for people: refusals, moves, positions. */
const Words = (() => {
  const ILLEGAL = "This move is not legal here.";
  const NO_MEMORY = "The relay is out of memory.";

  const REFUSALS = {
    NoSuchBoard: "The relay has no board of this name.",
    BoardExists: "That name is taken. Choose another.",
    BadStart: "The start number must be from 0 to 959.",
    TooManyBoards: "The relay has no room for another board. Restart it with a higher limit.",
    GameOver: "The game on this board has ended.",
    Illegal: ILLEGAL,
    LogFull: "The game has reached the relay's limit of moves. End it.",
    ClaimRefused: "Claim refused: the position does not support it.",
    TooManyFollowers: "The board has no room for another spectator.",
    OutOfMemory: NO_MEMORY,
    NotYourBoard: "This board belongs to another operator.",
    WrongMode: "The relay does not accept this command at this address: is it the watch port, which only shows games?",
    TooFarBack: "The relay no longer has moves from that far back.",
    NotYet: "The game has not got that far yet.",
    NotJson: "The relay could not read the command.",
    NotObject: "The relay could not read the command.",
    UnknownCommand: "The relay does not know this command.",
    BadField: "The relay could not read part of the command. A board's name has 1 to 32 of A–Z, a–z, 0–9, _ and -.",
  };

  /* What an operator is told instead, by its command. A page that follows asks again by itself; only a board that is opened needs room on
   * the disk of the relay's journal. */
  const OF_COMMANDS = {
    OutOfMemory: {
      open: "The relay has no room: its memory or its journal's disk is full. Games go on. Try again once there is room.",
      submit: `${NO_MEMORY} Try again.`,
      end: `${NO_MEMORY} Try again.`,
    },
  };

  const KINDS = { k: "king", q: "queen", r: "rook", b: "bishop", n: "knight", p: "pawn" };
  const COLOURS = { w: "White", b: "Black" };

  /** A refusal; of an operator's command, if that is given. */
  const refusal = (answer, cmd) => (OF_COMMANDS[answer.name] || {})[cmd] || REFUSALS[answer.name] || "The relay refused this.";
  /** A refusal for the log, with its code and name in the protocol. */
  const coded = (answer, cmd) => `${refusal(answer, cmd)} (${answer.code} ${answer.name})`;
  const kind = (piece) => KINDS[piece.toLowerCase()];
  const colour = (letter) => COLOURS[letter];
  const piece = (letter) => `${letter === letter.toUpperCase() ? "white" : "black"} ${kind(letter)}`;

  /** A move in the long form, with both squares: Ng1-f3, e5xd6 e.p., a7-a8=Q, O-O. It has the sign of a check where it is said to be. */
  function sheet(deed, check = false) {
    const sign = check ? "+" : "";
    if (deed.castling) {
      return (deed.castling.wing === "g" ? "O-O" : "O-O-O") + sign;
    }
    const letter = deed.man.toLowerCase() === "p" ? "" : deed.man.toUpperCase();
    const link = deed.taken === "" ? "-" : "x";
    const promoted = deed.promotion ? `=${deed.promotion.toUpperCase()}` : "";
    const passing = deed.passing ? " e.p." : "";
    return letter + Position.nameOf(deed.from) + link + Position.nameOf(deed.to) + promoted + passing + sign;
  }

  /** A move to be read aloud. */
  function spoken(deed, check) {
    const from = Position.nameOf(deed.from);
    const who = `${colour(deed.colour)}:`;
    const tail = check ? ", check" : "";
    if (deed.castling) {
      const way = (name, left, goal) => (left === goal
        ? `the ${name} stays on ${Position.nameOf(goal)}` : `${name} ${Position.nameOf(left)} to ${Position.nameOf(goal)}`);
      return `${who} castles, ${way("king", deed.from, deed.castling.king)}, ${way("rook", deed.to, deed.castling.rook)}${tail}`;
    }
    const takes = deed.taken === "" ? "to" : `takes ${kind(deed.taken)} on`;
    const passing = deed.passing ? " en passant" : "";
    const promoted = deed.promotion ? `, promotes to ${kind(deed.promotion)}` : "";
    return `${who} ${kind(deed.man)} ${from} ${takes} ${Position.nameOf(deed.to)}${passing}${promoted}${tail}`;
  }

  /** What is to be said of a gap in the moves. */
  function missed({ first, place }) {
    const count = place - first + 1;
    return count === 1 ? "1 half-move was missed." : `${count} half-moves were missed.`;
  }

  /* The half-moves from which a draw is told to come near, may be claimed, and ends the game; and so of the times a position appears. */
  const CLOCK = { near: 80, claim: 100, end: 150 };
  const TIMES = ["", "", "twice", "three times", "four times"];

  function clock(halfMoves) {
    if (halfMoves < CLOCK.near) {
      return [];
    }
    const count = `${halfMoves} half-moves without a capture or a pawn move`;
    return [halfMoves < CLOCK.claim ? `${count}. At ${CLOCK.claim} a draw can be claimed.`
      : `${count}. A draw can be claimed. At ${CLOCK.end} the game is drawn.`];
  }

  function appearances(times, isWhole) {
    if (!TIMES[times]) {
      return [];
    }
    const count = `This position has occurred ${isWhole ? "" : "at least "}${TIMES[times]}`;
    const claim = "A draw can be claimed. At the fifth time the game is drawn.";
    return [times < 3 ? `${count}. At the third time a draw can be claimed.` : `${count}. ${claim}`];
  }

  /** What is to be said of draws that come near, a sentence or two for each. */
  const near = ({ halfMoves, times, isWhole }) => [...clock(halfMoves), ...appearances(times, isWhole)];

  /** Where the men of a position stand, in words, a list for each side. */
  function placement(position) {
    const side = (letter) => {
      const men = { k: [], q: [], r: [], b: [], n: [], p: [] };
      position.squares.forEach((it, square) => {
        if (it !== "" && Position.colourOf(it) === letter) {
          men[it.toLowerCase()].push(Position.nameOf(square));
        }
      });
      const words = Object.entries(men).filter(([, squares]) => squares.length > 0)
        .map(([name, squares]) => `${KINDS[name]}${squares.length > 1 ? "s" : ""} ${squares.join(", ")}`);
      return `${colour(letter)}: ${words.join("; ")}.`;
    };
    return [side("w"), side("b")];
  }

  return { ILLEGAL, refusal, coded, kind, colour, piece, sheet, spoken, missed, near, placement };
})();
