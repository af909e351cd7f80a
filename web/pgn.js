"use strict";
/*
 * A game as PGN, which other chess programs read. It is written as apps/recorder/pgn.py writes it. A record that has a gap gives what
 * stands behind the last gap, from the position there on.
 */
const Pgn = (() => {
  const GOING_ON = { result: "*", termination: "unterminated", noted: "" };
  const FIRST = ["Event", "Site", "Date", "Round", "White", "Black", "Result"];
  const WIDTH = 79;

  const isRook = (position, rook) => (square) => position.squares[square] === position.squares[rook];

  /** A right to castle: K or Q where its rook is the outermost on its side of the king, else the rook's file. */
  function right(position, colour, file) {
    const home = colour === Position.WHITE ? 0 : 7;
    const king = Position.fileOf(Position.kingOf(position, colour));
    const files = [...Array(8).keys()].filter((it) => (file > king ? it > file : it < file));
    const barred = files.map((it) => Position.squareAt(it, home)).some(isRook(position, Position.squareAt(file, home)));
    const wing = file > king ? "K" : "Q";
    const letter = barred ? "ABCDEFGH"[file] : wing;
    return colour === Position.WHITE ? letter : letter.toLowerCase();
  }

  /**
   * The FEN of a position as most programs read it: rights as KQkq, and a file only where that is ambiguous. With the files of the rooks
   * pgn-extract would take the wrong rook and refuse some castlings.
   */
  function fen(position) {
    const fields = Position.write(position).split(" ");
    const letters = (colour) => [...position.rights[colour]].sort((a, b) => b - a).map((it) => right(position, colour, it));
    fields[2] = [...letters(Position.WHITE), ...letters(Position.BLACK)].join("") || "-";
    return fields.join(" ");
  }

  /** The position from which all moves are known, and these moves. */
  function known({ origin, plies }) {
    const gap = plies.map((it) => Boolean(it.gap)).lastIndexOf(true);
    return { position: gap < 0 ? origin.position : plies[gap].after, moves: plies.slice(gap + 1).map((it) => it.text) };
  }

  /** The moves in SAN with their numbers. */
  function numbered(position, moves) {
    const words = [];
    let present = position;
    moves.forEach((text, index) => {
      if (present.turn === Position.WHITE) {
        words.push(`${present.number}.`);
      } else if (index === 0) {
        words.push(`${present.number}...`);
      }
      words.push(San.write(present, text));
      present = Position.after(present, text);
    });
    return words;
  }

  /** Words on lines of at most 79 letters. */
  function filled(words) {
    const lines = [""];
    for (const word of words) {
      const line = lines[lines.length - 1];
      if (line !== "" && line.length + 1 + word.length > WIDTH) {
        lines.push(word);
      } else {
        lines[lines.length - 1] = line === "" ? word : `${line} ${word}`;
      }
    }
    return lines.join("\n");
  }

  const quoted = (value) => `"${value.trim().replace(/\s+/g, " ").replace(/[\\"]/g, "\\$&")}"`;

  /** The seven tags that each game has, in their order, and behind them the others by their names. */
  function tags(given) {
    const others = Object.keys(given).filter((it) => !FIRST.includes(it)).sort();
    return [...FIRST, ...others].map((name) => `[${name} ${quoted(given[name] || "?")}]\n`).join("");
  }

  /** A day as PGN has it, or its word for one that is not known. */
  function day(date) {
    if (Number.isNaN(date.getTime())) {
      return "????.??.??";
    }
    const two = (number) => String(number).padStart(2, "0");
    return `${date.getFullYear()}.${two(date.getMonth() + 1)}.${two(date.getDate())}`;
  }

  /** The round and the table that a board's name says: 3.1 of r3-1, and of the names under which its game goes on; else "". */
  function roundOf(board) {
    const found = /^r(\d+)-(\d+)$/.exec(Names.first(board));
    return found ? `${found[1]}.${found[2]}` : "";
  }

  /**
   * The PGN of a record that has a position, of a game that was played at this date. `labels` has what the relay does not know: Event,
   * White and so on.
   */
  function write(board, record, labels = {}, date = new Date()) {
    const { position, moves } = known(record);
    const { result, termination, noted } = record.outcome === null ? GOING_ON : Outcomes.of(record.outcome);
    const words = [...numbered(position, moves), ...(noted ? `{${noted}}`.split(" ") : []), result];
    const given = Object.fromEntries(Object.entries(labels).filter(([, value]) => value !== ""));
    const head = tags({
      Date: day(date), Round: roundOf(board), Result: result, BoardName: board, FEN: fen(position), SetUp: "1",
      Termination: termination, Variant: "Chess960", ...given,
    });
    return `${head}\n${filled(words)}\n`;
  }

  /** The PGN of several games, one behind another: of each its board, its record, which has a position, and its labels. */
  const round = (games) => games.map(({ board, record, labels }) => write(board, record, labels)).join("\n");

  return { write, round };
})();
