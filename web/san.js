"use strict";
/*
 * Moves as chess players write them (SAN: Nf3, exd5, O-O, e8=Q#), written and read. Read are also both squares with or without the man's
 * letter (Ng1-f3, g1f3), and the king's move in place of castling. A move itself is the relay's text.
 */
const San = (() => {
  const { fileOf, rankOf, nameOf } = Position;
  const WINGS = new Map([["O-O", "g"], ["O-O-O", "c"]]);
  const FORM = /^([KQRBNkqrn])?([a-h])?([1-8])?([-x])?([a-h][1-8])(?:=?([QRBNqrbn]))?(?: ?e\.p\.)?[+#]?$/;

  /* Writing. */

  /** What tells a man from others of its kind that may go to the same square: its file, else its rank, else both. */
  function origin(position, { from, to, man }) {
    const goesThere = (square) => Rules.from(position, square).some((text) => Position.parts(text).to === to);
    const others = position.squares.flatMap((it, square) => (it === man && square !== from && goesThere(square) ? [square] : []));
    const [file, rank] = nameOf(from);
    if (others.length === 0) {
      return "";
    }
    if (others.every((it) => fileOf(it) !== fileOf(from))) {
      return file;
    }
    return others.every((it) => rankOf(it) !== rankOf(from)) ? rank : file + rank;
  }

  /** + for a check, # for a mate. */
  function mark(after) {
    if (!Position.inCheck(after)) {
      return "";
    }
    return Rules.canMove(after) ? "+" : "#";
  }

  function unmarked(position, deed) {
    if (deed.castling) {
      return deed.castling.wing === "g" ? "O-O" : "O-O-O";
    }
    const link = deed.taken === "" ? "" : "x";
    if (deed.man.toLowerCase() === "p") {
      const file = link && nameOf(deed.from)[0];
      return file + link + nameOf(deed.to) + (deed.promotion ? `=${deed.promotion.toUpperCase()}` : "");
    }
    return deed.man.toUpperCase() + origin(position, deed) + link + nameOf(deed.to);
  }

  /** The SAN of a legal move. */
  const write = (position, text) => unmarked(position, Position.effect(position, text)) + mark(Position.after(position, text));

  /* Reading. */

  /** What a text says of a move, or null where it is no move's text. What it leaves open is null. */
  function parse(written) {
    const found = FORM.exec(written);
    if (!found) {
      return null;
    }
    const [, letter, file, rank, link, goal, promotion] = found;
    const isBare = !letter && file && rank;
    return {
      kind: isBare ? null : (letter || "p").toLowerCase(),
      file: file || null,
      rank: rank || null,
      takes: link === "x",
      to: Position.squareOf(goal),
      promotion: promotion ? promotion.toLowerCase() : null,
    };
  }

  /** Whether a man may be the one that moves, by its kind, file and rank. */
  function isMan(man, square, said) {
    const [file, rank] = nameOf(square);
    return (said.kind === null || said.kind === man.toLowerCase()) && [file, null].includes(said.file) && [rank, null].includes(said.rank);
  }

  /** Whether a move of such a man goes where it was written to. A pawn that takes is written with its file. */
  function fits(position, text, said) {
    const { man, to, taken, promotion } = Position.effect(position, text);
    const isNamed = said.file !== null || man.toLowerCase() !== "p" || taken === "";
    return to === said.to && isNamed && (!said.takes || taken !== "") && [promotion, null].includes(said.promotion);
  }

  const castlingOf = (position, text) => Position.effect(position, text).castling;

  /** The castlings of the side to move. */
  function castlings(position) {
    const king = Position.kingOf(position, position.turn);
    return Rules.from(position, king).filter((text) => castlingOf(position, text));
  }

  /** Whether a king's move as it was written can only mean this castling: to where the king gets, or two squares towards the rook. */
  function meansCastling(position, text, said) {
    const { from, to } = Position.parts(text);
    const goals = [castlingOf(position, text).king, from + (to > from ? 2 : -2)];
    return isMan("k", from, said) && goals.includes(said.to) && rankOf(said.to) === rankOf(from) && !said.takes && said.promotion === null;
  }

  /**
   * The legal moves that a text may mean: one, more where it is ambiguous, none where no legal move is meant, and null where it is no
   * move's text. A pawn's last step without the piece that it becomes is ambiguous.
   */
  function read(position, written) {
    const text = written.trim();
    const wing = WINGS.get(text.replace(/[+#]$/, "").replace(/[0o]/g, "O"));
    if (wing) {
      return castlings(position).filter((it) => castlingOf(position, it).wing === wing);
    }
    const said = parse(text);
    if (said === null) {
      return null;
    }
    const movesOf = (man, square) => (isMan(man, square, said) ? Rules.from(position, square) : []);
    const found = position.squares.flatMap(movesOf).filter((it) => fits(position, it, said));
    return found.length > 0 ? found : castlings(position).filter((it) => meansCastling(position, it, said));
  }

  return { write, read, mark };
})();
