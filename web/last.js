"use strict";
/*
 * The position before a move of which only the position behind it is known: a list of boards tells no more. What was taken and which rights
 * there were stays unknown, and neither is needed to write the move.
 */
const Last = (() => {
  const { fileOf, homeRank, parts, pieceOf, rankOf, squareAt } = Position;
  const STAYS = { 5: 6, 3: 2 }; // Where a rook that castles may stay: on the file f or d, when the king goes to g or c.

  /** Whether a rook's move may as well have been castling in which the rook stayed: both end in the same position. */
  function mayHaveStayed({ squares }, start, colour, { from, to }) {
    const first = Position.start(start).squares;
    const home = homeRank(colour);
    const king = STAYS[fileOf(to)];
    const [kings, rooks] = [pieceOf(colour, "k"), pieceOf(colour, "r")];
    return king !== undefined && rankOf(from) === home && rankOf(to) === home && (fileOf(to) > fileOf(from)) === (king === 6)
      && first[from] === kings && first[to] === rooks && squares[squareAt(king, home)] === kings;
  }

  /** Whether a move was castling, from the king's square to its rook's. Any other man stands where it went, and left its square. */
  function isCastling({ squares }, colour, { from, to }) {
    const hasMoved = squares[from] === "" && squares[to] !== "" && Position.colourOf(squares[to]) === colour;
    return !hasMoved || (squares[to] === pieceOf(colour, "k") && Math.abs(fileOf(to) - fileOf(from)) > 1);
  }

  /** The men before castling. */
  function beforeCastling({ squares }, colour, { from, to }) {
    const men = [...squares];
    const goals = to > from ? [6, 5] : [2, 3];
    goals.forEach((file) => { men[squareAt(file, homeRank(colour))] = ""; });
    men[from] = pieceOf(colour, "k");
    men[to] = pieceOf(colour, "r");
    return men;
  }

  /**
   * The men before any other move. Where a man was taken stands a pawn: a pawn that goes to another file takes, and so does a man that sets
   * the half-move clock to 0.
   */
  function beforeMove({ squares, turn, halfMoves }, colour, { from, to, promotion }) {
    const men = [...squares];
    men[from] = promotion ? pieceOf(colour, "p") : squares[to];
    const isPawn = men[from].toLowerCase() === "p";
    const takes = isPawn ? fileOf(from) !== fileOf(to) : halfMoves === 0;
    men[to] = takes ? pieceOf(turn, "p") : "";
    return men;
  }

  /** The position before the last move of a game from a start, or null where it may have been either of two moves. */
  function before(present, start, move) {
    const colour = Position.other(present.turn);
    const way = parts(move);
    if (mayHaveStayed(present, start, colour, way)) {
      return null;
    }
    const undo = isCastling(present, colour, way) ? beforeCastling : beforeMove;
    const number = present.number - (colour === Position.BLACK ? 1 : 0);
    return { squares: undo(present, colour, way), turn: colour, rights: { w: [], b: [] }, target: null, halfMoves: 0, number };
  }

  return { before };
})();
