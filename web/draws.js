"use strict";
/* How near a game is to a draw that may be claimed: by its half-move clock, and by how often its present position has appeared. */
const Draws = (() => {
  /** Whether a pawn may really be captured en passant. */
  const canPass = (position) => position.target !== null && Rules.legal(position).some((it) => Position.effect(position, it).passing);

  /** What two positions have in common that are the same by the Laws. */
  function key(position) {
    const target = canPass(position) ? position.target : "-";
    return [Position.writePlacement(position.squares), position.turn, Position.writeRights(position.rights), target].join(" ");
  }

  /**
   * The half-moves since the last capture or pawn move, how often the present position has appeared since then, and whether all
   * positions since then are known. No position before can be the same.
   */
  function of({ origin, plies }) {
    const present = plies.length > 0 ? plies[plies.length - 1].after : origin.position;
    const { halfMoves } = present;
    const recent = [origin.position, ...plies.map((it) => it.after)].slice(-halfMoves - 1);
    const wanted = key(present);
    const times = recent.filter((it) => key(it) === wanted).length;
    const isWhole = recent.every((it, index) => it.halfMoves === index);
    return { halfMoves, times, isWhole };
  }

  return { of };
})();
