"use strict";
/*
 * Which of a board's games is shown. A game that was abandoned, lost or corrected has a successor, a game under its board's next name. That
 * takes the place of one without a result with its first move, and of one with a result once it has as many moves, or some and a result.
 * So an empty board that was opened by mistake hides no moves.
 */
const Successors = (() => {
  /** How many moves a successor needs that has no result, to take the place of a game that is over. */
  const needed = ({ plies, outcome }) => (Outcomes.hasResult(outcome) ? plies : Math.min(plies, 1));

  /** Whether a successor takes the place of a game that is over. */
  const takesPlace = (successor, game) =>
    successor.plies >= needed(game) || (successor.plies > 0 && Outcomes.hasResult(successor.outcome));

  /** The successors of a game among some, in their order. */
  const of = (game, games) => games.filter((it) => Names.isSuccessor(it.board, game.board))
    .sort((one, other) => Names.number(one.board) - Names.number(other.board));

  /** The game that is shown of a board's. Adds to `met` the successors that it met; one that is shown and goes on has none. */
  function last(game, successors, met) {
    let shown = game;
    for (const it of successors) {
      if (shown.outcome === null) {
        break;
      }
      met.add(it);
      shown = takesPlace(it, shown) ? it : shown;
    }
    return shown;
  }

  /** Those of some games { board, plies, outcome } that are shown, each in the place of its board's first, in whatever order they come. */
  function shown(games) {
    const later = games.filter((it) => Names.number(it.board) > 1);
    const met = new Set();
    const standing = new Map(games.map((game) => [game, last(game, of(game, later), met)]));
    return [...new Set(games.filter((it) => !met.has(it)).map((it) => standing.get(it)))];
  }

  return { needed, takesPlace, shown };
})();
