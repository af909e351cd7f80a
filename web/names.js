"use strict";
/*
 * The names of boards: those under which a game goes on, or is played again to be corrected, and those of other games of a board.
 *
 * A successor is counted behind "_": r1-1, r1-1_2, r1-1_3 and so on. Tables are counted behind "-", so the successor of r1-1 must not be
 * called r1-2. Another game of the board is r1-1_g2, then r1-1_g3: it succeeds no game.
 */
const Names = (() => {
  const LENGTH = 32;
  const MOST = 99; // Successors of a board.
  const COUNTED = /^(.+)_(\d{1,3})$/;
  const ANOTHER = /^(.+)_g(\d{1,3})$/;

  /** A name with this behind it, cut so that it is one that a board can have. */
  const withTail = (name, tail) => name.slice(0, LENGTH - tail.length) + tail;

  /** The name of the game that goes on with that of a board, or corrects it. */
  function next(name) {
    const found = COUNTED.exec(name);
    return found ? withTail(found[1], `_${Number(found[2]) + 1}`) : withTail(name, "_2");
  }

  /** So many next names, in their order. */
  function nexts(name, count) {
    const names = [];
    while (names.length < count) {
      names.push(next(names.length > 0 ? names[names.length - 1] : name));
    }
    return names;
  }

  /** The number of a game among those of its first name: 1 for the first. */
  function number(name) {
    const found = COUNTED.exec(name);
    return found ? Number(found[2]) : 1;
  }

  /** The name of the first game, of one that goes on under this name; else the name itself. */
  const first = (name) => (number(name) > 1 ? COUNTED.exec(name)[1] : name);

  /** Whether this is the name of a successor of a board's. Most names are told by their first letters, of which next names keep 27. */
  const isSuccessor = (name, board) =>
    name.startsWith(board.replace(/_\d{1,3}$/, "").slice(0, 27)) && nexts(board, MOST).includes(name);

  /** The name of another game of a board, whatever that is called by now. */
  function another(name) {
    const found = ANOTHER.exec(first(name));
    return found ? withTail(found[1], `_g${Number(found[2]) + 1}`) : withTail(first(name), "_g2");
  }

  /** Whether a game is one of a board's: its own, a successor, or another game of the board. */
  function isOf(name, board) {
    const found = ANOTHER.exec(first(name));
    return name === board || isSuccessor(name, board) || (found !== null && found[1] === board);
  }

  return { next, nexts, number, first, isSuccessor, another, isOf };
})();
