"use strict";
/*
 * How much of each board a browser's user has seen, kept from visit to visit: the place behind the last move seen, and whether the end
 * was. It is written at most once a second, and when the page goes.
 */
const Seen = (() => {
  const KEY = "sirvandu.seen";
  const MOST = 1000;
  const fresh = new Map();
  let timer = null;

  function all() {
    try {
      const value = JSON.parse(localStorage.getItem(KEY));
      return new Map(Array.isArray(value) ? value : []);
    } catch (fault) {
      return new Map();
    }
  }

  const kept = all();

  /* Another tab may have written in the meantime. The newest are kept. */
  function write() {
    clearTimeout(timer);
    timer = null;
    const value = all();
    fresh.forEach((it, board) => {
      value.delete(board);
      value.set(board, it);
    });
    fresh.clear();
    try {
      localStorage.setItem(KEY, JSON.stringify([...value].slice(-MOST)));
    } catch (fault) {
      // A browser that keeps nothing: what is new counts from the page's opening.
    }
  }

  /** What of a board was seen, { next, isOver }, or null where it never was. */
  const of = (board) => kept.get(board) || null;

  function keep(board, seen) {
    kept.set(board, seen);
    fresh.set(board, seen);
    timer = timer || setTimeout(write, 1000);
  }

  addEventListener("pagehide", () => fresh.size > 0 && write());

  return { of, keep };
})();
