"use strict";
/* The last games of this browser's boards, kept by the browser when they are opened and after each move: none is lost with the page. */
const Kept = (() => {
  const KEY = "sirvandu.games";
  const MOST = 100;
  const HOURS = 12; // For which a result is shown by itself: a board of another day may have the same name.
  /* Which game a tab of the browser has, by the board that the page's address names: it outlasts a reload. */
  const HERE = `sirvandu.here ${Address.get("board") || ""}`;

  function all() {
    try {
      const games = JSON.parse(localStorage.getItem(KEY));
      return Array.isArray(games) ? games.map((it) => ({ ...it, players: Players.of(it.players || {}) })) : [];
    } catch (fault) {
      return [];
    }
  }

  /** Keeps a game in the place of what was kept under its number, newest first. */
  function keep(game) {
    const games = [game, ...all().filter((it) => it.id !== game.id)].slice(0, MOST);
    try {
      localStorage.setItem(KEY, JSON.stringify(games));
    } catch (fault) {
      // A browser that keeps nothing: the record can still be saved to a file.
    }
  }

  /** Notes that this page has the game with this number. */
  function here(id) {
    try {
      sessionStorage.setItem(HERE, id);
    } catch (fault) {
      // A browser that keeps nothing: the board's name has to do.
    }
  }

  function hereId() {
    try {
      return sessionStorage.getItem(HERE);
    } catch (fault) {
      return null;
    }
  }

  const isFresh = ({ saved }) => Date.now() - Date.parse(saved) < HOURS * 3600 * 1000;

  /**
   * The last game of the board that this page had before it was loaded again, or of this board at this relay, where it has ended; or null.
   * Another window may have gone on with it.
   */
  function ended(board, server) {
    const games = all();
    const own = games.find((it) => it.id === hereId());
    const wanted = own || { board, server };
    const isOfBoard = (it) => Names.isOf(it.board, wanted.board);
    const isSame = (it) => wanted.board !== "" && it.server === wanted.server && isFresh(it) && isOfBoard(it);
    const last = games.find((it) => it === own || isSame(it));
    return last && last.outcome ? last : null;
  }

  /** The game of a board at this relay that has no end, under whatever name it goes on; or null. */
  const going = (board, server) => all()
    .find((it) => !it.outcome && it.server === server && Names.first(it.board) === Names.first(board)) || null;

  return { all, keep, here, ended, going };
})();
