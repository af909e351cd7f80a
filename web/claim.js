"use strict";
/*
 * Which boards the windows of this browser operate: each has one window, by a lock of the browser for its relay and its first name, under
 * whatever name its game goes on. A lock is free when its window is gone, however that went. Another window may take it over, and
 * `taken()` is called then. A browser that has no locks for the page leaves that to its operator.
 */
const Claim = (() => {
  const AGAIN = 300; // Milliseconds in which a page that is loaded again has let go of what it had before.

  function prefix(server) {
    try {
      return `sirvandu ${new URL(server).host} `;
    } catch (fault) {
      return "sirvandu - ";
    }
  }

  /** The boards of a relay that the windows of this browser operate, by their first names. */
  async function boards(server) {
    const { held } = navigator.locks ? await navigator.locks.query() : { held: [] };
    return held.map(({ name }) => name).filter((it) => it.startsWith(prefix(server))).map((it) => it.slice(prefix(server).length));
  }

  function create(taken) {
    let own = { name: null, release: () => {} };

    function release() {
      own.release();
      own = { name: null, release: () => {} };
    }

    /** Asks for a lock, and answers whether this window has it now. */
    const ask = (name, options) => new Promise((resolve) => {
      const hold = (lock) => {
        resolve(lock !== null);
        return lock && new Promise((done) => {
          own = { name, release: done };
        });
      };
      const lose = () => {
        resolve(true); // Where the browser gives no lock at all.
        if (own.name === name) {
          release();
          taken();
        }
      };
      navigator.locks.request(name, options, hold).catch(lose);
    });

    /** Answers whether this window operates the board now. With `isForced` it takes the board over from another. */
    async function take(server, board, isForced) {
      const name = prefix(server) + Names.first(board);
      if (own.name === name || !navigator.locks) {
        return true;
      }
      release();
      if (isForced) {
        return ask(name, { steal: true });
      }
      return await ask(name, { ifAvailable: true }) || new Promise((resolve) => {
        setTimeout(() => ask(name, { ifAvailable: true }).then(resolve), AGAIN);
      });
    }

    return { take, release };
  }

  return { create, boards };
})();
