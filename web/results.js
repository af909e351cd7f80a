"use strict";
/*
 * The results of a round outlast the relay, which has no game of before when it was restarted. They stay as long as the same round goes
 * on: while the relay has no board yet, or has one that goes on with a game which it lost, under a next name. Other boards are of another
 * round. A browser keeps the results, so that a page that was loaded again has them.
 */
const Results = (() => {
  const KEY = "sirvandu.results";
  const HOURS = 12;

  /** Whether the boards that a relay has are of the round of before. */
  const isSameRound = (texts) => texts.size === 0
    || [...texts.keys()].some((it) => Names.first(it) !== it && !texts.has(Names.first(it)));

  /** Those boards that had ended and that the relay has no longer. */
  const left = (before, texts) => new Map([...before].filter(([board, { outcome }]) => outcome !== null && !texts.has(board)));

  /** The boards of a relay, behind those of the same round that had ended before. */
  const together = (before, texts) => (before.size > 0 && isSameRound(texts) ? new Map([...left(before, texts), ...texts]) : texts);

  function read(server) {
    try {
      const kept = JSON.parse(localStorage.getItem(KEY));
      const isFresh = kept.server === server && Date.now() - kept.saved < HOURS * 3600 * 1000;
      return isFresh ? kept.texts.filter((it) => Texts.fits(it) && it.reply === "board") : [];
    } catch (fault) {
      return [];
    }
  }

  /** The boards that had ended when this browser showed the relay last, not long ago. */
  const kept = (server) => new Map(read(server).map((it) => [it.board, it]));

  function keep(server, texts) {
    const ended = [...texts.values()].filter(({ outcome }) => outcome !== null);
    try {
      localStorage.setItem(KEY, JSON.stringify({ server, saved: Date.now(), texts: ended }));
    } catch (fault) {
      // A browser that keeps nothing: the results are there as long as the page is open.
    }
  }

  return { left, together, kept, keep };
})();
