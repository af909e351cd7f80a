"use strict";
/*
 * The places of a round that is shown from a list: first the boards that the page's address names, in its order, whether they are open or
 * not, then the others of the list in the order of their opening. A board whose game has a successor gives its place to that
 * (successors.js).
 */
const Places = (() => {
  /**
   * The places: of each the board's `name`, its `players`, and its `text`, which is null where it is not open yet. `named` are the boards
   * whose players are known. They keep their order, and so do those under which their games go on.
   */
  function of(texts, named) {
    const namerOf = (name) => named.find((it) => it.name === name) || named.find((it) => Names.isSuccessor(name, it.name));
    const placed = Successors.shown([...texts.values()]).map((text) => ({ name: text.board, namer: namerOf(text.board), text }));
    const placeOf = ({ name, namer, text }) => ({ name, players: namer ? namer.players : Players.NONE, text });
    const placesOf = (namer) => {
      const own = placed.filter((it) => it.namer === namer);
      return own.length > 0 ? own.map(placeOf) : [{ ...namer, text: null }];
    };
    return [...named.flatMap(placesOf), ...placed.filter((it) => !it.namer).map(placeOf)];
  }

  return { of };
})();
