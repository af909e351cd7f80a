"use strict";
/* The start of a new game in the operator's form: its number, typed or drawn at random, and its men. */
const createStart = (page) => {
  const { at } = page;

  function array() {
    const number = Number(at("start").value);
    const valid = at("start").value !== "" && Position.isStart(number);
    at("array").replaceChildren(...(valid ? [...Position.array(number)].map(Pieces.draw) : []));
    if (valid && page.record().origin === null) {
      page.board.show(Position.start(number));
    }
    at("array").setAttribute("aria-label", valid ? [...Position.array(number)].map(Words.kind).join(", ") : "");
  }

  function random() {
    const drawn = new Uint32Array(1);
    do {
      crypto.getRandomValues(drawn);
    } while (drawn[0] >= 960 * Math.floor(2 ** 32 / 960));
    at("start").value = drawn[0] % 960;
    array();
  }

  at("array").setAttribute("role", "img");
  at("start").addEventListener("input", array);
  at("random").addEventListener("click", random);

  return { show: array };
};
