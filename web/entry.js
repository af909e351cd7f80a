"use strict";
/*
 * How a move is entered on the operator's page: a man is dropped, or the move is typed. `ready()` says whether one may be entered, `game()`
 * is the game that the page has, `say(text)` tells the operator, and `submit(move)` sends the move.
 */
const createEntry = ({ page, questions, ready, game, say, submit }) => {
  const { at } = page;
  const BUSY = "No move can be played now.";

  /** Sends a move as somebody wrote it, and answers whether it did. What is ambiguous is asked first, and what is not legal is not sent. */
  async function play(text) {
    if (!ready()) {
      say(BUSY);
      return false;
    }
    const before = game();
    const position = page.record().present();
    const found = San.read(position, text);
    if (found === null || found.length === 0) {
      say(found ? `${text}: ${Words.ILLEGAL}` : `"${text}" is not a move. Write it as in Nf3, exd5, O-O, e8=Q or g1f3.`);
      return false;
    }
    const move = found.length > 1 ? await questions.which(position, found) : found[0];
    if (move !== null && ready() && game() === before) {
      submit(move);
      return true;
    }
    say(move === null ? "" : BUSY);
    return false;
  }

  async function typed() {
    if (await play(at("move").value.trim())) {
      at("move").value = "";
    }
  }

  /** Takes back that no move can be played, once one can. */
  function freed() {
    if (ready() && at("said").textContent === BUSY) {
      say("");
    }
  }

  at("typed").addEventListener("submit", (event) => {
    event.preventDefault();
    typed();
  });
  at("move").addEventListener("input", () => say("")); // What was said is of the text that stood there.

  return { play, freed };
};
