"use strict";
/* What the operator's page asks before it sends something: which move is meant, and whether the game is really to end. */
const createQuestions = (at) => {
  /* Who waits for the answer to the question that stands open, by its box. */
  const waiting = new Map();

  /** Gives an answer, once. That a box was closed is told later, when the next question may stand there: so it decides nothing then. */
  function answer(box, value) {
    const give = waiting.get(box);
    waiting.delete(box);
    if (give) {
      give(value);
    }
  }

  /** Shows a question. The answer is the value of the button that is pressed, and "" for one without, and for Escape. */
  function ask(box) {
    box.showModal();
    return new Promise((resolve) => {
      waiting.set(box, resolve);
    });
  }

  /** Asks which of several moves is meant, or what a pawn becomes; null where the operator goes back. */
  function which(position, moves) {
    const box = at("which");
    const isPromotion = Position.parts(moves[0]).promotion !== null;
    at("which-head").textContent = isPromotion ? "Promote to" : "Which move?";
    at("choices").replaceChildren(...moves.map((move) => choice(position, move, isPromotion)));
    return ask(box).then((value) => value || null);
  }

  function choice(position, move, isPromotion) {
    const { man, colour, promotion } = Position.effect(position, move);
    const it = document.createElement("button");
    it.type = "button";
    it.dataset.move = move;
    it.append(Pieces.draw(isPromotion ? Position.pieceOf(colour, promotion) : man));
    it.append(isPromotion ? Words.kind(promotion) : San.write(position, move));
    it.addEventListener("click", () => {
      answer(at("which"), move);
      at("which").close();
    });
    return it;
  }

  const TESTED = "The relay checks the claim. A claim about a move not yet made is for the arbiter.";
  const GROUNDS = {
    threefold: "this position has occurred at least three times",
    fifty: "fifty moves by each side without a capture or a pawn move",
  };

  /** What an ending says beside its button's own words. */
  function more({ how, side }) {
    const other = side === "white" ? "Black" : "White";
    return how === "time" ? ` ${other} wins. If ${other} cannot mate by any legal moves, enter the decision ½–½ instead.` : "";
  }

  /** What is asked before an ending is sent, and its command: a claim is that of the side which has the move. */
  function ending(button, turn) {
    const { how, side, result } = button.dataset;
    const command = { cmd: "end", how, ...(side && { side }), ...(result && { result }) };
    if (!GROUNDS[how]) {
      const text = `${result ? "Arbiter's decision: " : ""}${button.textContent}.${more(command)}`;
      return { head: "End the game?", text, yes: "End the game", command };
    }
    const claimant = Words.colour(turn);
    const text = `${claimant}, to move, claims a draw: ${GROUNDS[how]}. ${TESTED}`;
    return { head: "Claim a draw?", text, yes: "Claim", command: { ...command, side: claimant.toLowerCase() } };
  }

  function sure({ head, text, yes }) {
    const box = at("sure");
    at("sure-head").textContent = head;
    at("sure-text").textContent = text;
    at("sure-yes").textContent = yes;
    const answered = ask(box);
    at("sure-no").focus(); // Not by `autofocus`: a browser complains of that in the frame of a page from disk.
    return answered.then((value) => value === "yes");
  }

  /** What is asked before a game is corrected: how many of its moves it keeps, and how many are taken back. */
  function correction({ board, next }, kept, dropped) {
    const some = (which, number) => (number === 1 ? `${which} move` : `${which} ${number} moves`);
    const text = `${board} ends as abandoned and goes on as ${next}, with ${kept === 0 ? "no move" : some("the first", kept)}. `
      + `${some("The last", dropped)} will be lost. Spectators ${kept === 0 ? `see ${next} once it has a move` : `go to ${next} at once`}.`;
    return { head: "Correct the game?", text, yes: "Correct" };
  }

  /** A result that a game may be given instead, with its command as the value. */
  function offered({ text, command }) {
    const label = document.createElement("label");
    const input = document.createElement("input");
    const score = document.createElement("b");
    Object.assign(input, { type: "radio", name: "result", value: JSON.stringify(command), required: true });
    score.textContent = Outcomes.score(text);
    label.className = "check";
    label.append(input, " ", score, " ", Outcomes.said(text));
    return label;
  }

  /** Asks which result a game that is over has instead; answers the command that enters it, or null where the operator goes back. */
  async function result({ board, next, outcome }) {
    at("other-text").textContent = `${board} has: ${Outcomes.said(outcome)} It goes on as ${next} with all its moves, and ends there with:`;
    at("results").replaceChildren(...Outcomes.entered().filter(({ text }) => text !== outcome).map(offered));
    const value = await ask(at("other"));
    return value === "yes" ? { cmd: "end", ...JSON.parse(at("results").querySelector(":checked").value) } : null;
  }

  [at("which"), at("sure"), at("other")].forEach((box) => {
    box.addEventListener("submit", (event) => answer(box, event.submitter.value));
    box.addEventListener("close", () => box.open || answer(box, ""));
  });

  return { which, ending, correction, result, sure };
};
