"use strict";
/*
 * What the list of boards says of one, as a record of its game (record.js): its position, its end, and its last move where the position
 * before that is known. It has none of the moves before.
 */
const Summary = (() => {
  const isAt = (position, fen) => Position.write(position) === fen;

  /** Whether a text tells of the game of the one before it: of the same start, at least as far, and not past its end. */
  function goesOn(text, before) {
    const isFurther = before.outcome === null && text.plies > before.plies;
    const isSame = text.plies === before.plies && text.fen === before.fen && (before.outcome === null || before.outcome === text.outcome);
    return text.start === before.start && (isFurther || isSame);
  }

  /** Whether the last move of a text leads from the present position of a record to that of the text. */
  function leads(before, { plies, last, fen }) {
    return before.next + 1 === plies && last !== null && Position.movesMan(before.present(), last)
      && isAt(Position.after(before.present(), last), fen);
  }

  /** The record of a text; `before` is that of the text before it of the same game, or null. */
  function record(text, before) {
    const { fen, plies, last, outcome } = text;
    const isMove = before !== null && leads(before, text);
    const isKnown = before !== null && before.next === plies && isAt(before.present(), fen);
    const made = isKnown ? before : createRecord();
    if (isMove) {
      made.take({ reply: "following", joined: before.next, fen: Position.write(before.present()) });
      made.take({ reply: "move", place: before.next, move: last });
    } else if (!isKnown) {
      made.take({ reply: "following", joined: plies, fen });
    }
    if (outcome !== null) {
      made.take({ reply: "over", outcome });
    }
    return made;
  }

  return { goesOn, record };
})();
