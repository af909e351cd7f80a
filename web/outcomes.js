"use strict";
/*
 * How a game ended, by the relay's text: who has won, in words for people and in those of PGN. One that is not in the table is shown as its
 * text, and its result is open.
 */
const Outcomes = (() => {
  const BY_ITSELF = null;
  const NAMED = {};

  /*
   * Of each outcome: its result, the word of the PGN standard (9.8.1) for the end, what a page says, what a PGN says, and what the command
   * that enters it says. A claim is of a position and an abandoned game has no result, so no game is given these in place of another.
   */
  const KNOWN = new Map(Object.entries({
    "white mates": ["1-0", "normal", "White wins by checkmate.", "White mates.", BY_ITSELF],
    "black mates": ["0-1", "normal", "Black wins by checkmate.", "Black mates.", BY_ITSELF],
    "stalemate": ["1/2-1/2", "normal", "Draw by stalemate.", "Stalemate.", BY_ITSELF],
    "fivefold": ["1/2-1/2", "normal", "Draw by fivefold repetition.", "Draw by fivefold repetition.", BY_ITSELF],
    "seventy-five moves": ["1/2-1/2", "normal", "Draw by the seventy-five-move rule.", "Draw by seventy-five moves.", BY_ITSELF],
    "threefold": ["1/2-1/2", "normal", "Draw by threefold repetition, claimed by a player.", "Draw claimed: threefold repetition.", NAMED],
    "fifty moves": ["1/2-1/2", "normal", "Draw by the fifty-move rule, claimed by a player.", "Draw claimed: fifty moves.", NAMED],
    "white resigns": ["0-1", "normal", "White resigned. Black wins.", "White resigns.", { how: "resign", side: "white" }],
    "black resigns": ["1-0", "normal", "Black resigned. White wins.", "Black resigns.", { how: "resign", side: "black" }],
    "agreed": ["1/2-1/2", "normal", "Draw by agreement.", "Draw agreed.", { how: "agreed" }],
    "white loses on time": ["0-1", "time forfeit", "White's flag fell. Black wins.", "White loses on time.",
      { how: "time", side: "white" }],
    "black loses on time": ["1-0", "time forfeit", "Black's flag fell. White wins.", "Black loses on time.",
      { how: "time", side: "black" }],
    "white wins by decision": ["1-0", "adjudication", "White wins by the arbiter's decision.", "White wins by the arbiter's decision.",
      { how: "decided", result: "1-0" }],
    "drawn by decision": ["1/2-1/2", "adjudication", "Draw by the arbiter's decision.", "Draw by the arbiter's decision.",
      { how: "decided", result: "1/2-1/2" }],
    "black wins by decision": ["0-1", "adjudication", "Black wins by the arbiter's decision.", "Black wins by the arbiter's decision.",
      { how: "decided", result: "0-1" }],
    "abandoned": ["*", "abandoned", "Ended without a result: the game was abandoned, or its board lost its connection.",
      "Abandoned: the game ended without a result, or its board lost its connection.", NAMED],
  }));
  const SCORES = { "1-0": "1–0", "0-1": "0–1", "1/2-1/2": "½–½", "*": "" };

  const unknown = (text) => ["*", "unterminated", text, text.replace(/[{}]/g, ""), BY_ITSELF];

  function of(text) {
    const [result, termination, said, noted, command] = KNOWN.get(text) || unknown(text);
    return { result, termination, said, noted, command };
  }

  /** The result as PGN writes it: 1-0, 0-1, 1/2-1/2, or * where there is none. */
  const result = (text) => of(text).result;

  /** Whether a game has ended, and not as abandoned; null says that it goes on. */
  const hasResult = (text) => text !== null && text !== "abandoned";

  /** The result as a page shows it, or "" where there is none. */
  const score = (text) => SCORES[result(text)];

  /** The result, or in a few words why there is none. */
  const short = (text) => score(text) || (KNOWN.has(text) ? "No result" : text);

  /** How the game ended, in a sentence. */
  const said = (text) => of(text).said;

  /** Whether somebody named this end; the others came from the position by themselves. */
  const isNamed = (text) => of(text).command !== BY_ITSELF;

  /** The outcomes that a game can be given in place of another, each with what the command says that enters it. */
  const entered = () => [...KNOWN.keys()].map((text) => ({ text, command: of(text).command }))
    .filter(({ command }) => command !== BY_ITSELF && command !== NAMED);

  return { of, result, hasResult, score, short, said, isNamed, entered };
})();
