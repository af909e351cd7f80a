"use strict";
/* A move that no man ever makes. A relay refuses it on the first ground that holds, and so tells how a board stands to the one who asks. */
const Knock = (() => {
  const MOVE = "a1b8";
  const OURS = ["Illegal", "LogFull"];

  /** Asks for a board. Its answer is a refusal. */
  const send = (link, board) => link.send({ cmd: "submit", board, move: MOVE });

  /** Whether the refusal says that the board is this page's, and goes on. */
  const isOurs = ({ name }) => OURS.includes(name);

  /** Whether it says that the board is there, and goes on. */
  const isThere = ({ name }) => isOurs({ name }) || name === "NotYourBoard";

  return { send, isOurs, isThere };
})();
