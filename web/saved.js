"use strict";
/* Gives the visitor a text as a file, which the browser saves. */
const Saved = (() => {
  function file(name, content, type) {
    const link = document.createElement("a");
    link.href = URL.createObjectURL(new Blob([content], { type }));
    link.download = name;
    link.click();
    setTimeout(() => URL.revokeObjectURL(link.href), 1000);
  }

  /** Gives games as a file in PGN; its name is given without an ending. */
  function pgn(name, content) {
    Saved.file(`${name}.pgn`, content, "application/vnd.chess-pgn");
  }

  return { file, pgn };
})();
