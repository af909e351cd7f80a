"use strict";
/* The players of a board, { white, black }. They are the pages' own: the relay does not know them. A name that is not known is "". */
const Players = (() => {
  const NONE = { white: "", black: "" };
  const DASH = /\s*[–—]\s*|\s+-+\s+/;

  /** The players of a text such as "Carlsen – Caruana". A hyphen between spaces does for the dash. One name alone is White's. */
  function read(text) {
    const [dash] = DASH.exec(text) || [""];
    const [white, ...black] = dash === "" ? [text] : text.split(dash);
    return { white: white.trim(), black: black.join(dash).trim() };
  }

  /** Why a player cannot have this name, or "": an address would be read with another. */
  function fault(name) {
    if (name.includes(";")) {
      return "a player's name may have no ;";
    }
    return DASH.test(name) ? "a player's name may have no dash; a hyphen without spaces may stand in it" : "";
  }

  /** The text of which `read` makes these. */
  const written = ({ white, black }) => (black === "" ? white : `${white}–${black}`);

  /** The players of something that was kept, which may have none. */
  function of(kept) {
    const name = (value) => (typeof value === "string" ? value : "");
    return { white: name(kept.white), black: name(kept.black) };
  }

  /** The tags of a game's PGN. */
  const tags = ({ white, black }) => ({ White: white, Black: black });

  return { NONE, read, fault, written, of, tags };
})();
