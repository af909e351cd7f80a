"use strict";
/* A spectator's page: what it follows, and its controls. */
(() => {
  const page = createPage();
  const { at, state } = page;
  const source = Address.source();
  const follower = createFollower({ ...page, state: said, start, renamed, entered: buttons });

  /** Says how the connection is. Where a game was abandoned, the name is offered under which it may go on. */
  function said(name, text) {
    state(name, text);
    if (name === "over" || name === "live") {
      entitle(follower.board());
      at("anew").hidden = page.record().outcome !== "abandoned";
      at("anew").textContent = `Watch ${Names.next(follower.board())}`;
      at("anew").title = "The name of this game if it was reopened";
    }
  }

  function start(record) {
    page.start(record);
    at("anew").hidden = true;
  }

  function entitle(board) {
    const { outcome } = page.record();
    document.title = `${outcome === null ? "" : `${Outcomes.short(outcome)}, `}${board} – Watch a board`;
    at("watched").textContent = board;
  }

  function renamed(board) {
    at("name").value = board;
    entitle(board);
  }

  function buttons() {
    at("stop").hidden = follower.isIdle();
    document.body.classList.toggle("idle", follower.isIdle() && page.record().origin === null);
  }

  function begin(players) {
    const board = at("name").value.trim();
    entitle(board);
    page.named(players);
    at("outcome").hidden = true;
    const server = at("server").value.trim();
    const instead = server === source.server ? source.instead : null;
    follower.begin({ kind: at("kind").value, server, instead, board, from: at("from").value });
  }

  /** The players that the page's address names, where it is its board that is wanted. */
  const given = () => (at("name").value.trim() === Address.get("board") ? Players.read(Address.get("players") || "") : Players.NONE);

  at("source").addEventListener("submit", (event) => {
    event.preventDefault();
    begin(given());
  });
  at("save-pgn").addEventListener("click", () => page.savePgn(follower.board()));
  at("stop").addEventListener("click", () => {
    if (follower.stop()) {
      state("idle", "Not connected");
    }
  });
  at("anew").addEventListener("click", () => {
    at("name").value = Names.next(follower.board());
    begin(page.players());
  });
  at("kind").addEventListener("change", () => {
    at("from").disabled = at("kind").value === "channel";
  });

  /* An address that names a board (address.js) begins at once, with the form folded away; from=present begins at the present. */
  at("kind").value = source.kind;
  at("from").disabled = source.kind === "channel";
  at("server").value = source.server;
  at("from").value = Address.get("from") === "present" ? "present" : "first";
  at("name").value = Address.get("board") || "";
  buttons();
  if (Address.get("board") && at("source").checkValidity()) {
    at("settings").open = false;
    begin(given());
  } else {
    at("name").focus();
  }
})();
