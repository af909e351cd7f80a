"use strict";
/*
 * The form for a game that the page has no longer: one of those that this browser kept, or of a record's file. `back(game)` goes on with it
 * under its name, `open(board, game, count)` reopens it under this name with so many of its moves.
 */
const createAnew = ({ at, back, open }) => {
  /* The game that is offered: { board, start, players, moves, outcome }, and its `id` and the date when it was `saved` if it was kept. */
  let chosen = null;
  let isShown = true;

  const day = (saved) => new Date(saved).toLocaleString([], { dateStyle: "short", timeStyle: "short" });

  function list() {
    const options = Kept.all().map((game) => {
      const it = document.createElement("option");
      it.value = game.id;
      const players = Players.written(game.players);
      const words = [game.board, players, `start ${game.start}`, `${game.moves.length} moves`, day(game.saved), game.outcome];
      it.textContent = words.filter(Boolean).join(", ");
      return it;
    });
    const none = document.createElement("option");
    none.value = "";
    none.textContent = options.length > 0 ? "choose one" : "none yet";
    at("kept").replaceChildren(none, ...options);
    interrupted();
  }

  /** Whether the game that is offered has no end, also not since it was offered. */
  const isInterrupted = () => chosen !== null && !chosen.outcome && !Kept.all().some((it) => it.id === chosen.id && it.outcome);

  /** Shows a game that has no end at the head of the page, so that it is not overlooked. */
  function interrupted() {
    const isOne = isShown && isInterrupted();
    at("going-on").hidden = !isOne;
    if (isOne) {
      const { board, players, moves, saved } = chosen;
      const count = moves.length === 1 ? "1 move" : `${moves.length} moves`;
      const words = [board, Players.written(players), count, saved ? `saved ${day(saved)}` : ""];
      at("interrupted").textContent = `Not finished: ${words.filter(Boolean).join(", ")}.`;
      at("go-on").textContent = `Continue ${board}`;
    }
  }

  /** Shows what can be resumed, or hides it while a game is played. */
  function show(isIdle) {
    isShown = isIdle;
    at("anew").hidden = !isIdle;
    interrupted();
  }

  /** Offers a game, or says why there is none: { fault }. */
  function offer(offered) {
    chosen = offered.fault ? null : offered;
    at("kept-pgn").hidden = chosen === null;
    interrupted();
    if (offered.fault) {
      at("anew-said").textContent = offered.fault;
      return;
    }
    at("new-name").value = Names.next(offered.board);
    at("count").max = offered.moves.length;
    at("count").value = offered.moves.length;
    const outcome = offered.outcome && offered.outcome !== "abandoned" ? ` It ended: ${Outcomes.said(offered.outcome)}` : "";
    at("anew-said").textContent = `${offered.board}: start ${offered.start}, ${offered.moves.length} moves.${outcome}`;
  }

  /**
   * Offers the last game that has no end, so that it is not overlooked when the page was loaded again: of this board if one is named, also
   * where it goes on under a next name.
   */
  function offerLast(board) {
    const last = Kept.all().find((it) => !it.outcome && (board === "" || Names.isOf(it.board, board)));
    if (last) {
      at("kept").value = last.id;
      offer(last);
    }
  }

  async function readFile() {
    const file = at("file").files[0];
    if (!file) {
      return;
    }
    at("kept").value = "";
    const read = await file.text().then(RecordFile.read, () => ({ fault: "This file cannot be read." }));
    if (at("file").files[0] === file) {
      offer(read);
    }
  }

  function choose() {
    const kept = Kept.all().find((it) => it.id === at("kept").value);
    if (kept) {
      at("file").value = "";
      offer(kept);
    }
  }

  function submit() {
    if (chosen && at("new-name").value !== "") {
      open(at("new-name").value.trim(), chosen, Number(at("count").value));
    } else {
      at("anew-said").textContent = "Choose a saved game or a record file first.";
    }
  }

  /** Saves the game that is offered as PGN, with the day on which it was kept. */
  function savePgn() {
    const { board, players, saved, tags = {} } = chosen;
    Saved.pgn(board, Pgn.write(board, recordOf(chosen), { ...tags, ...Players.tags(players) }, new Date(saved)));
  }

  at("kept").addEventListener("change", choose);
  at("file").addEventListener("change", readFile);
  at("go-on").addEventListener("click", () => back(chosen));
  at("kept-pgn").addEventListener("click", savePgn);
  at("anew").addEventListener("submit", (event) => {
    event.preventDefault();
    submit();
  });

  return { list, offer, offerLast, show };
};
