"use strict";
/* The page of a board's operator: the board and its operator (operator.js), the endings, the games that the browser keeps, its controls. */
(() => {
  const page = createPage({
    chosen: (from, to) => entry.play(Position.nameOf(from) + Position.nameOf(to)),
    goals: (position, square) => Rules.from(position, square).map((it) => Position.parts(it).to),
    browsed,
  });
  const { at } = page;
  const isAlone = () => at("alone").checked;
  const kept = (board) => Kept.going(board, server());
  const operator = createOperator({ ...page, state, begin, say, keep, opened, over, offer, kept, entered: controls, server, isAlone });
  const questions = createQuestions(at);
  const start = createStart(page);
  const report = createReport(stand, takeTurn);
  const submit = (move) => operator.enter({ cmd: "submit", move });
  const entry = createEntry({ page, questions, ready: operator.isReady, game: operator.game, say, submit });
  const anew = createAnew({
    at,
    back: operator.back,
    open: (board, { start: from, players, moves }, count) =>
      operator.open({ board, start: from, players, anew: true }, moves.slice(0, count)),
  });

  let waits = Address.get("open") === "turn"; // Whether the board is opened once it is its turn.
  let proposed = null; // The name that stands in the field behind an end.

  page.usableWhen(operator.isReady);

  /* What the operator shows. */

  function begin({ id, start: from, players }, plies) {
    Kept.here(id);
    page.named(players);
    page.start(recordOf({ start: from, moves: plies }));
  }

  function say(text) {
    at("said").hidden = text === "";
    at("said").textContent = text;
  }

  function server() {
    return at("server").value.trim();
  }

  /* What the title says, and whether the board needs its operator. That is heard, too, where it lasts. */
  const LASTS = 3; // Seconds.
  const title = { text: "", isAlarm: false, timer: null };

  function entitle(text = title.text) {
    title.text = text;
    const words = [text, "Operate a board"].filter((it) => it !== "").join(" – ");
    document.title = title.isAlarm ? `⚠ ${words}` : words;
  }

  /** Says how the connection is. */
  function state(name, text) {
    const isTrying = name === "connecting"; // What was lost is so until it is back.
    const isAlarm = isTrying ? title.isAlarm : ["lost", "refused", "stopped"].includes(name) && operator.game() !== null;
    page.state(name, text);
    if (isAlarm !== title.isAlarm) {
      clearTimeout(title.timer);
      title.isAlarm = isAlarm;
      title.timer = isAlarm ? setTimeout(page.alarm, 1000 * LASTS) : null;
      entitle();
    }
  }

  function opened() {
    entitle(operator.game().board);
  }

  function over() {
    const { board, outcome } = operator.game();
    ["white", "black"].forEach((it) => { at(it).value = ""; });
    at("name").value = proposed = Names.another(board); // A name is given once, and the next one is that of a successor.
    entitle(`${Outcomes.short(outcome)}, ${board}`);
  }

  /* The games that the browser keeps. */

  const now = () => new Date().toISOString();

  function keep() {
    Kept.keep({ ...operator.game(), moves: operator.moves(), server: server(), tags: Address.tags(), saved: now() });
    anew.list();
  }

  function offer(moves) {
    anew.offer({ ...operator.game(), moves, saved: now() });
  }

  /** Shows the result that the page had before it was loaded again, or offers the last game without an end. */
  function restore() {
    const ended = Address.has("open") ? null : Kept.ended(at("name").value, server());
    if (ended === null) {
      anew.offerLast(at("name").value);
    } else {
      operator.show(ended);
      at("kept").value = ended.id;
      anew.offer(ended);
    }
  }

  function save() {
    const game = operator.game();
    Saved.file(`${game.board}.record`, RecordFile.write({ ...game, moves: operator.allMoves() }), "application/jsonl");
  }

  /* Endings. */

  /** Sends an ending once the operator has confirmed it, unless the game is another by then. */
  async function confirmed(words, command, correct) {
    const before = operator.game();
    if (!await questions.sure(words)) {
      return;
    }
    if (operator.game() !== before || !operator.enter(command, correct)) {
      say("The connection was lost in the meantime. Nothing was entered.");
    }
  }

  function end(button) {
    const { command, ...words } = questions.ending(button, page.record().present().turn);
    confirmed(words, command);
  }

  /** The number of moves up to the position that is shown. */
  const shownMoves = () => page.cursor() + 1;

  /** Ends the game and reopens it under the next name, with the moves up to the position that is shown. */
  function correct() {
    const moves = operator.moves();
    const kept = moves.slice(0, shownMoves());
    const words = questions.correction(operator.game(), kept.length, moves.length - kept.length);
    confirmed(words, { cmd: "end", how: "abandoned" }, kept);
  }

  /** Plays a game that is over again under its next name, with another result. */
  async function correctResult() {
    const before = operator.game();
    const command = await questions.result(before);
    if (command !== null && operator.game() === before) {
      operator.correctResult(command);
    }
  }

  /* Controls. */

  /** The game for a page that saves a whole round, or null where there is none: its board is not open, and nothing was played. */
  function saved() {
    const { outcome } = page.record();
    const moves = operator.allMoves();
    const isOne = operator.isOpen() || moves.length > 0 || outcome !== null;
    return isOne ? { ...operator.game(), moves, outcome } : null;
  }

  /** How the board stands, for a page that has this one in a tab. */
  function stand() {
    const { origin, outcome } = page.record();
    const holder = at("state");
    const turn = origin !== null && outcome === null ? page.record().present().turn : null;
    const game = operator.game();
    const name = game ? game.board : at("name").value;
    return { name, state: holder.dataset.state, text: holder.textContent, near: at("near").textContent, outcome, turn, game: saved(), waits,
      isUnanswered: operator.isUnanswered() };
  }

  /** A game is corrected from an earlier position, to which the operator has gone back. */
  function browsed() {
    at("correct").hidden = !operator.isOpen() || shownMoves() === operator.moves().length;
    report();
  }

  /** The link that spectators need. A site's spectators have its channels, at another address. */
  function spectators() {
    const game = operator.game();
    at("watch").hidden = game === null || Address.IS_OF_SITE;
    const source = server() === Address.RELAY ? null : server();
    at("watch").href = game === null
      ? ""
      : Address.link("watch.html", { server: source, board: game.board, players: Players.written(game.players) || null,
        ...Address.ofEvent() });
  }

  function controls() {
    const busy = !operator.isIdle();
    const isOpen = operator.isOpen();
    document.body.classList.toggle("idle", operator.game() === null);
    at("opening").hidden = busy;
    anew.show(!busy);
    at("alone-card").hidden = !busy;
    at("give-up").hidden = !busy || isOpen;
    at("ending").hidden = !isOpen;
    at("correct-result").hidden = !operator.isCorrectable();
    at("ending").querySelectorAll("button").forEach((it) => it.setAttribute("aria-disabled", String(!operator.isReady())));
    at("save").hidden = operator.game() === null;
    at("typed").hidden = !isOpen;
    at("anyway").hidden = operator.doubted() === null;
    at("anyway").textContent = operator.doubted() || "";
    entry.freed();
    spectators();
    browsed();
  }

  at("opening").addEventListener("submit", (event) => {
    event.preventDefault();
    const players = { white: at("white").value.trim(), black: at("black").value.trim() };
    const board = at("name").value.trim();
    operator.open({ board, start: Number(at("start").value), players, anew: board === proposed, isAnother: board === proposed }, []);
  });
  ["white", "black"].forEach((it) => at(it).addEventListener("input", () => at(it).setCustomValidity(Players.fault(at(it).value))));
  at("ending").addEventListener("click", (event) => {
    const button = event.target.closest("button");
    if (button && operator.isReady()) {
      end(button);
    }
  });
  at("give-up").addEventListener("click", () => {
    if (operator.stop()) {
      state("idle", "No board open");
    }
  });
  at("anyway").addEventListener("click", operator.anyway);
  at("correct").addEventListener("click", () => operator.isReady() && correct());
  at("correct-result").addEventListener("click", () => operator.isCorrectable() && correctResult());
  at("save").addEventListener("click", save);
  at("save-pgn").addEventListener("click", () => page.savePgn(operator.game().board));
  window.addEventListener("beforeunload", (event) => {
    if (operator.isOpen()) {
      event.preventDefault();
    }
  });

  /** Opens the board that the address names. */
  function openNamed() {
    if (at("opening").checkValidity()) {
      at("opening").requestSubmit();
    }
  }

  /** It is the board's turn, unless the operator has done something here before. */
  function takeTurn() {
    waits = false;
    if (operator.game() === null) {
      openNamed();
    }
    report();
  }

  /* table.html?server=ws://HOST:PORT&board=NAME&start=N&players=A–B fills the fields in; with &open it opens the board, with &open=turn
   * once the page of tabs says so. */
  at("server").value = Address.get("server") || at("server").value;
  at("name").value = Address.get("board") || "";
  at("start").value = Address.get("start") || at("start").value;
  const players = Players.read(Address.get("players") || "");
  at("white").value = players.white;
  at("black").value = players.black;
  page.named(players);
  start.show();
  anew.list();
  restore();
  controls();
  if (waits) {
    state("idle", "Opens after the boards before it");
  } else if (Address.has("open")) {
    openNamed();
  }
})();
