"use strict";
/* What both pages show of a game: the board, whose turn it is, the moves, what is new, the outcome, and words for a screen reader. */
const createPage = ({ browsed = () => {}, ...hand } = {}) => {
  const at = (id) => document.getElementById(id);
  const board = createBoard(at("board"), hand);
  const page = {
    record: createRecord(), players: Players.NONE, origin: null, told: 0, timer: null, seen: 0, missed: 0, usable: () => false,
  };
  const moves = createMoves(at("moves"), { shown });
  const sounds = createSounds(at);

  /** The position under the cursor, and the move that led to it. */
  function current() {
    const index = moves.cursor();
    if (index < 0) {
      return { position: page.record.origin.position, deed: null };
    }
    const ply = page.record.plies[index];
    return { position: ply.after, deed: ply.gap ? null : ply.deed };
  }

  function plate(holder, colour, position) {
    const turn = position !== null && page.record.outcome === null && position.turn === colour;
    const name = document.createElement("span");
    const side = colour === Position.WHITE ? "white" : "black";
    name.className = `side ${side}`;
    name.textContent = page.players[side] || Words.colour(colour);
    holder.classList.toggle("turn", turn);
    holder.replaceChildren(name);
    if (turn) {
      const words = document.createElement("span");
      words.textContent = Position.inCheck(position) ? "to move, in check" : "to move";
      holder.append(words);
    }
  }

  function plates(position) {
    const white = board.whiteBelow();
    plate(at("upper"), white ? Position.BLACK : Position.WHITE, position);
    plate(at("lower"), white ? Position.WHITE : Position.BLACK, position);
  }

  function inWords(position) {
    at("words").replaceChildren(...Words.placement(position).map((it) => {
      const line = document.createElement("p");
      line.textContent = it;
      return line;
    }));
    at("fen").value = Position.write(position);
  }

  function outcome() {
    const text = page.record.outcome;
    const holder = at("outcome");
    holder.hidden = text === null;
    if (text !== null) {
      holder.dataset.outcome = text;
      holder.querySelector("b").textContent = Outcomes.score(text);
      holder.querySelector("span").textContent = Outcomes.said(text);
    }
  }

  /** Says with which start the game began, where that is known. */
  function began() {
    const { origin } = page.record;
    if (origin !== page.origin) {
      page.origin = origin;
      const number = origin && Position.startNumber(origin.position);
      at("began").hidden = number === null;
      at("began").textContent = `Start number ${number}`;
    }
  }

  /** Says which draws come near. */
  function near() {
    const { origin, outcome: ended } = page.record;
    const words = origin && ended === null ? Words.near(Draws.of(page.record)) : [];
    at("near").hidden = words.length === 0;
    at("near").textContent = words.join(" ");
  }

  /** Says how many moves came while an earlier position was looked at. */
  function newer() {
    page.missed = moves.live() ? 0 : page.missed;
    at("newer").hidden = page.missed === 0;
    at("newer").textContent = `${page.missed} new ${page.missed === 1 ? "move" : "moves"} »`;
  }

  function draw(moving) {
    if (!page.record.origin) {
      plates(null);
      return;
    }
    const { position, deed } = current();
    board.show(position, deed, moving);
    board.use(moves.live() && page.usable());
    board.name(`Board, ${Words.colour(position.turn)} to move`);
    plates(position);
    inWords(position);
  }

  /** Says for a screen reader what is new: the last move, and how many others came with it. */
  function speak() {
    const plies = page.record.plies.filter((it) => !it.gap);
    const fresh = plies.length - page.told;
    page.told = plies.length;
    const words = [];
    if (fresh > 1) {
      words.push(`${fresh} moves, the last:`);
    }
    if (fresh > 0) {
      const ply = plies[plies.length - 1];
      words.push(`${Words.spoken(ply.deed, ply.check)}.`);
    }
    if (page.record.outcome !== null) {
      words.push(Outcomes.said(page.record.outcome));
    }
    if (words.length > 0) {
      at("spoken").textContent = words.join(" ");
    }
  }

  /** The cursor was moved: shows the position there, and says for a screen reader which it is. */
  function shown(index) {
    draw(true);
    const ply = page.record.plies[index];
    const words = ply ? moves.words(index) : "The start position";
    newer();
    at("spoken").textContent = `${words}${moves.live() ? ". This is the current position." : "."}`;
    browsed();
  }

  /** Shows the record as it is now. Texts that come together are shown together. */
  function refresh() {
    clearTimeout(page.timer);
    page.timer = setTimeout(() => {
      moves.update(page.record);
      const one = page.record.plies.length === page.seen + 1;
      page.missed += Math.max(0, page.record.plies.length - page.seen);
      page.seen = page.record.plies.length;
      draw(one && moves.live());
      outcome();
      began();
      near();
      newer();
      at("save-pgn").hidden = page.record.origin === null;
      speak();
      sounds.hear(page.record);
      browsed();
    }, 0);
  }

  /** Puts a record that has all of the one shown in its place. */
  function goOn(record) {
    page.record = record;
    refresh();
  }

  /** Puts another record in place of the one shown. */
  function start(record) {
    page.record = record;
    page.told = 0;
    page.seen = 0;
    page.missed = 0;
    sounds.start();
    moves.update(createRecord());
    board.show(null);
    board.name("Board");
    at("words").replaceChildren();
    at("fen").value = "";
    at("spoken").textContent = "";
    refresh();
  }

  /** Names the players of the game that is shown. */
  function named(players) {
    page.players = players;
    draw(false);
  }

  function state(name, text) {
    const holder = at("state");
    holder.dataset.state = name;
    if (holder.textContent !== text) {
      holder.textContent = text;
    }
  }

  /** Saves the game that is shown, under the name of its board. */
  function savePgn(name) {
    Saved.pgn(name, Pgn.write(name, page.record, { ...Address.tags(), ...Players.tags(page.players) }));
  }

  /** Adds a line to what happened. */
  function notice(text) {
    const line = document.createElement("li");
    const time = document.createElement("time");
    time.textContent = new Date().toLocaleTimeString([], { hour: "2-digit", minute: "2-digit", second: "2-digit" });
    line.append(time, ` ${text}`);
    at("notices-card").hidden = false;
    at("notices").prepend(line);
    while (at("notices").children.length > 50) {
      at("notices").lastElementChild.remove();
    }
  }

  const turn = () => {
    board.flip();
    draw(false);
  };
  const acts = { first: moves.first, back: moves.back, on: moves.on, last: moves.last, newer: moves.last, flip: turn };
  Object.entries(acts).forEach(([id, act]) => at(id).addEventListener("click", () => (id === "flip" || page.record.origin) && act()));

  /* No letter is among them: who dictates or leans on a key would turn the board unawares. */
  const KEYS = { ArrowLeft: "back", ArrowRight: "on", Home: "first", End: "last" };
  document.addEventListener("keydown", (event) => {
    const typing = event.target.closest("input:not([type=checkbox]), select, textarea, dialog");
    const act = KEYS[event.key];
    if (act && !typing && !event.ctrlKey && !event.altKey && !event.metaKey && !event.shiftKey) {
      event.preventDefault();
      at(act).click();
    }
  });

  at("long").checked = Settings.isOn("long");
  moves.write(at("long").checked);
  at("long").addEventListener("change", () => {
    Settings.set("long", at("long").checked);
    moves.write(at("long").checked);
  });

  draw(false);
  return {
    at, board, start, goOn, named, refresh, state, notice, savePgn, alarm: sounds.alarm,
    redraw: () => draw(false), record: () => page.record, players: () => page.players, cursor: moves.cursor,
    usableWhen: (test) => { page.usable = test; },
  };
};
