"use strict";
/*
 * The boards of a round for one operator, each in a tab: its page (table.html) is a frame, with a connection of its own and the browser's
 * one key. A frame tells how its board stands (report.js), and the tab shows it, so that no board that wants attention is overlooked.
 *     tables.html?server=ws://HOST:PORT&boards=r1-1,r1-2&starts=518,387&players=A–B;C–D
 */
(() => {
  const at = (id) => document.getElementById(id);
  const server = Address.get("server") || Address.RELAY;
  const OPENING = "sirvandu.opening"; // The address whose boards are to be opened when it is shown first, and not when it is loaded again.
  const LOOKS = 3000; // Milliseconds between two looks for other windows.
  const LOADED = 10000; // Milliseconds behind a frame's loading in which its page tells something.
  const goal = self.origin === "null" ? "*" : self.origin; // Pages from disk have no origin that could be named.
  const tabs = [];

  /* What is said of a board. */

  /** What a board wants: "alarm", "near" or nothing, and else whether it is over, live or none yet. */
  function wants({ state, near, outcome }, before) {
    if (outcome !== null) {
      return "over";
    }
    if (["lost", "refused", "stopped"].includes(state) || (state === "connecting" && before === "alarm")) {
      return "alarm";
    }
    return near !== "" ? "near" : state === "live" ? "live" : "idle";
  }

  function stand({ state, text, near, outcome, turn }) {
    if (outcome !== null) {
      return [...new Set([Outcomes.short(outcome), Outcomes.said(outcome)])].join(": ");
    }
    const whose = turn === null ? "" : `${Words.colour(turn)} to move`;
    return state === "live" ? [whose, near].filter((it) => it !== "").join(". ") : text;
  }

  /** The first sentence or two of that: a tab has little room. */
  const inShort = (text) => text.split(". ").slice(0, 2).join(". ");

  /* The games, as a file. */

  function keep(tab, game) {
    tab.games = [...tab.games.filter((it) => it.id !== game.id), game];
  }

  /** The games of a tab that are shown. One without an end that is not the tab's last was abandoned. */
  function gamesOf(tab) {
    const last = tab.games[tab.games.length - 1];
    const outcome = (it) => (it === last ? it.outcome : it.outcome || "abandoned");
    return Successors.shown(tab.games.map((it) => ({ ...it, plies: it.moves.length, outcome: outcome(it) })));
  }

  /** The games that were open since the page was loaded, in the order of their tabs. */
  const games = () => tabs.flatMap(gamesOf);

  function save() {
    const labels = (it) => ({ ...Address.tags(), ...Players.tags(it.players) });
    const whole = games().map((it) => ({ board: it.board, record: recordOf(it), labels: labels(it) }));
    Saved.pgn("round", Pgn.round(whole));
  }

  /* The whole round in words. */

  function sum() {
    const count = (name) => tabs.filter((it) => it.wants === name).length;
    const alarms = count("alarm");
    const refused = tabs.filter((it) => it.wants === "alarm" && it.told.state === "refused").length;
    const words = [[count("live") + count("near"), "open"], [count("over"), "over"], [alarms - refused, "without connection"],
      [refused, "not open"]];
    const text = words.filter(([number]) => number > 0).map(([number, word]) => `${number} ${word}`).join(", ");
    at("state").dataset.state = alarms > 0 ? "lost" : count("live") + count("near") > 0 ? "live" : "idle";
    at("state").textContent = text || (tabs.length > 0 ? "No board open" : "No boards");
    at("save-round").hidden = games().length === 0;
    entitle();
  }

  /** Names the boards that want attention in the title, those without connection first: the browser's tab shows it. */
  function entitle() {
    const named = (name) => tabs.filter((it) => it.wants === name).map((it) => it.told.name);
    const those = [...named("alarm"), ...named("near")];
    document.title = `${those.length === 0 ? "" : `⚠ ${those.join(", ")} – `}Operate a round`;
  }

  function hear({ source, data }) {
    const tab = tabs.find((it) => it.frame.contentWindow === source);
    if (tab && data && data.board) {
      tab.told = data.board;
      tab.name.textContent = tab.told.name;
      tab.frame.title = tab.told.name;
      tab.button.title = stand(tab.told);
      tab.stand.textContent = inShort(tab.button.title);
      tab.wants = wants(tab.told, tab.wants);
      tab.button.dataset.wants = tab.wants;
      if (tab.told.game !== null) {
        tab.players.textContent = Players.written(tab.told.game.players);
        keep(tab, tab.told.game);
      }
      sum();
      giveTurns();
    }
  }

  /* The turns. The boards of the form are opened in the order of the list, each once those before it were answered. */

  /** Whether a board was opened or refused, or gets no answer, so that those behind it go on without it. */
  const isAnswered = ({ told }) => told !== null && !told.waits && (told.isUnanswered || !["connecting", "lost"].includes(told.state));

  function giveTurns() {
    tabs.forEach((it) => { it.isDone = it.isDone || isAnswered(it); });
    const first = tabs.findIndex((it) => !it.isDone);
    tabs.filter(({ told, isDone }, index) => told !== null && told.waits && (isDone || index === first)).forEach(({ frame }) => {
      frame.contentWindow.postMessage({ open: true }, goal);
    });
  }

  /** A frame was loaded. What is there may be another page, of an error. */
  function loaded(tab) {
    setTimeout(() => {
      tab.isDone = tab.isDone || tab.told === null;
      giveTurns();
    }, LOADED);
  }

  /* Other windows. */

  const wrong = Address.fault();

  /** Says what is wrong with the address, and that another window of the browser operates other boards of the relay. */
  async function warn() {
    const own = tabs.map((it) => Names.first(it.name.textContent));
    const others = (await Claim.boards(server)).filter((it) => !own.includes(it));
    const words = [
      wrong,
      others.length === 0 ? "" : `Another window of this browser operates boards of this relay: ${others.join(", ")}. `
        + "Keep all boards in one window.",
    ].filter((it) => it !== "").join(" ");
    at("said").hidden = words === "";
    if (at("said").textContent !== words) {
      at("said").textContent = words;
    }
  }

  /* The tabs. */

  function show(tab) {
    tabs.forEach((it) => {
      const isShown = it === tab;
      it.panel.classList.toggle("shown", isShown);
      it.button.setAttribute("aria-selected", String(isShown));
      it.button.tabIndex = isShown ? 0 : -1;
    });
  }

  const STEPS = { ArrowLeft: -1, ArrowRight: 1, Home: -Infinity, End: Infinity };

  function key(event) {
    const step = STEPS[event.key];
    if (step !== undefined) {
      const index = tabs.findIndex((it) => it.button === event.currentTarget);
      const tab = tabs[Math.max(0, Math.min(tabs.length - 1, index + step))];
      event.preventDefault();
      show(tab);
      tab.button.focus();
    }
  }

  function make(tag, className, text) {
    const it = document.createElement(tag);
    it.className = className;
    it.textContent = text;
    return it;
  }

  function add({ name, players }, start, opens) {
    const button = make("button", "tab", "");
    const panel = make("div", "", "");
    const frame = document.createElement("iframe");
    const names = make("span", "players", Players.written(players));
    const words = { name: make("b", "", name), players: names, stand: make("span", "stand", "") };
    const tab = { button, panel, frame, ...words, told: null, wants: "", games: [], isDone: false };
    button.type = "button";
    button.id = `tab-${tabs.length}`;
    panel.id = `board-${tabs.length}`;
    button.setAttribute("role", "tab");
    button.setAttribute("aria-controls", panel.id);
    panel.setAttribute("role", "tabpanel");
    panel.setAttribute("aria-labelledby", button.id);
    button.append(tab.name, tab.players, tab.stand);
    button.addEventListener("click", () => show(tab));
    button.addEventListener("keydown", key);
    tab.frame.title = name;
    tab.frame.addEventListener("load", () => loaded(tab));
    tab.frame.src = Address.link("table.html", {
      server, board: name, start, players: Lines.players([{ players }]), ...Address.ofEvent(), open: opens ? "turn" : null,
    });
    tabs.push(tab);
    at("tabs").append(button);
    panel.append(tab.frame);
    at("frames").append(panel);
  }

  /* The form. It makes the address that shows the boards; when it is shown first they are opened. */

  const lines = () => Lines.read(at("lines").value);

  function submit(event) {
    event.preventDefault();
    const wanted = lines();
    const address = Address.link(location.pathname, {
      server: at("server").value.trim(),
      boards: wanted.map((it) => it.name).join(","),
      starts: wanted.map((it) => (it.start === null ? Number(at("start").value) : it.start)).join(","),
      players: Lines.players(wanted),
      event: at("event").value.trim() || null,
      round: at("round").value.trim() || null,
    });
    sessionStorage.setItem(OPENING, new URL(address, location.href).search);
    location.assign(address);
  }

  /** Whether the boards were asked for by the form just now. */
  function isAsked() {
    const asked = sessionStorage.getItem(OPENING);
    sessionStorage.removeItem(OPENING);
    return asked !== null && asked === location.search;
  }

  function fill() {
    const boards = Address.boards();
    const starts = (Address.get("starts") || "").split(",");
    const opens = isAsked();
    boards.forEach((board, index) => add(board, starts[index] || "518", opens));
    at("server").value = server;
    ["event", "round"].forEach((it) => { at(it).value = Address.get(it) || ""; });
    const line = (it, index) => `${it.name} ${starts[index] || ""} ${Players.written(it.players)}`.replace(/ +/g, " ").trim();
    at("lines").value = boards.map(line).join("\n");
    at("settings").open = boards.length === 0;
    at("watch").hidden = boards.length === 0 || Address.IS_OF_SITE; // A site's spectators have its channels, at another address.
    at("watch").href = Address.link("round.html", {
      server, boards: boards.map((it) => it.name).join(","), players: Lines.players(boards), ...Address.ofEvent(),
    });
    if (tabs.length > 0) {
      show(tabs[0]);
    }
    sum();
  }

  addEventListener("message", hear);
  at("lines").addEventListener("input", () => at("lines").setCustomValidity(Lines.fault(lines())));
  at("source").addEventListener("submit", submit);
  at("save-round").addEventListener("click", save);
  fill();
  setInterval(warn, LOOKS);
  warn();
})();
