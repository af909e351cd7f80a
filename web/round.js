"use strict";
/*
 * The boards of a round on one page. Where the page's address says which (address.js), each has a follower of its own. Else they come from
 * the list of boards, on one connection: all that there are, and each that is opened. With &hall it is for a projector: it has no control,
 * and the boards fill the screen.
 */
(() => {
  const at = (id) => document.getElementById(id);
  const isHall = Address.has("hall");
  const source = Address.source();
  const boards = Address.boards();
  const isListed = boards.length === 0;
  const named = isListed ? Address.named() : boards;
  const link = { name: "live", text: "", short: "" }; // How the connection of the list is.
  let tiles = [];
  let tileCount = named.length; // Of the places, a tile each.

  const GAP = 8; // Pixels between tiles, as in round.css.
  const TALL = isHall ? 1.375 : 1.42; // How many times as high as wide a tile is, at most; round.css has its height.
  const LEAST = 136; // Pixels: a narrower tile cannot be read at arm's length. A hall has no bound.
  const MOST = 400;
  const LOOKED = 8; // Seconds for which a tile has to be in sight until what is new on it counts as seen.

  /* The room. */

  /** The number of columns, and the width of a tile, at which all tiles are in sight and as large as the room allows. */
  function fitting(count, width, height) {
    let best = { columns: 1, tile: 0 };
    for (let columns = 1; columns <= count; columns += 1) {
      const rows = Math.ceil(count / columns);
      const tile = Math.min((width - GAP * (columns - 1)) / columns, (height - GAP * (rows - 1)) / rows / TALL);
      best = tile > best.tile ? { columns, tile } : best;
    }
    return best;
  }

  /** Where tiles would be too small in sight all together, the page is scrolled. */
  function scrolling(width) {
    const columns = Math.max(1, Math.floor((width + GAP) / (LEAST + GAP)));
    return { columns, tile: (width - GAP * (columns - 1)) / columns };
  }

  function layOut() {
    const holder = at("boards");
    const width = holder.clientWidth;
    const height = innerHeight - (isHall ? 2 * GAP : holder.getBoundingClientRect().top + scrollY + GAP);
    const fit = fitting(tileCount, width, height);
    const { columns, tile } = isHall || fit.tile >= LEAST ? fit : scrolling(width);
    holder.style.setProperty("--columns", columns);
    holder.style.setProperty("--tile", `${Math.floor(isHall ? tile : Math.min(MOST, tile))}px`);
  }

  /* What is new since the visitor looked last. */

  const keyOf = (tile) => `${source.server} ${tile.name()}`;

  /** What is new on a tile, in words, or "" where nothing is. A board that was never looked at has nothing new. */
  function fresh(tile) {
    const seen = Seen.of(keyOf(tile));
    const { next, outcome } = tile.record();
    if (seen === null || (next === seen.next && (outcome === null || seen.isOver))) {
      return "";
    }
    const count = next > seen.next ? next - seen.next : next;
    return next === seen.next || count === 0 ? "new" : `${count} new`;
  }

  function look(tile) {
    const { origin, next, outcome } = tile.record();
    if (origin !== null) {
      Seen.keep(keyOf(tile), { next, isOver: outcome !== null });
      tile.mark("");
    }
  }

  /** Watches over what is seen of a tile: what was in sight for some seconds, or was pointed at. */
  function watchOver(tile) {
    const it = { isInSight: false, timer: null, settled: null };
    const isNew = () => Seen.of(keyOf(tile)) === null || fresh(tile) !== "";
    const act = () => {
      it.timer = null;
      look(tile);
    };
    /* A follower that has just come gets a game's moves one by one, and these are not new one by one. */
    const settle = () => {
      it.settled = null;
      tile.mark(fresh(tile));
      wait();
    };
    function wait() {
      const isSeen = it.isInSight && document.visibilityState === "visible";
      if (!isSeen || !isNew()) {
        clearTimeout(it.timer);
        it.timer = null;
      } else if (it.timer === null) {
        it.timer = setTimeout(act, 1000 * LOOKED);
      }
    }
    ["pointerenter", "focusin", "click"].forEach((event) => tile.element.addEventListener(event, act));
    document.addEventListener("visibilitychange", wait);
    return {
      drawn: () => { it.settled = it.settled || setTimeout(settle, 250); },
      sighted: (isInSight) => {
        it.isInSight = isInSight;
        wait();
      },
    };
  }

  const watches = new Map();
  const noteSight = (entries) => entries.forEach((it) => watches.get(it.target).sighted(it.isIntersecting));
  const sight = new IntersectionObserver(noteSight, { threshold: 0.6 });

  /* The whole round: in words, and as a file. */

  /** The games of the boards that are open or were, in their order. */
  const games = () => tiles.map((it) => it.game()).filter(({ record }) => record.origin !== null);

  function say(state, text) {
    at("state").dataset.state = state;
    if (at("state").textContent !== text) {
      at("state").textContent = text;
    }
  }

  function sum() {
    const those = (test) => tiles.filter(test).length;
    const over = those((it) => it.record().outcome !== null);
    const live = those((it) => it.record().outcome === null && it.stateName() === "live");
    const rest = tiles.length - over - live;
    const words = [[live, "live"], [over, "over"], [rest, "waiting"]]
      .filter(([number]) => number > 0).map(([number, word]) => `${number} ${word}`);
    if (link.name !== "live") {
      say(link.name, link.text);
    } else if (tiles.length === 0) {
      say("connecting", "No boards yet");
    } else {
      say(live > 0 ? "live" : rest > 0 ? "connecting" : "over", words.join(", "));
    }
    at("none").hidden = !isHall || tiles.length > 0;
    at("none").textContent = at("state").textContent;
    at("save-round").hidden = games().length === 0;
  }

  const save = () => Saved.pgn("round", Pgn.round(games()));

  /** Saves the games of the list, of which the page has no more than the last moves: it asks for them first. */
  function saveListed() {
    const open = tiles.filter((it) => it.told() !== null);
    at("save-round").disabled = true;
    Gather.games(source, open.map((it) => it.told()), (records) => {
      at("save-round").disabled = false;
      const whole = open.map((it, index) => it.game(records[index])).filter(({ record }) => record !== null);
      const missing = open.filter((_, index) => records[index] === null).map((it) => it.name());
      warn(missing.length === 0 ? "" : `Not saved, since their moves did not come: ${missing.join(", ")}.`);
      if (whole.length > 0) {
        Saved.pgn("round", Pgn.round(whole));
      }
    });
  }

  /* The boards. */

  function make({ name, players }) {
    const href = (board) => (isHall ? null : Address.ofBoard(board, players));
    const shown = () => {
      const watch = tile && watches.get(tile.element);
      if (watch) {
        watch.drawn();
        sum();
      }
    };
    let tile = null;
    tile = createTile({ name, players, href, shown });
    watches.set(tile.element, watchOver(tile));
    sight.observe(tile.element);
    return tile;
  }

  function remove(tile) {
    watches.get(tile.element).sighted(false);
    watches.delete(tile.element);
    sight.unobserve(tile.element);
    tile.element.remove();
  }

  /** Adds the boards that are followed, each in a task of its own, so that the page answers in between. */
  function addAll([first, ...others]) {
    if (first) {
      const tile = make(first);
      tiles.push(tile);
      at("boards").append(tile.element);
      createFollower(tile).begin({ ...source, board: first.name, from: "first", isPatient: true });
      setTimeout(() => addAll(others), 0);
    }
  }

  /* The boards of the list. */

  const list = createList({ listed: () => Frames.soon(place), told, state: linked });

  /** How a tile of the list stands, as the list has its connection. */
  function stand(tile) {
    if (tile.record().outcome !== null) {
      tile.state("over", "The game is over", "Over");
    } else if (tile.told() === null && link.name === "live") {
      tile.state("refused", "This board is not open yet.", "Not open yet");
    } else {
      tile.state(link.name, link.text, link.short);
    }
  }

  function linked(name, text, short) {
    if (name !== link.name || text !== link.text) {
      Object.assign(link, { name, text, short });
      tiles.forEach(stand);
      sum();
    }
  }

  /** The game of a tile is gone: all moves of another one under its name are new. */
  function forget(tile) {
    if (Seen.of(keyOf(tile)) !== null) {
      Seen.keep(keyOf(tile), { next: 0, isOver: false });
    }
  }

  /** Shows a text of the list on its tile. */
  function tell(tile, text) {
    const before = tile.told();
    if (before !== null && (text === null || !Summary.goesOn(text, before))) {
      forget(tile);
    }
    tile.tell(text);
    stand(tile);
  }

  /** One board has a new text. Where that moves no board to another place, its tile alone changes. */
  function told(text) {
    const tile = tiles.find((it) => it.name() === text.board);
    if (tile && tile.told() !== null && text.outcome === null && Summary.goesOn(text, tile.told())) {
      tell(tile, text);
    } else {
      Frames.soon(place);
    }
  }

  /** Shows these tiles in this order, and no others. */
  function order(wanted) {
    const holder = at("boards");
    const gone = tiles.filter((it) => !wanted.includes(it));
    gone.filter((it) => !list.texts().has(it.name())).forEach(forget);
    gone.forEach(remove);
    tiles = wanted;
    tiles.forEach(({ element }, index) => {
      if (holder.children[index] !== element) {
        holder.insertBefore(element, holder.children[index] || null);
      }
    });
  }

  /** Sees to it that each place of the round has its tile. One is made at a time, so that the page answers in between. */
  function place() {
    const places = Places.of(list.texts(), named);
    const had = new Map(tiles.map((it) => [it.name(), it]));
    places.forEach(({ name, text }) => had.has(name) && had.get(name).told() !== text && tell(had.get(name), text));
    const missing = places.find((it) => !had.has(it.name));
    if (missing) {
      had.set(missing.name, make(missing));
      tell(had.get(missing.name), missing.text);
    }
    order(places.filter((it) => had.has(it.name)).map((it) => had.get(it.name)));
    if (tileCount !== places.length) {
      tileCount = places.length;
      layOut();
    }
    sum();
    if (tiles.length < places.length) {
      Frames.soon(place);
    }
  }

  /** Says what went wrong, or "" for nothing. */
  function warn(text) {
    at("said").hidden = text === "";
    at("said").textContent = text;
  }

  /* The form. It makes the address that shows the boards, to keep and to hand on. */

  const lines = () => Lines.read(at("lines").value);

  function check() {
    at("lines").setCustomValidity(Lines.fault(lines()));
  }

  function submit(event) {
    event.preventDefault();
    const wanted = lines();
    const isEvery = at("every").checked || wanted.length === 0;
    location.assign(Address.link(location.pathname, {
      ...Address.keysOf(at("kind").value, at("server").value.trim()),
      boards: isEvery ? null : wanted.map((it) => it.name).join(","),
      players: isEvery ? Lines.named(wanted) : Lines.players(wanted),
      ...Address.ofEvent(),
      hall: at("hall").checked ? "" : null,
    }));
  }

  function fill() {
    at("server").value = source.server;
    at("kind").value = source.kind;
    at("hall").checked = isHall;
    at("every").checked = isListed && named.length > 0;
    at("lines").value = named.map((it) => `${it.name} ${Players.written(it.players)}`.trim()).join("\n");
    at("settings").open = isListed && !Address.saysSource() && !Address.IS_OF_SITE; // A site's front is its round.
  }

  document.body.classList.toggle("hall", isHall);
  warn(Address.fault());
  fill();
  at("lines").addEventListener("input", check);
  at("source").addEventListener("submit", submit);
  at("save-round").addEventListener("click", isListed ? saveListed : save);
  addEventListener("resize", layOut);
  layOut();
  Pieces.giveImages();
  if (isListed) {
    list.begin(source);
    place();
  } else {
    addAll(boards);
  }
})();
