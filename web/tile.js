"use strict";
/*
 * A board of a round, small: its name, players, start number, position, last move, and whose move it is or the result. It is the view of a
 * follower, or shows what a list of boards tells of it. `href(board)` is where a click leads, or null in a hall, where nothing can be
 * clicked. `shown()` is called when it was drawn.
 */
const createTile = ({ name, players, href, shown }) => {
  const tile = {
    name, record: createRecord(), told: null, state: "connecting", text: "", short: "", origin: null, start: null, ply: null, move: "",
    bare: { told: null, text: "" },
  };

  const isLong = Settings.isOn("long");

  function make(tag, className, ...children) {
    const it = document.createElement(tag);
    it.className = className;
    it.append(...children);
    return it;
  }

  function makePlate(colour) {
    const side = make("span", `side ${colour}`, players[colour] || Words.colour(colour[0]));
    side.title = side.textContent;
    const part = make("span", "part");
    return { side, part, element: make("div", "plate", side, part) };
  }

  const head = { name: make("b", "name"), start: make("span", "number"), fresh: make("span", "fresh") };
  const foot = { move: make("span", "last-move"), stand: make("span", "stand") };
  const plates = { white: makePlate("white"), black: makePlate("black") };
  const holder = make("div", "holder images");
  const inner = make(href(name) === null ? "div" : "a", "inner", make("div", "head", head.name, head.start, head.fresh),
    plates.black.element, holder, plates.white.element, make("div", "foot", foot.move, foot.stand));
  const element = make("li", "tile", inner);
  const board = createBoard(holder, { put: Pieces.putImage });
  holder.setAttribute("aria-hidden", "true");
  if (href(name) === null) {
    inner.setAttribute("role", "group");
  }

  /** Writes a text where it is another than before, so that nothing is laid out for nothing. */
  function write(it, text) {
    if (it.textContent !== text) {
      it.textContent = text;
    }
  }

  /** The number of the start, where a list tells it or the game is known from there. It is looked for once. */
  function startNumber() {
    const { origin } = tile.record;
    if (tile.told !== null) {
      return tile.told.start;
    }
    if (origin !== tile.origin) {
      tile.origin = origin;
      tile.start = origin === null ? null : Position.startNumber(origin.position);
    }
    return tile.start;
  }

  const present = () => (tile.record.origin === null ? null : tile.record.present());

  /** A move with its number, in the form that the browser's user has chosen. */
  function written(before, text) {
    const long = () => Words.sheet(Position.effect(before, text)) + San.mark(Position.after(before, text));
    const number = `${before.number}${before.turn === Position.BLACK ? "…" : "."}`;
    return `${number} ${isLong ? long() : San.write(before, text)}`;
  }

  /** The last move that a list tells: 12… Nf6. Where it may be one of two moves, it has its squares. It is written once. */
  function bareMove() {
    if (tile.bare.told !== tile.told) {
      tile.bare = { told: tile.told, text: writtenBare(tile.told) };
    }
    return tile.bare.text;
  }

  function writtenBare({ last, start }) {
    const before = Last.before(present(), start, last);
    if (before !== null) {
      return written(before, last);
    }
    const { turn, number } = present();
    return `${turn === Position.BLACK ? `${number}.` : `${number - 1}…`} ${last.slice(0, 2)}–${last.slice(2)}`;
  }

  const isBare = () => tile.told !== null && tile.told.last !== null && tile.record.plies.length === 0;

  /** The last move as a score sheet has it: 12. Nf3, 12… Nf6. It is written once. */
  function lastMove() {
    const { plies, origin } = tile.record;
    if (isBare()) {
      return bareMove();
    }
    const [before, ply = null] = [{ after: origin && origin.position }, ...plies].slice(-2);
    if (ply !== tile.ply) {
      tile.ply = ply;
      tile.move = ply === null || ply.gap ? "" : written(before.after, ply.text);
    }
    return tile.move;
  }

  /** What is to be said of the whole: how the game ended, or why nothing comes. */
  function stand() {
    const { outcome } = tile.record;
    if (outcome !== null) {
      return Outcomes.short(outcome);
    }
    return tile.state === "live" ? "" : tile.short;
  }

  /** What stands beside a player: the player's part of the result, or that it is the player's move. */
  function beside(colour) {
    const { outcome } = tile.record;
    const position = present();
    if (outcome !== null) {
      return Outcomes.score(outcome).split("–")[colour === Position.WHITE ? 0 : 1] || "";
    }
    if (position === null || position.turn !== colour) {
      return "";
    }
    return Position.inCheck(position) ? "in check" : "to move";
  }

  function drawPlate(colour, { element: plate, part }) {
    const text = beside(colour);
    write(part, text);
    plate.classList.toggle("turn", tile.record.outcome === null && text !== "");
  }

  /** Whose move it is, in words. */
  function turn() {
    const position = present();
    return position === null || tile.record.outcome !== null ? "" : `${Words.colour(position.turn)} ${beside(position.turn)}`;
  }

  /** What stands on the tile, for a screen reader. */
  function label() {
    const names = [players.white, players.black].filter((it) => it !== "").join(" – ");
    const move = lastMove();
    const start = startNumber();
    const outcome = tile.record.outcome === null ? stand() : Outcomes.said(tile.record.outcome).replace(/\.$/, "");
    return [tile.name, names, start === null ? "" : `start ${start}`, move === "" ? "" : `last move ${move}`,
      turn(), outcome, head.fresh.textContent].filter((it) => it !== "").join(", ");
  }

  /** The squares of the last move, where it is known. */
  function lastDeed() {
    if (isBare()) {
      const { from, to } = Position.parts(tile.told.last);
      return { from, to, castling: null };
    }
    const ply = tile.record.plies[tile.record.plies.length - 1];
    return ply && !ply.gap ? ply.deed : null;
  }

  function draw() {
    const { record } = tile;
    const position = present();
    board.show(position, lastDeed());
    const start = startNumber();
    write(head.name, tile.name);
    write(head.start, start === null ? "" : `no. ${start}`);
    write(foot.move, lastMove());
    write(foot.stand, stand());
    drawPlate(Position.WHITE, plates.white);
    drawPlate(Position.BLACK, plates.black);
    element.dataset.state = tile.state;
    inner.title = record.outcome === null ? tile.text : Outcomes.said(record.outcome);
    inner.setAttribute("aria-label", label());
    if (inner.href !== undefined) {
      inner.href = href(tile.name);
    }
    shown();
  }

  /** Draws it soon. Texts that come together are drawn together. */
  const refresh = () => Frames.soon(draw);

  function start(record) {
    tile.record = record;
    refresh();
  }

  /** Shows what a list tells of it, or with null that the list has it not. */
  function tell(text) {
    const isSame = text !== null && tile.told !== null && Summary.goesOn(text, tile.told);
    const record = text === null ? createRecord() : Summary.record(text, isSame ? tile.record : null);
    tile.told = text;
    start(record);
  }

  function state(given, text, short) {
    Object.assign(tile, { state: given, text, short });
    refresh();
  }

  function renamed(given) {
    tile.name = given;
    refresh();
  }

  /** Marks what is new: a text, or "" where nothing is. */
  function mark(text) {
    write(head.fresh, text);
    element.classList.toggle("new", text !== "");
    inner.setAttribute("aria-label", label());
  }

  draw();
  return {
    element, refresh, start, goOn: start, tell, state, renamed, mark, notice: () => {}, entered: () => {},
    record: () => tile.record, told: () => tile.told, name: () => tile.name, stateName: () => tile.state,
    game: (record = tile.record) => ({ board: tile.name, record, labels: { ...Address.tags(), ...Players.tags(players) } }),
  };
};
