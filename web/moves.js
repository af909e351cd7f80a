"use strict";
/*
 * The list of a game's moves on the page, and a cursor in it: the position shown is that of the cursor.
 * At the end the cursor follows the game; elsewhere it stays until it is sent back. `shown(index)` is called when it moves.
 */
const createMoves = (holder, { shown }) => {
  const list = { origin: null, plies: [], cursor: -1, live: true, isLong: false };

  /** A move as the list has it: in SAN, or in the long form with both squares. */
  function written(index) {
    const { deed, text, after } = list.plies[index];
    const before = index > 0 ? list.plies[index - 1].after : list.origin.position;
    return list.isLong ? Words.sheet(deed) + San.mark(after) : San.write(before, text);
  }

  function button(ply, index) {
    const it = document.createElement("button");
    it.type = "button";
    it.className = "move";
    it.tabIndex = -1; // The list is one stop for the Tab key. The arrows go through its moves.
    it.dataset.place = ply.place;
    it.dataset.index = index;
    const text = document.createElement("span");
    text.textContent = written(index);
    it.append(text);
    it.title = `${ply.text}, place ${ply.place}`;
    it.setAttribute("aria-label", words(ply));
    it.addEventListener("click", () => go(index));
    return it;
  }

  function note(ply) {
    const it = document.createElement("li");
    it.className = "gap";
    it.textContent = Words.missed(ply);
    return it;
  }

  /** The number of the full move that a ply belongs to: that of the position before it. */
  const numberOf = (ply) => ply.after.number - (ply.deed.colour === Position.BLACK ? 1 : 0);

  /** A move of the list to be read aloud, with its number. */
  const words = (ply) => (ply.gap ? Words.missed(ply) : `Move ${numberOf(ply)}, ${Words.spoken(ply.deed, ply.check)}`);

  function line(number) {
    const it = document.createElement("li");
    const head = document.createElement("span");
    head.className = "number";
    head.textContent = `${number}.`;
    it.append(head);
    return it;
  }

  function addPly(ply, index) {
    if (ply.gap) {
      holder.append(note(ply));
      return;
    }
    const last = holder.lastElementChild;
    const second = ply.deed.colour === Position.BLACK;
    const joins = second && last && !last.classList.contains("gap") && last.children.length === 2;
    const row = joins ? last : line(numberOf(ply));
    if (!joins) {
      if (second) {
        const blank = document.createElement("span");
        blank.className = "move blank";
        blank.textContent = "…";
        row.append(blank);
      }
      holder.append(row);
    }
    row.append(button(ply, index));
  }

  function mark() {
    holder.querySelectorAll(".move.current").forEach((it) => {
      it.classList.remove("current");
      it.removeAttribute("aria-current");
    });
    const current = holder.querySelector(`[data-index="${list.cursor}"]`);
    if (current) {
      current.classList.add("current");
      current.setAttribute("aria-current", "true");
      const box = holder.getBoundingClientRect();
      const at = current.getBoundingClientRect();
      if (at.top < box.top || at.bottom > box.bottom) {
        holder.scrollTop += at.top - box.top - box.height / 2;
      }
    }
  }

  /** Shows the moves in the long form, or in SAN. */
  function write(isLong) {
    list.isLong = isLong;
    holder.querySelectorAll(".move[data-index]").forEach((it) => {
      it.firstElementChild.textContent = written(Number(it.dataset.index));
    });
  }

  /** Shows another list of moves, or the same one with more at its end. */
  function update({ origin, plies }) {
    const isSame = (it, other) => it.place === other.place && it.first === other.first && it.text === other.text;
    const grown = plies.length >= list.plies.length && list.plies.every((it, index) => isSame(it, plies[index]));
    const from = grown ? list.plies.length : 0;
    if (!grown) {
      holder.replaceChildren();
      list.live = true;
    }
    list.origin = origin;
    list.plies = [...plies];
    plies.slice(from).forEach((ply, index) => addPly(ply, from + index));
    if (list.live) {
      list.cursor = plies.length - 1;
    }
    mark();
  }

  /** Sends the cursor to a move; -1 is the first known position, the last move is the present. */
  function go(index) {
    list.cursor = Math.max(-1, Math.min(list.plies.length - 1, index));
    list.live = list.cursor === list.plies.length - 1;
    mark();
    shown(list.cursor);
  }

  return {
    update,
    write,
    first: () => go(-1),
    back: () => go(list.cursor - 1),
    on: () => go(list.cursor + 1),
    last: () => go(list.plies.length - 1),
    cursor: () => list.cursor,
    live: () => list.live,
    words: (index) => words(list.plies[index]),
  };
};
