"use strict";
/*
 * The board on a page: 64 squares, shown from either side, the last move and a check marked.
 * Where `chosen` is given, men can be moved: by clicking two squares, by dragging, and by keyboard (arrows, Enter, Escape).
 * A king that is dropped on its own rook castles. `chosen(from, to)` gets squares' numbers, and `goals(position, square)` gives those to
 * which a man may go, which are shown when it is picked up. `put(cell, letter)` shows a man on a square, or none for "".
 */
const createBoard = (holder, { chosen = null, goals = () => [], put = Pieces.put } = {}) => {
  const view = { position: null, checked: null, marks: [], whiteBelow: true, picked: null, goals: [], focus: 4, usable: false };
  const cells = new Map();
  const grid = document.createElement("div");
  grid.className = "board";
  grid.setAttribute("role", chosen ? "grid" : "table");
  grid.setAttribute("aria-label", "Board");
  holder.append(grid);

  const order = () => {
    const squares = [...Array(64).keys()].sort((a, b) =>
      Position.rankOf(b) - Position.rankOf(a) || Position.fileOf(a) - Position.fileOf(b));
    return view.whiteBelow ? squares : squares.reverse();
  };

  function label(square) {
    const letter = view.position ? view.position.squares[square] : "";
    const words = [Position.nameOf(square), letter === "" ? "empty" : Words.piece(letter)];
    if (view.marks.includes(square)) {
      words.push("last move");
    }
    if (square === view.picked) {
      words.push("picked up");
    }
    if (view.goals.includes(square)) {
      words.push(mayPick(square) ? "castles here" : "may go here");
    }
    if (square === view.checked) {
      words.push("in check");
    }
    return words.join(", ");
  }

  /** The square of the king that is in check, or null. */
  const checked = (position) => (position && Position.inCheck(position) ? Position.kingOf(position, position.turn) : null);

  function makeCell(square) {
    const cell = document.createElement("div");
    const dark = (Position.fileOf(square) + Position.rankOf(square)) % 2 === 0;
    cell.className = `square ${dark ? "dark" : "light"}`;
    cell.dataset.square = Position.nameOf(square);
    cell.setAttribute("role", chosen ? "gridcell" : "cell");
    cells.set(square, cell);
    return cell;
  }

  /** Letters and numbers at the lower and left edges, as shown. */
  function layOut() {
    const squares = order();
    grid.replaceChildren();
    for (let line = 0; line < 8; line += 1) {
      const row = document.createElement("div");
      row.className = "line";
      row.setAttribute("role", "row");
      for (const square of squares.slice(8 * line, 8 * line + 8)) {
        const cell = cells.get(square) || makeCell(square);
        cell.dataset.rank = square === squares[8 * line] ? Position.rankOf(square) + 1 : "";
        cell.dataset.file = line === 7 ? Position.nameOf(square)[0] : "";
        row.append(cell);
      }
      grid.append(row);
    }
  }

  function drawCell(square) {
    const cell = cells.get(square);
    const letter = view.position ? view.position.squares[square] : "";
    put(cell, letter);
    cell.classList.toggle("last", view.marks.includes(square));
    cell.classList.toggle("picked", square === view.picked);
    cell.classList.toggle("goal", view.goals.includes(square));
    cell.classList.toggle("check", square === view.checked);
    const words = label(square);
    if (cell.getAttribute("aria-label") !== words) {
      cell.setAttribute("aria-label", words);
    }
    if (chosen) {
      cell.tabIndex = square === view.focus ? 0 : -1;
    }
  }

  const draw = () => cells.forEach((_, square) => drawCell(square));

  /** Lets a man glide from the square that it left, where the page's reader has nothing against motion. */
  function glide(from, to) {
    const man = cells.get(to).querySelector(".piece");
    if (!man || from === to || window.matchMedia("(prefers-reduced-motion: reduce)").matches) {
      return;
    }
    const left = cells.get(from).getBoundingClientRect();
    const reached = cells.get(to).getBoundingClientRect();
    man.animate([{ transform: `translate(${left.x - reached.x}px, ${left.y - reached.y}px)` }, { transform: "none" }],
      { duration: 160, easing: "ease-out" });
  }

  /** The squares of a move: where its men stood and where they stand now. Both men of castling count, also those that stay. */
  const marksOf = (deed) => (deed.castling ? [deed.from, deed.to, deed.castling.king, deed.castling.rook] : [deed.from, deed.to]);

  /** Shows a position, and the move that led to it where there is one. */
  function show(position, deed = null, moving = false) {
    view.position = position;
    view.checked = checked(position);
    view.marks = deed ? marksOf(deed) : [];
    view.picked = null;
    view.goals = [];
    draw();
    if (deed && moving) {
      if (deed.castling) {
        glide(deed.from, deed.castling.king);
        glide(deed.to, deed.castling.rook);
      } else {
        glide(deed.from, deed.to);
      }
    }
  }

  function flip() {
    view.whiteBelow = !view.whiteBelow;
    layOut();
    draw();
  }

  const mayPick = (square) => {
    const letter = view.position ? view.position.squares[square] : "";
    return view.usable && letter !== "" && Position.colourOf(letter) === view.position.turn;
  };

  const castles = (from, to) => view.position.squares[from].toLowerCase() === "k"
    && view.position.squares[to].toLowerCase() === "r" && mayPick(to);

  function pick(square) {
    view.picked = square;
    view.goals = square === null ? [] : goals(view.position, square);
    draw();
  }

  /** A square was chosen: by a click, by Enter, or as the end of a drag. */
  function choose(square) {
    const from = view.picked;
    if (from === null || from === square) {
      pick(from === null && mayPick(square) ? square : null);
      return;
    }
    if (mayPick(square) && !castles(from, square)) {
      pick(square);
      return;
    }
    pick(null);
    chosen(from, square);
  }

  const squareOfCell = (cell) => (cell ? Position.squareOf(cell.dataset.square) : null);
  const squareUnder = (event) => {
    const there = document.elementsFromPoint(event.clientX, event.clientY);
    const found = there.find((it) => it.classList.contains("square") && grid.contains(it));
    return squareOfCell(found);
  };

  /* A press picks up; a release on another square drops there. A press and release on one square is a click. A second finger does none. */
  const hand = { from: null, man: null, x: 0, y: 0, wasPicked: false, pointer: null };

  function press(event) {
    const square = squareUnder(event);
    if (square === null || event.button !== 0 || !event.isPrimary) {
      return;
    }
    event.preventDefault();
    focusOn(square);
    const before = view.picked;
    const drops = before !== null && before !== square && (!mayPick(square) || castles(before, square));
    if (drops || !mayPick(square)) {
      hand.from = null;
      choose(square);
      return;
    }
    hand.wasPicked = before === square;
    pick(square);
    hand.from = square;
    hand.man = cells.get(square).querySelector(".piece");
    hand.x = event.clientX;
    hand.y = event.clientY;
    hand.pointer = event.pointerId;
    grid.setPointerCapture(event.pointerId);
  }

  function drag(event) {
    if (hand.from === null || event.pointerId !== hand.pointer) {
      return;
    }
    const far = Math.hypot(event.clientX - hand.x, event.clientY - hand.y) > 4;
    if (far) {
      hand.man.classList.add("held");
      hand.man.style.transform = `translate(${event.clientX - hand.x}px, ${event.clientY - hand.y}px) scale(1.1)`;
    }
  }

  function letGo() {
    if (hand.man) {
      hand.man.classList.remove("held");
      hand.man.style.transform = "";
    }
    hand.from = null;
    hand.man = null;
  }

  function release(event) {
    const from = hand.from;
    if (from === null || event.pointerId !== hand.pointer) {
      return;
    }
    const wasPicked = hand.wasPicked;
    letGo();
    const square = squareUnder(event);
    if (square === null || (square === from && wasPicked)) {
      pick(null);
    } else if (square !== from) {
      if (mayPick(square) && !castles(from, square)) {
        pick(null);
      } else {
        choose(square);
      }
    }
  }

  function focusOn(square) {
    view.focus = square;
    draw();
    cells.get(square).focus({ preventScroll: true });
  }

  const STEPS = { ArrowUp: [0, 1], ArrowDown: [0, -1], ArrowLeft: [-1, 0], ArrowRight: [1, 0] };

  function key(event) {
    const step = STEPS[event.key];
    if (step) {
      const side = view.whiteBelow ? 1 : -1;
      const file = Math.min(7, Math.max(0, Position.fileOf(view.focus) + side * step[0]));
      const rank = Math.min(7, Math.max(0, Position.rankOf(view.focus) + side * step[1]));
      focusOn(Position.squareAt(file, rank));
    } else if (event.key === "Enter" || event.key === " ") {
      choose(view.focus);
    } else if (event.key === "Escape") {
      pick(null);
    } else {
      return;
    }
    event.preventDefault();
    event.stopPropagation();
  }

  [...Array(64).keys()].forEach(makeCell);
  layOut();
  draw();
  if (chosen) {
    grid.addEventListener("pointerdown", press);
    grid.addEventListener("pointermove", drag);
    grid.addEventListener("pointerup", release);
    grid.addEventListener("pointercancel", letGo);
    grid.addEventListener("keydown", key);
  }

  /** Whether men may be moved now. */
  function use(usable) {
    view.usable = usable;
    grid.classList.toggle("usable", usable);
    if (!usable) {
      pick(null);
    }
  }

  return { show, flip, use, name: (text) => grid.setAttribute("aria-label", text), whiteBelow: () => view.whiteBelow };
};
