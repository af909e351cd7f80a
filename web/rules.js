"use strict";
/*
 * The legal moves of a position of Chess960, each as the relay writes it: e2e4, a7a8q, and for castling the king's square and its own
 * rook's. The relay decides what is played. The page knows the rules to read what people write, and to show where a man may go.
 */
const Rules = (() => {
  const { fileOf, rankOf, squareAt, nameOf, colourOf, other, attacked, kingOf, homeRank } = Position;
  const PROMOTIONS = ["q", "r", "b", "n"];
  const ALL = [...Position.STRAIGHT, ...Position.DIAGONAL];
  /* How a kind goes: its directions, and how many steps at most. */
  const GOES = { n: [Position.LEAPS, 1], b: [Position.DIAGONAL, 7], r: [Position.STRAIGHT, 7], q: [ALL, 7], k: [ALL, 1] };

  /** The square so many files and ranks away, or null where the board ends before. */
  function away(square, right, up) {
    const file = fileOf(square) + right;
    const rank = rankOf(square) + up;
    return file < 0 || file > 7 || rank < 0 || rank > 7 ? null : squareAt(file, rank);
  }

  /** Where a man gets to in one direction: over vacant squares, and onto the first man of the other side. */
  function along({ squares, turn }, from, [right, up], most) {
    const goals = [];
    for (let step = 1; step <= most; step += 1) {
      const goal = away(from, step * right, step * up);
      if (goal === null || (squares[goal] !== "" && colourOf(squares[goal]) === turn)) {
        break;
      }
      goals.push(goal);
      if (squares[goal] !== "") {
        break;
      }
    }
    return goals;
  }

  /** One step ahead, or two from where the pawns began, over vacant squares. */
  function ahead({ squares, turn }, from) {
    const up = turn === Position.WHITE ? 1 : -1;
    const steps = rankOf(from) === homeRank(turn) + up ? [1, 2] : [1];
    const goals = steps.map((step) => away(from, 0, step * up));
    const barred = goals.findIndex((goal) => goal === null || squares[goal] !== "");
    return barred < 0 ? goals : goals.slice(0, barred);
  }

  /** What a pawn takes: a man of the other side, or a pawn in passing. */
  function captures({ squares, turn, target }, from) {
    const up = turn === Position.WHITE ? 1 : -1;
    const takes = (goal) => goal === target || (squares[goal] !== "" && colourOf(squares[goal]) !== turn);
    return [-1, 1].map((right) => away(from, right, up)).filter((goal) => goal !== null && takes(goal));
  }

  /** The squares of a rank from one to another, both among them. */
  function row(one, another) {
    const [first, last] = [Math.min(one, another), Math.max(one, another)];
    return Array.from({ length: last - first + 1 }, (_, index) => first + index);
  }

  /** Whether king and rook find their ways vacant but for themselves, and the king's way is not attacked. */
  function mayCastle({ squares, turn }, king, rook) {
    const wing = rook > king ? { king: 6, rook: 5 } : { king: 2, rook: 3 };
    const way = row(king, squareAt(wing.king, homeRank(turn)));
    const ways = [...way, ...row(rook, squareAt(wing.rook, homeRank(turn)))];
    return ways.every((it) => it === king || it === rook || squares[it] === "")
      && !way.some((it) => attacked(squares, other(turn), it));
  }

  /** The rooks onto which a king castles. */
  function castlings(position, king) {
    const rooks = position.rights[position.turn].map((file) => squareAt(file, homeRank(position.turn)));
    return rooks.filter((rook) => mayCastle(position, king, rook));
  }

  /** Where a man gets to, whether or not its own king would then be attacked. */
  function goals(position, from) {
    const kind = position.squares[from].toLowerCase();
    if (kind === "p") {
      return [...ahead(position, from), ...captures(position, from)];
    }
    const [directions, most] = GOES[kind];
    const ordinary = directions.flatMap((it) => along(position, from, it, most));
    return kind === "k" ? [...ordinary, ...castlings(position, from)] : ordinary;
  }

  /** The texts of a man's move to a square: one, or four where a pawn is promoted. */
  function texts({ squares }, from, goal) {
    const text = nameOf(from) + nameOf(goal);
    const promotes = squares[from].toLowerCase() === "p" && [0, 7].includes(rankOf(goal));
    return promotes ? PROMOTIONS.map((it) => text + it) : [text];
  }

  /** Whether a move leaves its own king unattacked. */
  function isSafe(position, text) {
    const after = Position.after(position, text);
    return !attacked(after.squares, after.turn, kingOf(after, position.turn));
  }

  const isOwn = ({ squares, turn }, square) => Boolean(squares[square]) && colourOf(squares[square]) === turn;

  /** The legal moves of the man on a square. */
  function from(position, square) {
    if (!isOwn(position, square)) {
      return [];
    }
    return goals(position, square).flatMap((goal) => texts(position, square, goal)).filter((text) => isSafe(position, text));
  }

  const SQUARES = [...Array(64).keys()];

  /** All legal moves. */
  const legal = (position) => SQUARES.flatMap((square) => from(position, square));

  /** Whether the side to move has a legal move. Without one it is mated or stalemated. */
  const canMove = (position) => SQUARES.some((square) => from(position, square).length > 0);

  return { from, legal, canMove };
})();
