"use strict";
/*
 * A position of Chess960: read from Shredder-FEN, written as Shredder-FEN, and the position after a move.
 * What stands here needs a legal move; which moves are legal says rules.js.
 * A square is its number, file + 8 * rank, both from 0. A piece is its letter, capital for White; "" is no piece.
 */
const Position = (() => {
  const FILES = "abcdefgh";
  const WHITE = "w";
  const BLACK = "b";

  const fileOf = (square) => square % 8;
  const rankOf = (square) => Math.floor(square / 8);
  const squareAt = (file, rank) => file + 8 * rank;
  const nameOf = (square) => FILES[fileOf(square)] + (rankOf(square) + 1);
  const squareOf = (text) => squareAt(FILES.indexOf(text[0]), Number(text[1]) - 1);
  const other = (colour) => (colour === WHITE ? BLACK : WHITE);
  const colourOf = (piece) => (piece === piece.toUpperCase() ? WHITE : BLACK);
  const homeRank = (colour) => (colour === WHITE ? 0 : 7);
  const pieceOf = (colour, kind) => (colour === WHITE ? kind.toUpperCase() : kind.toLowerCase());

  /** The position of a Shredder-FEN that the relay wrote. */
  function read(fen) {
    const [placement, turn, rights, target, halfMoves, number] = fen.split(" ");
    const squares = new Array(64).fill("");
    placement.split("/").forEach((line, index) => {
      let file = 0;
      for (const letter of line) {
        if (letter >= "1" && letter <= "8") {
          file += Number(letter);
        } else {
          squares[squareAt(file, 7 - index)] = letter;
          file += 1;
        }
      }
    });
    const files = (colour) => [...rights].filter((it) => it !== "-" && colourOf(it) === colour)
      .map((it) => FILES.indexOf(it.toLowerCase()));
    return {
      squares,
      turn,
      rights: { w: files(WHITE), b: files(BLACK) },
      target: target === "-" ? null : squareOf(target),
      halfMoves: Number(halfMoves),
      number: Number(number),
    };
  }

  function writeRank(squares, rank) {
    let text = "";
    let vacant = 0;
    for (let file = 0; file < 8; file += 1) {
      const piece = squares[squareAt(file, rank)];
      if (piece === "") {
        vacant += 1;
        continue;
      }
      text += (vacant > 0 ? vacant : "") + piece;
      vacant = 0;
    }
    return text + (vacant > 0 ? vacant : "");
  }

  const writePlacement = (squares) => [7, 6, 5, 4, 3, 2, 1, 0].map((rank) => writeRank(squares, rank)).join("/");

  function writeRights(rights) {
    const letters = (colour) => [...rights[colour]].sort((a, b) => b - a).map((file) => pieceOf(colour, FILES[file]));
    return [...letters(WHITE), ...letters(BLACK)].join("") || "-";
  }

  /** The one written text of a position, as the relay writes it. */
  function write(position) {
    const target = position.target === null ? "-" : nameOf(position.target);
    return [writePlacement(position.squares), position.turn, writeRights(position.rights), target,
      position.halfMoves, position.number].join(" ");
  }

  /** The parts of a move's text, such as e2e4 and a7a8q. */
  const parts = (text) => ({ from: squareOf(text), to: squareOf(text.slice(2)), promotion: text[4] || null });

  /** Whether a move's text moves a man of the side to move. That every legal move does. */
  function movesMan(position, text) {
    const man = position.squares[parts(text).from];
    return man !== "" && colourOf(man) === position.turn;
  }

  /**
   * What a legal move does: the man that moves, what it takes and where, and for castling where king and rook go.
   * Castling is written as the king's square and its own rook's.
   */
  function effect(position, text) {
    const { from, to, promotion } = parts(text);
    const man = position.squares[from];
    const kind = man.toLowerCase();
    const colour = position.turn;
    if (kind === "k" && position.squares[to] === pieceOf(colour, "r")) {
      const wing = to > from ? "g" : "c";
      const rank = rankOf(from);
      return {
        text, from, to, man, colour, taken: "", promotion: null,
        castling: { wing, king: squareAt(wing === "g" ? 6 : 2, rank), rook: squareAt(wing === "g" ? 5 : 3, rank) },
      };
    }
    const passing = kind === "p" && fileOf(from) !== fileOf(to) && position.squares[to] === "";
    const takenOn = passing ? squareAt(fileOf(to), rankOf(from)) : to;
    return { text, from, to, man, colour, taken: position.squares[takenOn], takenOn, passing, promotion, castling: null };
  }

  function place(squares, deed) {
    if (deed.castling) {
      squares[deed.from] = "";
      squares[deed.to] = "";
      squares[deed.castling.king] = pieceOf(deed.colour, "k");
      squares[deed.castling.rook] = pieceOf(deed.colour, "r");
      return;
    }
    squares[deed.takenOn] = "";
    squares[deed.from] = "";
    squares[deed.to] = deed.promotion ? pieceOf(deed.colour, deed.promotion) : deed.man;
  }

  function rightsAfter(rights, deed) {
    const kept = (colour) => rights[colour].filter((file) => {
      const rook = squareAt(file, homeRank(colour));
      return rook !== deed.from && rook !== deed.to;
    });
    const after = { w: kept(WHITE), b: kept(BLACK) };
    if (deed.man.toLowerCase() === "k") {
      after[deed.colour] = [];
    }
    return after;
  }

  /** The position after a legal move. */
  function after(position, text) {
    const deed = effect(position, text);
    const squares = [...position.squares];
    place(squares, deed);
    const pawn = deed.man.toLowerCase() === "p";
    const double = pawn && Math.abs(deed.to - deed.from) === 16;
    return {
      squares,
      turn: other(position.turn),
      rights: rightsAfter(position.rights, deed),
      target: double ? (deed.from + deed.to) / 2 : null,
      halfMoves: pawn || deed.taken !== "" ? 0 : position.halfMoves + 1,
      number: position.number + (position.turn === BLACK ? 1 : 0),
    };
  }

  const STRAIGHT = [[1, 0], [-1, 0], [0, 1], [0, -1]];
  const DIAGONAL = [[1, 1], [1, -1], [-1, 1], [-1, -1]];
  const LEAPS = [[1, 2], [2, 1], [2, -1], [1, -2], [-1, -2], [-2, -1], [-2, 1], [-1, 2]];

  /** The first piece seen from a square in one direction, at most so many steps away. */
  function seen(squares, square, [right, up], most) {
    for (let step = 1; step <= most; step += 1) {
      const file = fileOf(square) + step * right;
      const rank = rankOf(square) + step * up;
      if (file < 0 || file > 7 || rank < 0 || rank > 7) {
        return "";
      }
      const piece = squares[squareAt(file, rank)];
      if (piece !== "") {
        return piece;
      }
    }
    return "";
  }

  /** Whether a side attacks a square. */
  function attacked(squares, by, square) {
    const sees = (directions, most, kinds) => directions.some((it) => {
      const piece = seen(squares, square, it, most);
      return piece !== "" && colourOf(piece) === by && kinds.includes(piece.toLowerCase());
    });
    const below = by === WHITE ? -1 : 1;
    return sees(STRAIGHT, 7, "rq") || sees(DIAGONAL, 7, "bq") || sees(LEAPS, 1, "n")
      || sees([...STRAIGHT, ...DIAGONAL], 1, "k") || sees([[1, below], [-1, below]], 1, "p");
  }

  const kingOf = (position, colour) => position.squares.indexOf(pieceOf(colour, "k"));

  /** Whether the side to move is in check. */
  const inCheck = (position) => attacked(position.squares, other(position.turn), kingOf(position, position.turn));

  const KNIGHTS = [[0, 1], [0, 2], [0, 3], [0, 4], [1, 2], [1, 3], [1, 4], [2, 3], [2, 4], [3, 4]];

  /** Scharnagl's array of a number from 0 to 959, as eight letters from file a to file h. */
  function array(number) {
    const rank = new Array(8).fill("");
    const vacant = () => [0, 1, 2, 3, 4, 5, 6, 7].filter((file) => rank[file] === "");
    rank[1 + 2 * (number % 4)] = "B";
    rank[2 * (Math.floor(number / 4) % 4)] = "B";
    rank[vacant()[Math.floor(number / 16) % 6]] = "Q";
    const free = vacant();
    KNIGHTS[Math.floor(number / 96)].forEach((index) => { rank[free[index]] = "N"; });
    vacant().forEach((file, index) => { rank[file] = "RKR"[index]; });
    return rank.join("");
  }

  const isStart = (number) => Number.isInteger(number) && number >= 0 && number < 960;

  /** The starting position of a number from 0 to 959. */
  function start(number) {
    const pieces = array(number);
    const rooks = [...FILES].filter((_, file) => pieces[file] === "R").reverse().join("");
    const low = pieces.toLowerCase();
    return read(`${low}/pppppppp/8/8/8/8/PPPPPPPP/${pieces} w ${rooks.toUpperCase()}${rooks} - 0 1`);
  }

  /** Scharnagl's number of an array, as eight letters: what `array` does, read backwards. */
  function numberOf(pieces) {
    const bishops = [1, 0].map((odd) => [...pieces].findIndex((it, file) => it === "B" && file % 2 === odd));
    const others = [...pieces].filter((it) => it !== "B");
    const knights = others.filter((it) => it !== "Q").flatMap((it, index) => (it === "N" ? [index] : []));
    const pair = KNIGHTS.findIndex(([left, right]) => left === knights[0] && right === knights[1]);
    return (bishops[0] - 1) / 2 + 4 * (bishops[1] / 2) + 16 * others.indexOf("Q") + 96 * pair;
  }

  /** The number of the start whose position this is, or null where it is no starting position. */
  function startNumber(position) {
    const number = numberOf(position.squares.slice(0, 8).join(""));
    return isStart(number) && write(start(number)) === write(position) ? number : null;
  }

  return { read, write, writePlacement, writeRights, parts, after, effect, movesMan, attacked, inCheck, kingOf, array, isStart, start,
    startNumber, nameOf, squareOf, fileOf, rankOf, squareAt, homeRank, pieceOf, colourOf, other, WHITE, BLACK, STRAIGHT, DIAGONAL, LEAPS };
})();
