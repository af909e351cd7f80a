"use strict";
/*
 * The part of an operator (operator.js) that opens a board, or goes back to one: it claims the board for this window, connects, sees that
 * nobody else goes on with the game, and asks for the board. Where somebody else seems to operate it, nothing is sent until the operator
 * says so.
 */
const createOpening = (own) => {
  const NAMES = 20;
  const SUCCESSORS = 3; // How many next names are tried for a game that somebody else goes on with.
  const { view, phase, claim, attempt } = own;

  function begin(wanted, plies) {
    own.game = { id: `${Date.now()}-${wanted.board}`, outcome: null, next: Names.next(wanted.board), ...wanted };
    view.say("");
    view.begin(own.game, plies);
  }

  function open(_, wanted, resend, isAlone = false) {
    begin(wanted, []);
    seize(attempt({ resend, isFirst: !wanted.anew, isAlone, isAnother: wanted.isAnother }));
  }

  /** Goes on with a game that was kept. */
  function back(_, kept, isForced = false) {
    begin({ id: kept.id, board: kept.board, start: kept.start, players: kept.players, anew: true }, kept.moves);
    seize(attempt({ isBack: true }), isForced);
  }

  /** Shows a game that was kept and has ended. */
  function show(_, kept) {
    begin({ id: kept.id, board: kept.board, start: kept.start, players: kept.players, outcome: kept.outcome }, kept.moves);
    own.finished(kept.outcome);
    view.refresh();
  }

  /** Reopens the game under its next name, and sends these commands. */
  function openNext(resend) {
    const { next, start, players } = own.game;
    phase.take("open", { board: next, start, players, anew: true }, resend, true);
  }

  /* The claim of a window. */

  function seize(given, isForced = false) {
    view.state("connecting", "Connecting …");
    phase.go("claiming", { attempt: given });
    claim.take(view.server(), own.game.board, isForced).then((isOurs) => phase.take(isOurs ? "claimed" : "held", given));
  }

  /** False where this was asked for something that is no longer wanted. */
  function claimed({ attempt: present }, asked) {
    if (asked !== present) {
      return false;
    }
    connect(present);
    return true;
  }

  function held({ attempt: present }, asked) {
    if (asked !== present) {
      return false;
    }
    const { board } = own.game;
    const text = `Another window of this browser operates ${board}. Use that window, or take the board over.`;
    const isWanted = present.isBack || present.resend.some(({ cmd }) => cmd === "end"); // And no game that the browser kept.
    const kept = isWanted ? null : view.kept(board);
    doubt(text, "Take the board over", present, () => (kept ? back(null, kept, true) : seize(present, true)));
    return true;
  }

  /** Another window of the browser has taken the board over: this one sends nothing more. */
  function taken(value) {
    const text = `Another window of this browser has taken ${own.game.board} over.`;
    own.stop(value);
    view.notice(text);
    view.state("refused", text);
  }

  function doubt(text, label, given, goOn) {
    view.say(`${text} Nothing was sent.`);
    view.notice(text);
    view.state("refused", "The board was not opened");
    phase.go("doubted", { attempt: given, label, goOn });
  }

  function anyway({ goOn }) {
    view.say("");
    goOn();
  }

  /* The connection. */

  function connect(given) {
    view.state("connecting", "Connecting …");
    const { heard, closed } = own;
    const link = Link.open(Key.into(view.server()), { opened: () => phase.take("connected"), heard, closed });
    phase.go("connecting", { link, attempt: given });
  }

  function connected({ link, attempt: present }) {
    const { board } = own.game;
    if (present.isBack) {
      own.knock(link, present);
    } else if (present.isFirst) {
      sound(link, present, [board, ...Names.nexts(board, SUCCESSORS)]);
    } else {
      ask(link, present);
    }
  }

  /** Asks whether the game of a board goes on under one of these names, before the board is opened. */
  function sound(link, present, [asked, ...left]) {
    if (asked === undefined) {
      ask(link, { ...present, isFirst: false });
    } else {
      phase.go("sounding", { link, attempt: present, asked, left });
      Knock.send(link, asked);
    }
  }

  /** Where the board itself is there, the relay refuses to open it, and that is all there is to be said. */
  function sounded({ link, attempt: present, asked, left }, answer) {
    const { board } = own.game;
    if (!Knock.isThere(answer) || asked === board) {
      sound(link, present, answer.name === "NoSuchBoard" || asked !== board ? left : []);
    } else {
      link.close();
      const others = `Another window or program seems to go on with ${board} there.`;
      const goOn = () => seize({ ...present, isFirst: false });
      doubt(`${asked} is at the relay, and this page did not open it. ${others}`, `Open ${board}`, present, goOn);
    }
  }

  /* The board. */

  function ask(link, given) {
    phase.go("opening", { link, attempt: given });
    link.send({ cmd: "open", board: own.game.board, start: own.game.start });
  }

  function opened({ link, attempt: present }) {
    view.opened();
    view.notice(`Board ${own.game.board} is open with start ${own.game.start}.`);
    if (present.resend.length === 0) {
      view.keep(); // A game whose moves are sent again is kept with them.
    }
    own.goOn(link, present.resend);
  }

  /**
   * The board was not opened. Where it was asked for before, and the answer was lost, it may be there already. Where this page chose the
   * name, it takes the one behind it.
   */
  function notOpened({ link, attempt: present }, answer) {
    if (answer.name === "BoardExists" && present.wasSent) {
      own.knock(link, { ...present, wasSent: false });
    } else if (answer.name === "BoardExists" && present.isAlone) {
      link.close();
      overtaken(present);
    } else if (answer.name === "BoardExists" && own.game.anew && present.tried < NAMES) {
      rename(present);
      ask(link, { ...present, tried: present.tried + 1 });
    } else {
      view.say(Words.refusal(answer, "open"));
      view.notice(`${own.game.board}: ${Words.coded(answer, "open")}`);
      view.state("refused", "The board was not opened");
      own.stop({ link, attempt: present });
    }
  }

  /** Gives the game the name behind its own: that of a successor, or of another game of the board. */
  function rename({ isAnother }) {
    own.game.board = isAnother ? Names.another(own.game.board) : own.game.next;
    own.game.next = Names.next(own.game.board);
  }

  /** The next name, under which this page reopens a game by itself, was given to somebody else's. */
  function overtaken(present) {
    const { board, next } = own.game;
    const others = "Another window or program seems to operate this board.";
    doubt(`${board} is at the relay, and this page did not open it. ${others}`, `Open ${next}`, present, () => {
      rename(present);
      seize({ ...present, isAlone: false });
    });
  }

  Object.assign(own, { openNext, connect, notOpened });
  return { open, back, show, claimed, held, anyway, connected, sounded, opened, notOpened, taken };
};
