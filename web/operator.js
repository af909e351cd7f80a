"use strict";
/*
 * What plays one board for the operator's page. It opens the board over a connection of its own (opening.js) and sends what is entered
 * (playing.js). After a lost connection it comes back by the browser's key (comeback.js, key.js), finds out what became of that which was
 * on its way, and goes on under the same name. Where the relay no longer has the game, it is reopened under the next name.
 *
 * `view` is what shows the game:
 *   record()                   the record that it shows
 *   begin(game, plies)         shows a game with these moves
 *   refresh(), redraw()        the record has changed; what may be entered has changed
 *   state(name, text)          how the connection is
 *   say(text), notice(text)    tells the operator; adds a line to the log
 *   keep()                     the game has got further and is to be kept
 *   opened(), over()           the board is open; the game has ended
 *   offer(moves)               the game, with these moves, can be gone on with
 *   kept(board)                the game of this board that has no end, where the browser keeps one, or null
 *   server(), isAlone()        the relay's address, and whether a lost game is reopened without a question
 *   entered()                  the operator is in another state
 */
const createOperator = (view) => {
  /*
   * What the parts share: the view, the phase, and the `game` that the page has: { id, board, start, players, anew, outcome, next }. It
   * outlasts the states: it can be saved when it is over. Under the next name it is reopened. Each part adds its acts to it.
   */
  const own = { view, game: null };

  const submits = (moves) => moves.map((move) => ({ cmd: "submit", move }));
  const movesOf = (commands) => commands.filter(({ cmd }) => cmd === "submit").map(({ move }) => move);
  const moves = () => view.record().plies.map((it) => it.text);

  /*
   * An attempt to get to a game has:
   *   resend    the commands that are still to be sent again: moves, and behind them an ending where the game's result is corrected
   *   pending   the move or ending that was on its way when the connection was lost, or null
   *   correct   the commands with which the game is reopened once it has ended, or null: it is ended to be corrected
   *   doubt     the refusal of a pending move that is legal on this page, or null
   *   isBack    whether the board was open before
   *   isFirst   whether the board is opened under the name of its first game
   *   isAlone   whether this page reopens the game by itself
   *   isAnother whether it is another game of its board, of which this page chose the name
   *   wasSent   whether the relay was asked for the board on a connection before
   *   unanswered  how many connections were made and ended without an answer
   *   tried     how many names were taken
   *   waits     those between two tries
   */
  const attempt = (given) => ({
    resend: [], pending: null, correct: null, doubt: null, isBack: false, isFirst: false, isAlone: false, isAnother: false, wasSent: false,
    unanswered: 0, tried: 0, waits: Link.waits(), ...given,
  });

  /*
   * The states, and what belongs to each:
   *   idle                           no board is open, and none is wanted
   *   claiming    attempt            the browser is asked whether another window has the board
   *   doubted     attempt, label, goOn   somebody else seems to operate the board, and nothing is sent until the operator says so
   *   connecting  link, attempt      the connection is being made
   *   sounding    link, attempt, asked, left   the relay is asked whether the game goes on under a next name already
   *   opening     link, attempt      the relay is asked for the board
   *   knocking    link, attempt      it is asked whether it still has the board, and gives it back
   *   looking     link, attempt, glance, isOver    another connection looks how far the game has come, or how it ended
   *   playing     link               the board is open, and nothing is asked
   *   probing     link, command, correct           it is asked whether the next name is free, before a game is ended to be corrected
   *   asked       link, command, resend, correct   the relay was sent a move or an ending, and has not answered
   *   lost        attempt            there is no connection; it is tried again by itself
   *   over                           the game has ended
   *   weighing    command, glance    another connection looks whether somebody else has corrected its result
   * The relay is asked for one thing at a time, so that an answer is that to what was asked. Where none comes in time, the connection
   * counts as lost: a cable that was pulled tells nothing.
   */
  const states = {};
  const limits = { sounding: 10, opening: 10, knocking: 10, looking: 30, probing: 10, asked: 10, weighing: 10 };
  const phase = createPhase(states, entered, limits);
  const claim = Claim.create(() => phase.take("taken"));
  Object.assign(own, { phase, claim, attempt, submits, movesOf, moves });

  const { open, back, show, claimed, held, anyway, connected, sounded, opened, notOpened, taken } = createOpening(own);
  const { enter, probed, played, ended, refused, correctResult, weighed } = createPlaying(own);
  const { tryAgain, broken, lost, retry, knocked, seen, unseen, stop } = createComeback(own);

  const ways = { closed: tryAgain, late: tryAgain, broken, stop, taken };
  Object.assign(states, {
    idle: { open, back, show },
    claiming: { claimed, held, stop },
    doubted: { open, back, anyway },
    connecting: { connected, closed: tryAgain, broken, stop, taken },
    sounding: { ...ways, refused: sounded },
    opening: { ...ways, opened, refused: notOpened },
    knocking: { ...ways, refused: knocked },
    looking: { ...ways, seen, unseen },
    playing: { enter, closed: lost, broken, taken },
    probing: { refused: probed, closed: lost, late: lost, broken, taken },
    asked: { played, ended, refused, closed: lost, late: lost, broken, taken },
    lost: { retry, stop, taken },
    over: { open, back, correctResult },
    weighing: { open, weighed, late: weighed },
  });

  const isIdle = () => phase.is("idle", "over", "doubted");

  /** A board that is not operated is let go of, unless its game goes on at once. */
  function entered() {
    setTimeout(() => isIdle() && claim.release(), 0);
    view.entered();
  }

  const isOpen = () => phase.is("playing", "probing", "asked");

  /** Whether a move or an ending may be entered. */
  const isReady = () => phase.is("playing");

  /** Whether the relay can be reached, and yet does not answer for the board: twice, since a connection may be lost once. */
  function isUnanswered() {
    const { attempt: present } = phase.now();
    return present !== undefined && present.unanswered > 1;
  }

  /** Whether the game is over by an end that somebody named, and so may be corrected. */
  const isCorrectable = () => phase.is("over") && Outcomes.isNamed(own.game.outcome);

  return {
    /** Opens a board: { board, start, players, anew, isAnother }, and plays these moves on it. */
    open: (wanted, resent) => phase.take("open", wanted, submits(resent)),
    /** Goes on with a game that was kept. */
    back: (kept) => phase.take("back", kept),
    /** Shows a game that was kept and has ended, where no other is played. */
    show: (kept) => phase.take("show", kept),
    /** Enters a move or an ending. With `correct` the game is reopened with those moves once it has ended. */
    enter: (command, correct = null) => phase.take("enter", command, correct && submits(correct)),
    /** Plays the game that is over again under its next name, and ends it by this command. */
    correctResult: (command) => phase.take("correctResult", command),
    /** Answers false where nothing was tried. */
    stop: () => phase.take("stop"),
    /** Goes on in spite of a doubt, where there is one. */
    anyway: () => phase.take("anyway"),
    /** What the operator may do in spite of a doubt, in words, or null where there is none. */
    doubted: () => (phase.is("doubted") ? phase.now().label : null),
    isIdle, isOpen, isReady, isUnanswered, isCorrectable, moves, allMoves: own.allMoves, game: () => own.game,
  };
};
