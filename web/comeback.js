"use strict";
/*
 * The part of an operator (operator.js) that comes back after a lost connection. The board waits for this page's key for as long as the
 * relay was told to. It finds out how far the game has come, and sends what was on its way and did not arrive.
 */
const createComeback = (own) => {
  const NO_ROOM = ["TooManyFollowers", "OutOfMemory"];
  const { view, phase, attempt, submits, movesOf, moves } = own;

  /** All moves of the game, also those that are still to be sent again. */
  function allMoves() {
    const { resend, attempt: present } = phase.now();
    return [...moves(), ...movesOf(resend || (present && present.resend) || [])];
  }

  /** Takes an answer, and says whether it is one to what was asked. */
  function heard(text) {
    return phase.take(text.reply, text);
  }

  function closed({ fault }) {
    phase.take(fault ? "broken" : "closed", fault);
  }

  function broken(value, fault) {
    view.state("refused", fault);
    stop(value);
  }

  /** Closes the connections of a state. */
  function drop({ link, glance }) {
    [link, glance].filter(Boolean).forEach((it) => it.close());
  }

  function lost({ link, command = null, resend = [], correct = null }) {
    view.notice(`The connection of ${own.game.board} was lost.`);
    tryAgain({ link, attempt: attempt({ resend, correct, pending: command, isBack: true }) });
  }

  function tryAgain({ name, attempt: present, ...links }) {
    drop(links);
    const seconds = present.waits.next(() => phase.take("retry"));
    if (seconds === null) {
      view.state("stopped", "No connection to the relay. Gave up.");
      stop({ attempt: present });
    } else {
      const unanswered = present.unanswered + (name === "connecting" ? 0 : 1);
      phase.go("lost", { attempt: { ...present, unanswered, wasSent: present.wasSent || name === "opening" } });
      view.state("lost", `No connection to the relay. Trying again in ${seconds} s.`);
      view.redraw();
    }
  }

  function retry({ attempt: present }) {
    own.connect(present);
  }

  function knock(link, given) {
    phase.go("knocking", { link, attempt: given });
    Knock.send(link, own.game.board);
  }

  function look(link, given, isOver) {
    const glance = Glance.look(view.server(), { board: own.game.board, next: view.record().next, isOver }, {
      seen: (texts) => phase.take("seen", texts),
      refused: (answer) => phase.take("unseen", answer),
      closed: () => phase.take("closed"),
    });
    phase.go("looking", { link, attempt: given, glance, isOver });
  }

  /** The relay has refused the move that no man makes: it says whether the board is there, is this page's, and is over. */
  function knocked(value, answer) {
    const { link, attempt: present } = value;
    if (Knock.isOurs(answer) || answer.name === "GameOver") {
      present.waits.again();
      look(link, present, answer.name === "GameOver");
    } else if (answer.name === "OutOfMemory") {
      tryAgain(value); // It could not say.
    } else if (present.isBack) {
      gone(link, present);
    } else {
      own.notOpened({ link, attempt: present }, { code: 2, name: "BoardExists" });
    }
  }

  /** Whether a position that is told is the one that this page has behind its last move. */
  const isHere = ({ joined, fen }) => joined === view.record().next && fen === Position.write(view.record().present());

  /** The game as another connection saw it, from this page's last move on. */
  function seen({ link, attempt: present }, [first, ...texts]) {
    if (!isHere(first) || texts.some((it) => view.record().take(it) === "lost")) {
      gone(link, present);
      return;
    }
    const { outcome } = view.record();
    const { pending } = present;
    if (outcome === "abandoned" && (pending === null || pending.how !== "abandoned")) {
      gone(link, present);
    } else if (outcome !== null) {
      own.finish(link, outcome, present.correct);
    } else {
      resume(link, present, texts);
    }
  }

  /** Goes on under the same name, with these moves that were not known. What was on its way and did not arrive is sent again. */
  function resume(link, { resend, pending, correct, doubt }, texts) {
    const isPlayed = texts.length > 0 && pending !== null && texts[0].move === pending.move;
    if (texts.length > 0) {
      view.keep();
      view.refresh();
    }
    view.opened();
    view.notice(`Board ${own.game.board} goes on${isPlayed ? `: ${pending.move} was played` : ""}.`);
    if (doubt !== null && texts.length === 0) {
      own.turnedDown(link, pending, resend, doubt);
    } else if (pending !== null && texts.length === 0) {
      own.send(link, pending, resend, correct);
    } else {
      own.goOn(link, isPlayed ? resend.slice(1) : resend);
    }
  }

  /**
   * The board could not be looked at. Where it has no room for another follower, the relay's answer to what was on its way decides: a
   * move that is legal here and not there has been played.
   */
  function unseen(value, answer) {
    const { link, attempt: present, isOver } = value;
    const { pending, doubt } = present;
    if (!NO_ROOM.includes(answer.name)) {
      gone(link, present);
    } else if (isOver) {
      tryAgain(value);
    } else if (doubt !== null) {
      const made = { reply: "move", place: view.record().next, move: pending.move };
      resume(link, present, view.record().take(made) === "moved" ? [made] : []);
    } else {
      resume(link, present, []);
    }
  }

  /** The relay no longer has the game: it was restarted, or it has ended it as abandoned. It is reopened, at once or by a press. */
  function gone(link, { resend, pending, correct }) {
    const { board } = own.game;
    const last = pending && pending.cmd === "submit" ? [pending] : [];
    const sent = correct || [...submits(moves()), ...(resend.length > 0 ? resend : last)];
    const isDropped = pending !== null && pending.cmd === "end" && !sent.includes(pending) && correct === null;
    link.close();
    own.game.outcome = "abandoned";
    view.keep();
    view.notice(`The relay no longer has the game of ${board}.${isDropped ? " The ending was not entered." : ""}`);
    phase.go("idle");
    if (view.isAlone()) {
      own.openNext(sent);
    } else {
      view.state("lost", `The relay no longer has the game of ${board}`);
      view.offer(movesOf(sent));
    }
  }

  /** Tries no more; the game is offered to go on with. */
  function stop({ attempt: present, ...links }) {
    const left = allMoves();
    drop(links);
    if (present) {
      present.waits.stop();
    }
    if (left.length > 0 || (present && present.isBack)) {
      view.offer(left);
    }
    phase.go("idle");
    view.redraw();
  }

  Object.assign(own, { heard, closed, knock, look, stop, allMoves });
  return { tryAgain, broken, lost, retry, knocked, seen, unseen, stop };
};
