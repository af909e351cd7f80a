"use strict";
/*
 * The part of an operator (operator.js) that sends moves and endings on a board that is open, and takes what the relay answers. A game that
 * is over may be corrected: it is played again under its next name.
 */
const createPlaying = (own) => {
  const { view, phase, attempt, submits, moves } = own;

  /** Sends the next command of a game that is reopened, or says that the board is ready. */
  function goOn(link, resend) {
    if (resend.length > 0) {
      view.state("connecting", "Sending the moves again …");
      send(link, resend[0], resend);
      return;
    }
    phase.go("playing", { link });
    view.state("live", `Board ${own.game.board} is open`);
    view.refresh();
  }

  function send(link, command, resend = [], correct = null) {
    phase.go("asked", { link, command, resend, correct });
    link.send({ ...command, board: own.game.board });
    view.redraw();
  }

  function enter({ link }, command, correct) {
    if (correct === null) {
      send(link, command);
    } else {
      phase.go("probing", { link, command, correct });
      Knock.send(link, own.game.next);
    }
  }

  /** Ends a game to correct it, unless somebody else has its next name. */
  function probed({ link, command, correct }, answer) {
    if (Knock.isThere(answer)) {
      goOn(link, []);
      others("Another window or program seems to operate this board.", "Correct the game again");
    } else {
      send(link, command, [], correct);
    }
  }

  /** Says that the next name is somebody else's, and proposes the one behind it. */
  function others(who, again) {
    const { next } = own.game;
    own.game.next = Names.next(next);
    view.say(`${next} is at the relay, and this page did not open it. ${who} Nothing was entered. ${again}: it goes on as `
      + `${own.game.next}.`);
  }

  /** A move was played; false where it is none of the game that this page has. */
  function played({ link, command, resend }, { place, outcome }) {
    if (command.cmd !== "submit" || view.record().take({ reply: "move", place, move: command.move }) !== "moved") {
      return false;
    }
    view.say("");
    if (outcome !== null) {
      over(link, outcome);
    } else {
      goOn(link, resend.slice(1));
    }
    view.keep();
    view.refresh();
    return true;
  }

  /** The game was ended; false where that was not asked. */
  function ended({ link, command, correct }, { outcome }) {
    if (command.cmd !== "end") {
      return false;
    }
    view.say("");
    finish(link, outcome, correct);
    return true;
  }

  /** The game has ended. One that was to be corrected is reopened with these commands. */
  function finish(link, outcome, correct) {
    over(link, outcome);
    view.keep();
    view.refresh();
    if (correct !== null && outcome === "abandoned") {
      own.openNext(correct);
    }
  }

  function over(link, outcome) {
    link.close();
    own.game.outcome = outcome;
    finished(outcome);
    view.notice(`${own.game.board}: ${Outcomes.said(outcome)}`);
  }

  function finished(outcome) {
    phase.go("over");
    view.record().take({ reply: "over", outcome });
    view.state("over", `The game on ${own.game.board} is over`);
    view.over();
  }

  /** Corrects a result by this command, once another connection has seen that nobody else did. */
  function correctResult(_, command) {
    phase.go("weighing", { command, glance: Glance.stand(view.server(), own.game.next, (it) => phase.take("weighed", it)) });
  }

  /** Plays the game again under its next name, and ends it there; unless another window has corrected it, and this one did not know. */
  function weighed({ command, glance }, successor = null) {
    glance.close();
    if (successor === null) {
      own.openNext([...submits(moves()), command]);
      return;
    }
    const { outcome } = successor;
    phase.go("over");
    others(outcome === null ? "Another window or program seems to go on with the game there." : `It ended there: ${Outcomes.said(outcome)}`,
      "Correct the result again");
  }

  /** A move or an ending was refused. A move that is legal on this page was played already, or the game has come further or has ended. */
  function refused({ link, command, resend, correct }, answer) {
    const found = attempt({ resend, correct, pending: command, isBack: true });
    if (answer.name === "GameOver") {
      own.look(link, found, true);
    } else if (answer.name === "Illegal" && command.cmd === "submit") {
      own.look(link, { ...found, doubt: answer }, false);
    } else {
      turnedDown(link, command, resend, answer);
    }
  }

  function turnedDown(link, command, resend, answer) {
    view.say((command.move ? `${command.move}: ` : "") + Words.refusal(answer, command.cmd));
    view.notice(`${command.move || command.how}: ${Words.coded(answer, command.cmd)}`);
    if (resend.length > 0) {
      view.notice(`Sending the moves again stopped at ${command.move || command.how}.`);
    }
    goOn(link, []);
  }

  Object.assign(own, { goOn, send, finish, finished, turnedDown });
  return { enter, probed, played, ended, refused, correctResult, weighed };
};
