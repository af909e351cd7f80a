"use strict";
/*
 * What follows one board for a page: at a relay, or in a channel that a feed fills from it (channel.js). After a lost connection it comes
 * back from the place after the last that is shown, so that nothing is missed and nothing shown twice. It compares the position there with
 * the one that is shown, so that never another game is shown as the one before. Where the game has a successor (successors.js), it goes
 * there by itself.
 *
 * `view` is what shows the game:
 *   record()                     the record that it shows
 *   start(record)                shows another record
 *   goOn(record)                 shows a record that has all of the one shown, and more
 *   refresh()                    the record that it shows has changed
 *   state(name, text, short)     how the connection is, in a sentence and in two or three words
 *   notice(text)                 something happened that has to be known
 *   renamed(board)               the game goes on under this name
 *   entered()                    the follower is in another state
 */
const createFollower = (view) => {
  const ASK_AGAIN = 2; // Seconds between two questions for a board,
  const ASK_LATER = 10; // and for the successor of one that has a result: few have one, and each look at a shorter one takes a connection;
  const ASK_RARELY = 60; // once a result has stood
  const SETTLED = 600; // for ten minutes, since most are corrected soon, and a question wakes a phone.
  const PATIENCE = 10800; // Three hours: a spectator may open the page long before the round.
  const LATER = ["NoSuchBoard", "TooManyFollowers", "OutOfMemory"];
  const NO_BOARD = { code: 1, name: "NoSuchBoard" };
  const SHORT = { NoSuchBoard: "Not open yet", TooManyFollowers: "No room", OutOfMemory: "No memory", [Link.FELL_BEHIND]: "Fell behind",
    [Link.NO_ROOM]: "No room" };
  const WHY = { [Link.FELL_BEHIND]: "The relay closed this page's connection because it fell behind.",
    [Link.NO_ROOM]: "The relay has no room for another spectator." };
  const SUCCESSORS = 3; // How many next names are asked for.

  /* What is wanted, whether it is had of a watch port, the waits between tries to connect, for how many seconds a board was asked for in a
   * row, and why a board was refused or the connection lost, as it was said last. */
  const wish = { server: "", instead: null, board: "", from: "first", kind: "relay", isPatient: false, isAtWatchPort: false,
    waits: Link.waits(), asked: 0, said: null };

  /*
   * The states, and what belongs to each. `behind` says that the relay closed the connection because this follower fell behind.
   *   idle                            nothing is followed
   *   connecting  link, behind        the connection is being made
   *   lost        behind              there is no connection; it is tried again by itself
   * At a relay:
   *   asking      link, behind, names, from   it is asked for the first of these boards, from that place on or from now on (null)
   *   peeking     link, behind, names, glance  the first of them has too few moves; another connection looks how it stands
   *   waiting     link, timer         it refused for now, and is asked again
   *   live        link                it tells the game
   *   over        link                it told the end
   * At a channel; `since`, `sign` and `beat` are its signal's (signal.js), and `kept` has the texts that it kept, from its oldest on, until
   * they are shown together:
   *   listening   link, since, sign, beat, kept, timer    it has shown no sign
   *   hearing     the same                                its signs come
   *   silent      the same                                for 45 s there was none
   *   ended       the same                                it told the end; another game may come, or the name under which this one goes on
   */
  const states = {};
  const phase = createPhase(states, view.entered);
  const { listen, heard, beat, passedOn, settle, goOn, tick } = createChannel({ view, phase, say, finish, live, rename, connect });
  const texts = { following: heard, move: heard, over: heard, beat, next: passedOn, settle, goOn };
  const ways = { begin, stop, closed, broken };
  Object.assign(states, {
    idle: { begin },
    connecting: { ...ways, connected },
    lost: { begin, stop, retry },
    asking: { ...ways, following: joined, refused },
    peeking: { ...ways, peeked },
    waiting: { ...ways, ask },
    live: { ...ways, move: told, over: told, cut: () => {} },
    over: { ...ways, closed: ended },
    listening: { ...ways, ...texts, tick },
    hearing: { ...ways, ...texts, tick },
    silent: { ...ways, ...texts },
    ended: { ...ways, ...texts },
  });

  const isChannel = () => wish.kind === "channel";
  const addresses = () =>
    isChannel() ? [Address.ofChannel(wish.server, wish.board)] : [wish.server, wish.instead].filter((it) => it !== null);

  /** Says how the connection is, unless the end of the game is what is to be said. */
  function pill(name, text, short) {
    if (view.record().outcome === null) {
      view.state(name, text, short);
    }
  }

  /* The connection. */

  function connect(behind = false) {
    pill("connecting", "Connecting …", "Connecting …");
    const lost = ({ code, fault }) => phase.take(fault ? "broken" : "closed", fault || code);
    const texted = (text) => phase.take(text.reply, text);
    const link = Link.open(addresses(), { opened: (address) => phase.take("connected", address), heard: texted, closed: lost });
    phase.go("connecting", { link, behind });
  }

  function connected({ link, behind }, address) {
    if (isChannel()) {
      reached();
      listen({ link, ...Signal.begin(), kept: [] });
    } else {
      wish.isAtWatchPort = wish.kind === "watch" && address === wish.server;
      ask({ link, behind });
    }
  }

  function reached() {
    wish.waits.again();
    wish.said = null;
  }

  function broken(_, fault) {
    view.state("refused", fault, "No relay");
    phase.take("stop");
  }

  function closed({ timer, glance }, code) {
    clearTimeout(timer);
    drop({ glance });
    const behind = code === Link.FELL_BEHIND;
    const why = WHY[code] || "No connection to the server.";
    const seconds = wish.waits.next(() => phase.take("retry"));
    if (view.record().outcome === null && (behind || wish.said !== why)) {
      const fell = `The relay closed the connection after ${view.record().next} half-moves, because this page fell behind (4001).`;
      view.notice(behind ? fell : why);
    }
    wish.said = why;
    if (seconds === null) {
      pill("stopped", `${why} Gave up. Press Watch to try again.`, "No connection");
      phase.take("stop");
    } else {
      pill(behind ? "behind" : "lost", `${why} Trying again in ${seconds} s.`, SHORT[code] || "No connection");
      phase.go("lost", { behind });
    }
  }

  function retry({ behind }) {
    connect(behind);
  }

  function stop({ link, timer, glance }) {
    clearTimeout(timer);
    wish.waits.stop();
    drop({ link, glance });
    phase.go("idle");
  }

  /** Closes the connections of a state. */
  function drop({ link, glance }) {
    [link, glance].filter(Boolean).forEach((it) => it.close());
  }

  /* The texts of a game. */

  /** Says what a text of the game met. */
  function say(met, { plies, origin } = view.record()) {
    if (met === "joined" && origin.place > 0) {
      view.notice(`Joined after ${origin.place} half-moves.`);
    } else if (met === "gap") {
      view.notice(`${Words.missed(plies[plies.length - 1])} The relay no longer has them.`);
    } else if (met === "other") {
      view.notice("This board was reopened with another game, which is shown now.");
    } else if (met === "lost") {
      view.notice("A move came without the position before it, and is not shown.");
    }
  }

  function finish() {
    view.state("over", view.record().outcome === "abandoned" ? "Ended without a result" : "The game is over", "Over");
  }

  function live() {
    view.state("live", "Live", "Live");
  }

  /** Forgets the game that was shown. */
  function forget() {
    view.start(createRecord());
  }

  /** Goes to the board on which the game goes on. */
  function rename(board) {
    view.notice(`${wish.board} goes on as ${board}, which is shown now.`);
    wish.board = board;
    view.renamed(board);
    forget();
  }

  /* A relay. */

  /** The boards under which the game may be found: its own until that has ended, and the next ones. */
  function names() {
    const successors = Names.nexts(wish.board, SUCCESSORS);
    return view.record().outcome === null ? [wish.board, ...successors] : successors;
  }

  /** The game that is shown, as its successors are compared with it. */
  const game = () => ({ plies: view.record().next, outcome: view.record().outcome });

  /** How many moves a successor that has no result has to have. Where the relay no longer has the game, nothing is hidden by it. */
  const needed = () => (view.record().outcome === null ? 0 : Successors.needed(game()));

  function ask({ link, behind }) {
    follow({ link, behind, names: names() });
  }

  /** Asks for the first of the names: from its next place on, where it is the board that is shown, or from where a successor has to be. */
  function follow(asked) {
    const first = wish.from === "first" ? 0 : null;
    if (view.record().origin !== null && asked.names[0] === wish.board) {
      followFrom(asked, view.record().next);
    } else {
      followFrom(asked, needed() || first);
    }
  }

  function followFrom({ link, behind, names: boards }, from) {
    phase.go("asking", { link, behind, names: boards, from });
    const command = { cmd: "follow", board: boards[0], spectator: 0 };
    link.send(from === null ? command : { ...command, from });
  }

  /** Goes to a successor that has as many moves as it has to have, and asks for it as for a board that was not shown before. */
  function succeed(link, board) {
    link.close();
    rename(board);
    connect();
  }

  /** The relay tells the position from which its moves come. Where it is none of the game that is shown, the other is, from its start. */
  function joined({ link, names: [board] }, text) {
    wish.asked = 0;
    reached();
    if (board !== wish.board && needed() > 0) {
      succeed(link, board);
      return;
    }
    if (board !== wish.board) {
      rename(board);
    }
    const met = view.record().take(text);
    say(met);
    if (met === "other") {
      link.close();
      wish.from = "first";
      forget();
      connect();
      return;
    }
    view.refresh();
    live();
    if (wish.isAtWatchPort) {
      link.keepAlive();
    }
    phase.go("live", { link });
  }

  function told({ link }, text) {
    say(view.record().take(text));
    view.refresh();
    if (text.reply === "over") {
      finish();
      phase.go("over", { link });
    }
  }

  /** Writes a refusal with its code into the log, once for several in a row. That a game has no successor is nothing to be said. */
  function log(answer) {
    const text = Words.coded(answer);
    if (wish.said !== text && !Outcomes.hasResult(view.record().outcome)) {
      view.notice(text);
    }
    wish.said = text;
  }

  function refused(asked, answer) {
    if (asked.names[0] !== wish.board && needed() > 0) {
      refusedSuccessor(asked, answer);
    } else {
      refusedBoard(asked, answer);
    }
  }

  /** A successor that has got further than is kept has as many moves as it needs. How one with fewer stands has to be seen. */
  function refusedSuccessor(asked, answer) {
    const [board, ...others] = asked.names;
    if (answer.name === "TooFarBack") {
      succeed(asked.link, board);
    } else if (answer.name === "NotYet") {
      peek(asked);
    } else if (answer.name === "NoSuchBoard" && others.length > 0) {
      follow({ ...asked, names: others });
    } else {
      refusedAll(asked, answer);
    }
  }

  /** Looks how the first of the names stands, unless it lacks the only move that it needs: then it has none. */
  function peek(asked) {
    if (needed() === 1) {
      refusedSuccessor(asked, NO_BOARD);
    } else {
      phase.go("peeking", { ...asked, glance: Glance.stand(addresses(), asked.names[0], (it) => phase.take("peeked", it)) });
    }
  }

  function peeked({ glance, ...asked }, successor) {
    if (successor !== null && Successors.takesPlace(successor, game())) {
      succeed(asked.link, asked.names[0]);
    } else {
      refusedSuccessor(asked, NO_BOARD);
    }
  }

  function refusedBoard(asked, answer) {
    const [board, ...others] = asked.names;
    const shown = view.record().origin !== null && board === wish.board;
    if (answer.name === "TooFarBack" && asked.from !== null) {
      if (shown && !asked.behind) {
        view.notice("The relay no longer has the next moves, so this may be another game. It is shown from the current position.");
        forget();
      } else if (!shown) {
        view.notice("The relay no longer has the first moves of this game. It is shown from the current position.");
      }
      followFrom(asked, null);
    } else if (answer.name === "NotYet") {
      view.notice("This board has fewer moves than before, so it was reopened. Its game is shown from the first move.");
      forget();
      followFrom(asked, 0);
    } else if (answer.name === "NoSuchBoard" && others.length > 0) {
      follow({ ...asked, names: others });
    } else {
      refusedAll(asked, answer);
    }
  }

  /** The seconds until the boards are asked for again. */
  function pause() {
    if (!Outcomes.hasResult(view.record().outcome)) {
      return ASK_AGAIN;
    }
    return wish.asked < SETTLED ? ASK_LATER : ASK_RARELY;
  }

  /** None of the boards is to be had. */
  function refusedAll({ link }, answer) {
    log(answer);
    if (LATER.includes(answer.name) && (wish.isPatient || wish.asked < PATIENCE)) {
      const seconds = pause();
      wish.asked += seconds;
      pill("refused", `${Words.refusal(answer)} Asking again every ${seconds} s.`, SHORT[answer.name]);
      phase.go("waiting", { link, timer: setTimeout(() => phase.take("ask"), 1000 * seconds) });
    } else {
      pill("refused", Words.refusal(answer), "Refused");
      phase.take("stop");
    }
  }

  /** The relay has closed the connection behind the end. The game may have a successor, which is waited for. */
  function ended() {
    connect();
  }

  /* What a page wants. */

  function begin(_, given) {
    phase.take("stop");
    const fresh = { waits: Link.waits(given.isPatient), asked: 0, said: null, isAtWatchPort: false };
    Object.assign(wish, { instead: null }, given, fresh);
    forget();
    connect();
  }

  return {
    /** Follows what is given: { kind, server, instead, board, from, isPatient } (address.js). A patient follower never gives up. */
    begin: (given) => phase.take("begin", given),
    /** Answers false where nothing was followed. */
    stop: () => phase.take("stop"),
    isIdle: () => phase.is("idle"),
    board: () => wish.board,
  };
};
