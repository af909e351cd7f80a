"use strict";
/*
 * The list of a relay's boards, on one connection: its watch port tells it, or a feed keeps it in the channel _boards. Each text tells of
 * one board all that there is to be shown; the last of a board counts. What a connection hands out at first is the whole list. So it is
 * taken together, and boards that are not in it are gone: the relay was restarted. At a watch port their results stay (results.js); of a
 * channel the feed sees to that.
 *
 * `view` is what shows the list:
 *   listed()                     the whole list is another
 *   told(text)                   one board has this text now
 *   state(name, text, short)     how the connection is, in a sentence and in two or three words
 */
const createList = (view) => {
  const CHANNEL = "_boards"; // No board of a round has this name.
  const ANSWERED = 10; // Seconds in which a watch port answers.
  const SETTLED = 250; // Milliseconds after which no other text of the whole list follows,
  const NONE = 1000; // where none came at all,
  const WHOLE = 1000; // and those from the first one on in which all of it has come,
  const KEPT = 5000; // of a channel, which has more to tell.

  const wish = { kind: "relay", server: "", waits: Link.waits(true) };
  /* The last text of each board of the relay, in the order of their opening, and of those that had ended before it was restarted. */
  let texts = new Map();
  let left = new Map();

  /*
   * The states, and what belongs to each:
   *   idle                                     no list is wanted
   *   connecting  link                         the connection is being made
   *   lost                                     there is none, or it told no list; it is tried again by itself
   *   gathering   link, since, .. , kept, first, timer   the whole list comes, into `kept`, since a first text
   *   hearing     link, since, ..              each text counts at once; of a channel: and its signs come
   *   listening   link, since, ..              of a channel: it has shown no sign
   *   silent      link, since, ..              of a channel: for 45 s there was none
   * `..` stands for the rest of a channel's signal (signal.js).
   */
  const ways = { closed, broken };
  const phase = createPhase({
    idle: { begin },
    connecting: { ...ways, connected },
    lost: { retry },
    gathering: { ...ways, refused, board: gathered, beat: marked, settle },
    hearing: { ...ways, board: told, beat, tick },
    listening: { ...ways, board: told, beat, tick },
    silent: { ...ways, board: told, beat },
  }, () => {});

  const isChannel = () => wish.kind === "channel";
  const after = (milliseconds, event) => setTimeout(() => phase.take(event), milliseconds);

  /** Puts a text into a list. Another game of a name was opened later, so it stands at the end. */
  function put(list, text) {
    const before = list.get(text.board);
    if (before !== undefined && !Summary.goesOn(text, before)) {
      list.delete(text.board);
    }
    list.set(text.board, text);
  }

  const all = () => Results.together(left, texts);

  /** Lets the browser keep the results, once there is another one. */
  function keep() {
    if (!isChannel()) {
      Results.keep(wish.server, all());
    }
  }

  /* The connection. */

  function begin(_, given) {
    Object.assign(wish, given);
    left = isChannel() ? left : Results.kept(wish.server);
    connect();
  }

  function connect() {
    view.state("connecting", "Connecting …", "Connecting …");
    const address = isChannel() ? Address.ofChannel(wish.server, CHANNEL) : wish.server;
    const lost = ({ code, fault }) => phase.take(fault ? "broken" : "closed", fault || code);
    const link = Link.open(address, { opened: () => phase.take("connected"), heard: (text) => phase.take(text.reply, text), closed: lost });
    phase.go("connecting", { link });
  }

  /** A watch port is asked twice: it refuses the second as no other server does, so a list without boards is known for one. */
  function connected({ link }) {
    const value = { link, ...Signal.begin(), kept: new Map(), first: null };
    if (isChannel()) {
      phase.go("gathering", { ...value, timer: after(NONE, "settle") });
    } else {
      link.send({ cmd: "boards" });
      link.send({ cmd: "boards" });
      phase.go("gathering", { ...value, timer: after(1000 * ANSWERED, "closed") });
    }
  }

  function again({ link, timer }, text, short) {
    clearTimeout(timer);
    link.close();
    const seconds = wish.waits.next(() => phase.take("retry"));
    view.state("lost", `${text} Trying again in ${seconds} s.`, short);
    phase.go("lost");
  }

  function closed(value, code) {
    const isFull = code === Link.NO_ROOM;
    const [text, short] = isFull
      ? ["The relay has no room for another spectator.", "No room"]
      : ["No connection to the server.", "No connection"];
    again(value, text, short);
  }

  function broken({ timer }, fault) {
    clearTimeout(timer);
    view.state("refused", fault, "No relay");
    phase.go("idle");
  }

  /** The relay's main port knows no list. It may be restarted with a watch port. */
  function refused(value, answer) {
    if (answer.name === "WrongMode") {
      clearTimeout(value.timer);
      value.link.keepAlive();
      phase.go("gathering", { ...value, first: value.first || Date.now(), timer: after(value.kept.size === 0 ? NONE : SETTLED, "settle") });
    } else {
      const isOther = answer.name === "UnknownCommand";
      again(value, isOther ? "This is not a watch port, so it has no list of boards." : Words.refusal(answer), "No list");
    }
  }

  function retry() {
    connect();
  }

  /* The whole list, when the connection is new. */

  function gathered(value, text) {
    clearTimeout(value.timer);
    const first = value.first || Date.now();
    put(value.kept, text);
    phase.go("gathering", { ...Signal.after(value, text), first, timer: after(SETTLED, "settle") });
    if (Date.now() - first > (isChannel() ? KEPT : WHOLE)) {
      phase.take("settle");
    }
  }

  function marked(value, text) {
    phase.go("gathering", Signal.after(value, text));
  }

  function settle({ timer, kept, ...value }) {
    clearTimeout(timer);
    wish.waits.again();
    left = isChannel() ? left : Results.left(all(), kept);
    texts = kept;
    keep();
    view.listed();
    listen(value);
  }

  /* Each text. */

  function listen(value) {
    if (!isChannel() || value.sign !== null) {
      view.state("live", "Live", "Live");
      phase.go("hearing", value);
    } else {
      view.state("connecting", "Connected. Waiting for a signal …", "Waiting …");
      phase.go("listening", value);
    }
  }

  function told(value, text) {
    put(texts, text);
    if (text.outcome !== null) {
      keep();
    }
    view.told(text);
    beat(value, text);
  }

  function beat(value, text) {
    const now = Signal.after(value, text);
    if (value.name === "hearing") {
      phase.go("hearing", now);
    } else {
      listen(now);
    }
  }

  /** Each second: a channel without a sign for too long says so. */
  function tick(value) {
    if (isChannel() && Signal.isSilent(value)) {
      const text = Signal.words(value);
      view.state("silent", text, text);
      phase.go("silent", value);
    }
  }

  setInterval(() => phase.take("tick"), 1000);

  return {
    /** Reads the list of a source (address.js), and never gives up. */
    begin: (source) => phase.take("begin", source),
    texts: all,
  };
};
