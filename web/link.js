"use strict";
/*
 * A connection over WebSocket, and the waits between tries to come back: 0.5 s, doubled up to 10 s, at most 360 of them in a row,
 * which is an hour. A connection that is not made within 10 s is given up. One to a watch port may be kept alive: it is asked for what it
 * refuses, at once and after each silence. From its first answer on, one that does not come shows that the connection is dead.
 */
const Link = (() => {
  const FELL_BEHIND = 4001;
  const NO_ROOM = 1013;
  const NORMAL = 1000;
  const LOST = 1006;
  const CONNECTING = 10;
  const ASKED = 20; // Seconds without a text, after which a watch port is asked,
  const ANSWERED = 10; // and those in which it answers.

  /* A browser makes one connection to a server after another. So a page with many makes a few at a time, and the seconds of each count
   * from its turn on. */
  const turns = { most: 4, taken: 0, waiting: [] };

  function nextTurns() {
    while (turns.taken < turns.most && turns.waiting.length > 0) {
      turns.taken += 1;
      const turn = turns.waiting.shift();
      turn.isTaken = true;
      turn.begin();
    }
  }

  /** Calls `begin` when its turn comes. */
  function takeTurn(begin) {
    const turn = { begin, isTaken: false };
    turns.waiting.push(turn);
    nextTurns();
    return turn;
  }

  /** Ends a turn, or gives it up before it came. Ending it again changes nothing. */
  function endTurn(turn) {
    turns.waiting = turns.waiting.filter((it) => it !== turn);
    if (turn.isTaken) {
      turn.isTaken = false;
      turns.taken -= 1;
      nextTurns();
    }
  }

  const NO_ADDRESS = "This is not an address. An address begins with ws:// or wss://.";
  const NO_RELAY = "This is not a relay: it sent something that no relay sends.";

  function connect(address) {
    try {
      return /^wss?:\/\//i.test(address) ? new WebSocket(address) : null;
    } catch (fault) {
      return null;
    }
  }

  /* Of several addresses that which answered last is asked first, so that a page with many connections asks in vain but once. */
  let answering = null;
  const inOrder = (addresses) => [...addresses].sort((a, b) => (b === answering) - (a === answering));

  /**
   * Opens a connection to an address, or to the first of several that answers. `opened` gets that. `heard` gets each text of the relay as
   * an object and answers whether it was to be expected; after one that was not the connection is closed. `closed` gets the `code` of the
   * close, or a `fault` in words where no other try can mend it. The answer has `send`, `close`, and `keepAlive` for a watch port that has
   * accepted what it was asked for.
   */
  function open(given, { opened, heard, closed }) {
    const own = { socket: null, left: [], turn: null, limit: null, isKept: false, isAnswered: false, pulse: null, ended: false };
    const send = (command) => own.socket.send(JSON.stringify(command));
    const made = () => {
      clearTimeout(own.limit);
      endTurn(own.turn);
    };
    const close = () => {
      own.ended = true;
      made();
      clearTimeout(own.pulse);
      if (own.socket) {
        own.socket.close();
      }
    };
    const end = (why) => {
      if (!own.ended) {
        close();
        closed(why);
      }
    };

    const ask = () => send({ cmd: "boards" });

    function keepAlive() {
      own.isKept = true;
      ask();
    }

    /** Waits for the next text, and asks for one where none comes. */
    function waitOn() {
      clearTimeout(own.pulse);
      own.pulse = setTimeout(() => {
        ask();
        own.pulse = setTimeout(() => end({ code: LOST }), 1000 * ANSWERED);
      }, 1000 * ASKED);
    }

    /** Takes a text, but for a refusal that says no more than that the watch port is there. */
    function take(text) {
      const isAnswer = own.isKept && text !== null && text.reply === "refused";
      own.isAnswered = own.isAnswered || isAnswer;
      if (!isAnswer && (text === null || !heard(text))) {
        end({ fault: NO_RELAY });
      } else if (own.isAnswered && !own.ended) {
        waitOn();
      }
    }

    /** The connection to an address was not made, or it is lost. */
    function lose(socket, why) {
      if (socket !== own.socket || own.ended) {
        return;
      }
      if (own.left.length === 0) {
        end(why);
      } else {
        clearTimeout(own.limit);
        socket.close();
        connectNext();
      }
    }

    function connectNext() {
      const address = own.left.shift();
      const socket = connect(address);
      own.socket = socket;
      if (socket === null) {
        setTimeout(() => end({ fault: NO_ADDRESS }), 0);
        return;
      }
      const lost = (why) => lose(socket, why);
      own.limit = setTimeout(() => lost({ code: LOST }), 1000 * CONNECTING);
      socket.addEventListener("open", () => {
        if (socket === own.socket && !own.ended) {
          made();
          own.left = [];
          answering = address;
          opened(address);
        }
      });
      /* Where a policy of the page blocks the address, no close follows. Else one does, and says more. */
      socket.addEventListener("error", () => setTimeout(() => socket.readyState === WebSocket.CLOSED && lost({ code: LOST }), 0));
      socket.addEventListener("message", (event) => own.ended || take(Texts.read(event.data)));
      socket.addEventListener("close", (event) => lost({ code: event.code }));
    }

    own.turn = takeTurn(() => {
      own.left = inOrder([given].flat());
      connectNext();
    });
    return { send, close, keepAlive };
  }

  /** Waits that grow, and end after a while, unless they are endless. */
  function waits(isEndless = false) {
    const TRIES = isEndless ? Infinity : 360;
    let tried = 0;
    let timer = null;
    return {
      again: () => { tried = 0; },
      stop: () => clearTimeout(timer),
      /** Calls `act` after the next wait and answers its length in seconds, or null where there were enough. */
      next: (act) => {
        if (tried >= TRIES) {
          return null;
        }
        const seconds = Math.min(10, 0.5 * 2 ** tried);
        tried += 1;
        clearTimeout(timer);
        timer = setTimeout(act, 1000 * seconds);
        return seconds;
      },
    };
  }

  return { open, waits, FELL_BEHIND, NO_ROOM, NORMAL };
})();
