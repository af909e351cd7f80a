"use strict";
/*
 * The part of a follower (follower.js) that reads a channel. What the channel kept is taken together, since it tells the whole game again.
 * Its feed gives signs, and says under which name the game goes on.
 */
const createChannel = ({ view, phase, say, finish, live, rename, connect }) => {
  const SETTLED = 100; // Milliseconds after which no other text follows that the channel kept,
  const PASSED = 500; // and behind the name of the next board.

  /** What a channel shows at present: that it has no game, that it has one and is fed, or that it has one and has shown no sign. */
  function listen(value) {
    const { origin, outcome } = view.record();
    if (outcome !== null) {
      finish();
      phase.go("ended", value);
    } else if (origin !== null && value.sign !== null) {
      live();
      phase.go("hearing", value);
    } else {
      const [text, short] = origin === null ? ["The channel has no game yet.", "Not open yet"] : ["Waiting for a signal …", "Waiting …"];
      view.state("connecting", `Connected. ${text}`, short);
      phase.go("listening", value);
    }
  }

  function heard(value, text) {
    clearTimeout(value.timer);
    const now = Signal.after(value, text);
    if (now.kept === null) {
      say(view.record().take(text));
      view.refresh();
      listen(now);
      return;
    }
    now.kept.push(text);
    phase.go(now.name, { ...now, timer: setTimeout(() => phase.take("settle"), SETTLED) });
    if (!Signal.isKept(value)) {
      phase.take("settle");
    }
  }

  function beat(value, text) {
    const now = Signal.after(value, text);
    if (now.kept === null) {
      listen(now);
    } else {
      phase.go(now.name, now);
    }
  }

  /** Shows what the channel kept. It tells the whole game again, so what was shown before is compared with it. */
  function settle(value) {
    clearTimeout(value.timer);
    const before = view.record();
    const record = createRecord();
    value.kept.forEach(record.take);
    if (record.origin === null) {
      value.kept.forEach((text) => say(before.take(text)));
      view.refresh();
    } else if (before.isPartOf(record)) {
      view.goOn(record);
    } else {
      say(before.origin === null ? "joined" : "other", record);
      view.start(record);
    }
    listen({ ...value, kept: null });
  }

  /** The feed says under which name the game goes on. A channel may have kept that from before another game of its board. */
  function passedOn(value, { board }) {
    clearTimeout(value.timer);
    phase.go("ended", { ...value, timer: setTimeout(() => phase.take("goOn", board), PASSED) });
  }

  function goOn({ link }, board) {
    link.close();
    rename(board);
    connect();
  }

  /** Each second: a channel without a sign for too long says so. */
  function tick(value) {
    if (view.record().origin !== null && Signal.isSilent(value)) {
      const text = Signal.words(value);
      view.state("silent", text, text);
      phase.go("silent", value);
    }
  }

  setInterval(() => phase.take("tick"), 1000);

  return { listen, heard, beat, passedOn, settle, goOn, tick };
};
