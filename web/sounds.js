"use strict";
/*
 * The sounds of a game: of a move, a capture, a check, the end, and a board that needs its operator. The browser makes them itself, so
 * nothing is loaded. They are off until their switch is pressed, and the browser remembers that. A browser makes no sound on a page before
 * the first click or key there; until then the switch says so, and what was not heard is not made up for.
 */
const createSounds = (at) => {
  /* The notes of each: a frequency in hertz, and when it begins and ends, in seconds. */
  const NOTES = {
    move: [[392, 0, 0.07]],
    capture: [[392, 0, 0.06], [262, 0.06, 0.16]],
    check: [[523, 0, 0.07], [659, 0.08, 0.2]],
    over: [[523, 0, 0.14], [392, 0.16, 0.3], [262, 0.32, 0.7]],
    alarm: [[880, 0, 0.2], [660, 0.25, 0.45], [880, 0.5, 0.7], [660, 0.75, 0.95]],
  };
  const LOUD = 0.2;
  const SETTLED = 300; // Milliseconds without a text, after which a game's moves so far have all come.
  const heard = { context: null, plies: 0, isOver: false, isSettled: false, timer: null };

  function note(context, [pitch, begin, end]) {
    const tone = context.createOscillator();
    const volume = context.createGain();
    const now = context.currentTime;
    tone.type = "triangle";
    tone.frequency.value = pitch;
    volume.gain.setValueAtTime(LOUD, now + begin);
    volume.gain.exponentialRampToValueAtTime(0.001, now + end);
    tone.connect(volume).connect(context.destination);
    tone.start(now + begin);
    tone.stop(now + end);
  }

  const isOn = () => at("sounds").checked;
  const isReady = () => heard.context !== null && heard.context.state === "running";

  function play(name) {
    if (isOn() && isReady()) {
      NOTES[name].forEach((it) => note(heard.context, it));
    }
  }

  /** Gets the browser to make sounds, which it does from a click or a key on. */
  async function wake() {
    if (isOn() && !isReady()) {
      heard.context = heard.context || new AudioContext();
      await heard.context.resume();
    }
    at("silent").hidden = !isOn() || isReady();
  }

  function settle() {
    clearTimeout(heard.timer);
    heard.timer = setTimeout(() => { heard.isSettled = true; }, SETTLED);
  }

  /** Another game is shown. */
  function start() {
    Object.assign(heard, { plies: 0, isOver: false, isSettled: false });
    settle();
  }

  function soundOf({ gap, check, deed }) {
    if (gap) {
      return "move";
    }
    const quiet = deed.taken === "" ? "move" : "capture";
    return check ? "check" : quiet;
  }

  /** The record is as it is now: makes the sound of the last that is new in it. */
  function hear({ plies, outcome }) {
    const isNew = plies.length > heard.plies;
    const isEnd = outcome !== null && !heard.isOver;
    heard.plies = plies.length;
    heard.isOver = outcome !== null;
    if (!heard.isSettled) {
      settle();
    } else if (isNew || isEnd) {
      play(isEnd ? "over" : soundOf(plies[plies.length - 1]));
    }
  }

  async function turned() {
    Settings.set("sounds", isOn());
    await wake();
    play("move");
  }

  at("sounds").checked = Settings.isOn("sounds");
  at("silent").hidden = !isOn();
  at("sounds").addEventListener("change", turned);
  ["pointerup", "keydown"].forEach((it) => document.addEventListener(it, wake));

  return { start, hear, alarm: () => play("alarm") };
};
