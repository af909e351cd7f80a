"use strict";
/*
 * What a channel shows of being fed: { since, sign, beat }. It has been read since a time, `sign` is when it showed last that it is fed,
 * and `beat` is what its last beat says, both null before the first. A feed gives a sign every 15 s.
 */
const Signal = (() => {
  const SILENT = 45; // Seconds.
  const KEPT = 5; // Seconds in which a channel hands out what it kept.

  const begin = () => ({ since: Date.now(), sign: null, beat: null });

  /** Whether the channel may still be handing out what it kept. */
  const isKept = ({ since }) => Date.now() - since < 1000 * KEPT;

  /** What is known after a text: what a channel kept is no sign of the present, but for a beat that tells its time. */
  function after(value, { reply, time }) {
    const said = reply === "beat" ? 1000 * time : null;
    const isFresh = !isKept(value) || (said !== null && Math.abs(Date.now() - said) < 1000 * SILENT);
    return { ...value, sign: isFresh ? Date.now() : value.sign, beat: said || value.beat };
  }

  const isSilent = ({ sign, since }) => Date.now() - (sign || since) >= 1000 * SILENT;

  /** What is to be said of a channel that is silent. */
  function words({ sign, beat }) {
    const time = sign || beat;
    const clock = time && new Date(time).toLocaleTimeString([], { hour: "2-digit", minute: "2-digit", hourCycle: "h23" });
    return clock ? `No signal since ${clock}` : "No signal";
  }

  return { begin, isKept, after, isSilent, words };
})();
