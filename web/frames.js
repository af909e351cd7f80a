"use strict";
/*
 * Draws what has changed, a few things in each frame of the screen: where many boards get a move at once, no frame takes long. A page that
 * is not in sight has no frames, and draws when it is seen again.
 */
const Frames = (() => {
  const MOST = 8;
  const waiting = new Set();
  let isAsked = false;

  function ask() {
    if (!isAsked && waiting.size > 0) {
      isAsked = true;
      requestAnimationFrame(frame);
    }
  }

  function frame() {
    isAsked = false;
    const now = [...waiting].slice(0, MOST);
    now.forEach((draw) => {
      waiting.delete(draw);
      draw();
    });
    ask();
  }

  /** Calls `draw` in one of the next frames, once however often it was asked for. */
  function soon(draw) {
    waiting.add(draw);
    ask();
  }

  return { soon };
})();
