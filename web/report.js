"use strict";
/*
 * Tells the page of tabs (tables.js), in which an operator's page is a frame, how its board stands. `told()` gives that. That page says
 * when it is the board's turn to be opened: `open()` is called then.
 */
const createReport = (told, open) => {
  const goal = self.origin === "null" ? "*" : self.origin; // Pages from disk have no origin that could be named.
  const isFrame = window.parent !== window;
  let timer = null;
  document.body.classList.toggle("framed", isFrame);

  /* The message is not sent by a function's last value: WebKit would make a tail call of it, and name the parent as its source. */
  function tell() {
    window.parent.postMessage({ board: told() }, goal);
    timer = null;
  }

  addEventListener("message", ({ source, data }) => isFrame && source === window.parent && data && data.open && open());

  /** Tells it when all that changes at once has changed. */
  return () => {
    if (isFrame) {
      clearTimeout(timer);
      timer = setTimeout(tell, 0);
    }
  };
};
