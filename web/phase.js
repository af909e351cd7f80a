"use strict";
/*
 * The state of a page is one value: its name, and what belongs to that state alone. A table says what each state accepts, and who takes
 * it. What a state does not accept changes nothing. `limits` has the seconds after which a state is told that it is `late`.
 */
const createPhase = (accepts, entered, limits = {}) => {
  let present = { name: "idle" };
  let timer = null;

  /** Goes to a state, with what belongs to it. */
  function go(name, more = {}) {
    clearTimeout(timer);
    present = { ...more, name };
    if (Object.hasOwn(limits, name)) {
      timer = setTimeout(() => take("late"), 1000 * limits[name]);
    }
    entered(present);
  }

  /**
   * Lets the present state take an event: the taker gets the state's value and what is given. Answers false where the state does not
   * accept the event, or where the taker says false.
   */
  function take(event, ...given) {
    const taker = Object.hasOwn(accepts[present.name], event) ? accepts[present.name][event] : null;
    return taker !== null && taker(present, ...given) !== false;
  }

  return { now: () => present, is: (...names) => names.includes(present.name), go, take };
};
