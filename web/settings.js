"use strict";
/* What somebody has set on the pages, kept by this browser for both of them. */
const Settings = (() => {
  const KEY = "sirvandu.settings";

  function all() {
    try {
      const kept = JSON.parse(localStorage.getItem(KEY));
      return kept !== null && typeof kept === "object" ? kept : {};
    } catch (fault) {
      return {};
    }
  }

  const isOn = (name) => all()[name] === true;

  function set(name, value) {
    try {
      localStorage.setItem(KEY, JSON.stringify({ ...all(), [name]: value }));
    } catch (fault) {
      // A browser that keeps nothing: it holds as long as the page is open.
    }
  }

  return { isOn, set };
})();
