"use strict";
/*
 * The keys of this browser's operator, one for each relay, made by chance at its first use and kept by the browser. A relay takes every
 * connection with the key for the one that opened a board, so a page that lost its connection comes back to its game. A key is no part of
 * what a page shows, saves or hands on: it goes to its relay alone. With one key for all, a link to another server would give it away.
 */
const Key = (() => {
  const KEPT = "sirvandu.key";
  const present = new Map();
  const SIGNS = "ABCDEFGHIJKLMNOPQRSTUVWXYZabcdefghijklmnopqrstuvwxyz0123456789_-"; // 64, so a byte's last six bits choose each as often.
  const LENGTH = 32;
  const FORM = /^[A-Za-z0-9_-]{16,64}$/;

  const make = () => [...crypto.getRandomValues(new Uint8Array(LENGTH))].map((it) => SIGNS[it % SIGNS.length]).join("");

  /** The key that the browser kept for a relay, or a new one. */
  function own(host) {
    const name = `${KEPT} ${host}`;
    let key = present.get(host) || make();
    try {
      const kept = localStorage.getItem(name);
      key = FORM.test(kept) ? kept : key;
      localStorage.setItem(name, key);
    } catch (fault) {
      // A browser that keeps nothing: it holds as long as the page is open.
    }
    present.set(host, key);
    return key;
  }

  /** A relay's address with the key. What is no address stays as it is. */
  function into(address) {
    try {
      const url = new URL(address);
      url.searchParams.set("key", own(url.host));
      return url.href;
    } catch (fault) {
      return address;
    }
  }

  return { into };
})();
