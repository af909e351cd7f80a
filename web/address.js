"use strict";
/*
 * What the address of a page says behind its "?":
 *   watch=ws://HOST:PORT      the relay's watch port
 *   server=ws://HOST:PORT     the relay, at its main port or at its watch port
 *   channel=wss://HOST/sub    the channels to read, in place of a relay
 *   event=TEXT, round=TEXT    the event and its round, for the games that are saved as PGN
 *   board=NAME                one board
 *   boards=NAME,NAME,..       the boards of a round
 *   players=A–B;C–D;..        their players, White first, in the order of the boards. A name may have a comma, as in "Carlsen, Magnus",
 *                             so pairs are parted by ";". A hyphen between spaces does for the dash. Without boards= each pair stands
 *                             after the name of its board: players=NAME A–B;NAME C–D;..
 * Where no source is given, a page of a site takes the site's own channels. A page from disk, or served by its own machine, takes that
 * machine's relay: its watch port, or where none is there its main port.
 */
const Address = (() => {
  const RELAY = "ws://127.0.0.1:9600";
  const WATCH = "ws://127.0.0.1:9601";
  const KINDS = { watch: "watch", server: "relay", channel: "channel" };
  const given = new URLSearchParams(location.search);
  const isOwnMachine = location.protocol === "http:" && /^(localhost|127(\.\d+){3}|\[::1\])$/.test(location.hostname);
  /* Whether a site serves the page. Its spectators have its channels. */
  const IS_OF_SITE = ["http:", "https:"].includes(location.protocol) && !isOwnMachine;
  const isName = (text) => /^[A-Za-z0-9_-]{1,32}$/.test(text);

  /** The key of the source that the address gives, or undefined. */
  const sourceKey = () => ["channel", "watch", "server"].find((it) => given.get(it));

  /** Where the texts come from: { kind, server }, and with `instead` what is asked where nothing answers there. */
  function source() {
    const key = sourceKey();
    if (key !== undefined) {
      return { kind: KINDS[key], server: given.get(key), instead: null };
    }
    return IS_OF_SITE ? { kind: "channel", server: `${location.protocol.replace("http", "ws")}//${location.host}/sub`, instead: null }
      : { kind: "watch", server: WATCH, instead: RELAY };
  }

  /** The keys of a link to a source. */
  const keysOf = (kind, server) => ({ [Object.keys(KINDS).find((it) => KINDS[it] === kind)]: server });

  const parts = (key, mark) => (given.get(key) || "").split(mark).map((it) => it.trim());

  /** The address of a channel. */
  const ofChannel = (server, name) => `${server.replace(/\/+$/, "")}/${name}`;

  /** The players of an address that says no boards, each with the name of its board, as lines of a list. */
  const lines = () => Lines.read((given.get("players") || "").split(";").join("\n"));

  /** The boards whose players the address names without saying which boards there are: { name, players }, each once. */
  function named() {
    const all = lines();
    return all.filter(({ name }, index) => isName(name) && all.findIndex((it) => it.name === name) === index);
  }

  /** The boards of a round, each once: { name, players }. A name that no board can have is left out. */
  function boards() {
    const names = parts("boards", ",");
    const players = parts("players", ";").map(Players.read);
    return names.map((name, index) => ({ name, players: players[index] || Players.NONE }))
      .filter(({ name }, index) => isName(name) && names.indexOf(name) === index);
  }

  /** What is wrong with the boards and the players that the address gives, in words, or "". */
  function fault() {
    const names = given.get("boards") ? parts("boards", ",") : lines().map((it) => it.name);
    const wrong = names.filter((it) => it !== "" && !isName(it));
    const isMore = given.get("boards") && parts("players", ";").slice(names.length).some((it) => it !== "");
    return [
      wrong.length === 0 ? "" : `No board can have this name: ${wrong.join(", ")}.`,
      isMore ? "The address has more pairs of players than boards, so some may stand at a wrong board: a player's name may have no ;." : "",
    ].filter((it) => it !== "").join(" ");
  }

  /* Signs that a person reads in an address stay as they are. */
  const written = (text) => encodeURIComponent(text).replace(/%(2C|2F|3A|3B)/g, decodeURIComponent);

  /** An address of a page, with these keys; null leaves one out, and "" stands without a value. */
  const link = (page, keys) => page + Object.entries(keys).filter(([, value]) => value !== null)
    .map(([key, value], index) => `${index === 0 ? "?" : "&"}${key}${value === "" ? "" : `=${written(value)}`}`).join("");

  /** The keys of the event and its round, for another page's address. */
  const ofEvent = () => ({ event: given.get("event"), round: given.get("round") });

  /** The tags of a game's PGN that say the event and its round, "" where they are not known. */
  const tags = () => ({ Event: given.get("event") || "", Round: given.get("round") || "" });

  /** The address at which one board is watched, from where this page has its texts, with its players. */
  const ofBoard = (board, players) => link("watch.html", {
    channel: given.get("channel"), watch: given.get("watch"), server: given.get("server"), board, players: Players.written(players) || null,
    ...ofEvent(),
  });

  return { RELAY, IS_OF_SITE, source, saysSource: () => sourceKey() !== undefined, keysOf, ofChannel, boards, named, fault, isName,
    link, ofBoard, ofEvent, tags, get: (key) => given.get(key), has: (key) => given.has(key) };
})();
