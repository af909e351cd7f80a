"use strict";
/* The boards of a round as a list has them, one a line: a name, perhaps the start's number, perhaps players. r1-1 518 Carlsen – Caruana */
const Lines = (() => {
  function readLine(line) {
    const [, name, start, players] = /^(\S+)(?:\s+(\d{1,3})(?=\s|$))?\s*(.*)$/.exec(line);
    return { name, start: start === undefined ? null : Number(start), players: Players.read(players) };
  }

  const read = (text) => text.split("\n").map((it) => it.trim()).filter((it) => it !== "").map(readLine);

  /** Why these can be no names of a round's boards, or "". */
  function faultOfNames(names) {
    const wrong = names.find((it, index) => !Address.isName(it) || names.indexOf(it) !== index);
    if (wrong !== undefined) {
      const isTwice = Address.isName(wrong);
      return isTwice ? `${wrong} stands here twice.` : `${wrong} is no board's name: it has 1 to 32 of A–Z, a–z, 0–9, _ and -.`;
    }
    const next = names.find((it) => names.some((other) => Names.isSuccessor(it, other)));
    return next ? `${next} is the next name of another board here, and would take its place: end no name in _ and a number.` : "";
  }

  /** Why these can be no boards of a round, or "". */
  function fault(boards) {
    const ofNames = faultOfNames(boards.map((it) => it.name));
    if (ofNames !== "") {
      return ofNames;
    }
    const isFar = ({ start, players: { white } }) => (start !== null && !Position.isStart(start)) || /^\d+(\s|$)/.test(white);
    const far = boards.find(isFar);
    if (far !== undefined) {
      return `${far.name}: the start number is from 0 to 959, and no player's name begins with a number.`;
    }
    const ofPlayers = ({ players: { white, black } }) => Players.fault(white) || Players.fault(black);
    const wrong = boards.find((it) => ofPlayers(it) !== "");
    return wrong ? `${wrong.name}: ${ofPlayers(wrong)}.` : "";
  }

  /** The players of all boards as an address has them, or null where there are none. */
  function players(boards) {
    const text = boards.map((it) => Players.written(it.players)).join(";");
    return /^;*$/.test(text) ? null : text;
  }

  /** The players of all boards, each with its name, as an address has them that says no boards, or null where there are none. */
  const named = (boards) => boards.map(({ name, players: both }) => `${name} ${Players.written(both)}`.trim()).join(";") || null;

  return { read, fault, players, named };
})();
