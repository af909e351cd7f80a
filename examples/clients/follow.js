// Follows a board and prints its texts: node follow.js ws://127.0.0.1:9600 b1 (node 20 needs --experimental-websocket before follow.js).
"use strict";
const [server, board] = process.argv.slice(2);
let men = null, place = { from: 0 };  // The position, and the place of the next move; without one: from now on.

function menOf(fen) {  // As 64 letters from a8 to h1. A digit stands for that many vacant squares.
  return [...fen.split(" ")[0].replace(/\d/g, (run) => ".".repeat(run)).replace(/\//g, "")];
}

function play(move) {
  const square = (name) => "abcdefgh".indexOf(name[0]) + 8 * (8 - name[1]);
  const origin = square(move), goal = square(move.slice(2)), rank = origin - origin % 8;
  const [man, taken] = [men[origin], men[goal]];
  men[origin] = men[goal] = ".";
  if (man + taken === "KR" || man + taken === "kr") {  // Castling: the king moves onto its own rook.
    [men[rank + (goal > origin ? 6 : 2)], men[rank + (goal > origin ? 5 : 3)]] = [man, taken];
    return;
  }
  if (/p/i.test(man) && taken === "." && goal % 8 !== origin % 8) men[rank + goal % 8] = ".";  // En passant.
  men[goal] = !move[4] ? man : man === "P" ? move[4].toUpperCase() : move[4];
}

function follow() {
  const socket = new WebSocket(server);
  const leave = (seconds) => {
    socket.onmessage = socket.onclose = socket.onerror = null; socket.close(); setTimeout(follow, 1000 * seconds); };
  socket.onopen = () => socket.send(JSON.stringify({ cmd: "follow", board, spectator: 0, ...place }));
  socket.onclose = socket.onerror = () => leave(1);  // No connection.
  socket.onmessage = ({ data }) => {
    const { reply, name, move, place: at, fen, joined } = JSON.parse(data);
    console.log(data);
    if (reply === "move") { play(move); place = { from: at + 1 }; }
    else if (reply === "following" && (!men || `${men}` === `${menOf(fen)}`)) { men = menOf(fen); place = { from: joined }; }
    else if (reply === "following" || name === "NotYet" || name === "TooFarBack") {  // Another game has this name, or moves are gone.
      men = null; place = name === "TooFarBack" ? {} : { from: 0 }; leave(0);
    } else if (reply === "refused") setTimeout(() => socket.onclose && socket.onopen(), 1000);
    else if (reply === "over") socket.onclose = socket.onerror = null;
  };
}
follow();
