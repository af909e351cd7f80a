"""Follows a board and prints its texts: python3 follow.py ws://127.0.0.1:9600 b1 (Debian: apt-get install python3-websockets)."""
import asyncio, json, pathlib, sys, websockets  # noqa: E401

sys.path.append(str(pathlib.Path(__file__).resolve().parent.parent.parent / "tools"))  # A relay_client beside this file is found first.
from relay_client.men import men_of, play  # noqa: E402


async def follow(server, board):
    men, place, reply = None, {"from": 0}, None  # The position, and the place of the next move; without one: from now on.
    while reply != "over":
        try:
            async with websockets.connect(server, ping_interval=None, close_timeout=1) as socket:
                reply = "refused"
                while reply != "over":
                    if reply == "refused":
                        await socket.send(json.dumps({"cmd": "follow", "board": board, "spectator": 0, **place}))
                    text = json.loads(await socket.recv())
                    print(json.dumps(text), flush=True)
                    reply, name = text["reply"], text.get("name")
                    if reply == "move":
                        play(men, text["move"])
                        place = {"from": text["place"] + 1}
                    elif reply == "following" and men in (None, men_of(text["fen"])):
                        men, place = men_of(text["fen"]), {"from": text["joined"]}
                    elif reply == "following" or name in ("NotYet", "TooFarBack"):  # Another game has this name, or moves are gone.
                        men, place = None, {} if name == "TooFarBack" else {"from": 0}
                        break
                    await asyncio.sleep(1 if reply == "refused" else 0)
        except (OSError, websockets.WebSocketException):  # No connection.
            await asyncio.sleep(1)
asyncio.run(follow(*sys.argv[1:]))
