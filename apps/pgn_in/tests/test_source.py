"""A file that is written in every way, and a server that answers in every way."""

import http.server
import logging
import os
import pathlib
import tempfile
import threading
import time
import unittest
from unittest import mock

import source
from source import Unread, source_of

# Not of each callback that was slow.
logging.getLogger("asyncio").setLevel(logging.ERROR)


class Files(unittest.IsolatedAsyncioTestCase):
    async def asyncSetUp(self):
        room = tempfile.TemporaryDirectory()
        self.addCleanup(room.cleanup)
        self.path = pathlib.Path(room.name, "round.pgn")
        self.source = source_of(str(self.path), 3600)

    async def read(self):
        data, _ = await self.source.poll()
        return data

    async def test_each_way_to_write_it_is_seen_before_it_is_due(self):
        self.path.write_bytes(b"1")
        self.assertEqual(await self.source.poll(), (b"1", True))
        self.assertIsNone(await self.source.poll())
        self.path.write_bytes(b"12")
        self.assertEqual(await self.source.poll(), (b"12", False))
        with open(self.path, "ab") as file:
            file.write(b"3")
        self.assertEqual(await self.read(), b"123")
        new = self.path.with_name("new")
        new.write_bytes(b"124")
        os.replace(new, self.path)
        self.assertEqual(await self.read(), b"124")
        self.assertIsNone(await self.source.poll())

    async def test_one_that_is_not_there_yet_is_read_when_it_comes(self):
        with self.assertRaisesRegex(Unread, "No such file"):
            await self.source.poll()
        self.assertIsNone(await self.source.poll())
        self.path.write_bytes(b"1")
        self.assertEqual(await self.read(), b"1")
        self.path.unlink()
        with self.assertRaises(Unread):
            await self.source.poll()

    async def test_one_that_is_being_written_is_read_when_that_is_done(self):
        left = 7

        async def more_is_written(_seconds):
            nonlocal left
            if left:
                left -= 1
                with open(self.path, "ab") as file:
                    file.write(b"x" * 100)

        self.path.write_bytes(b"x" * 100)
        with mock.patch("source.asyncio.sleep", more_is_written):
            self.assertEqual(await self.read(), b"x" * 800)

    async def test_one_that_is_too_long_is_not_read(self):
        self.path.touch()
        os.truncate(self.path, source.MOST + 1)
        with self.assertRaisesRegex(Unread, "more than"):
            await self.source.poll()


class Answer(http.server.BaseHTTPRequestHandler):
    """Answers as the server's `how` says, and notes what was asked."""

    def do_GET(self):
        how, body = self.server.how, self.server.body
        self.server.asked.append((self.headers["If-None-Match"], self.headers["If-Modified-Since"]))
        if how == "silence":
            self.server.go_on.wait(30)
            return
        status = how if isinstance(how, int) else 200
        if status == 200 and self.headers["If-None-Match"] == self.server.tag and self.server.tag:
            status = 304
        self.send_response(status)
        if self.server.tag:
            self.send_header("ETag", self.server.tag)
            self.send_header("Last-Modified", "Fri, 27 Nov 2026 12:00:00 GMT")
        if how == "half":
            self.send_header("Content-Length", str(len(body)))
        elif status == 200 and how != "to the end":
            self.send_header("Content-Length", str(len(body)))
        self.end_headers()
        if status == 200:
            self.wfile.write(body[:len(body) // 2] if how == "half" else body)

    def log_message(self, *_):
        pass


class Addresses(unittest.IsolatedAsyncioTestCase):
    async def asyncSetUp(self):
        self.server = http.server.ThreadingHTTPServer(("127.0.0.1", 0), Answer)
        self.server.how, self.server.body, self.server.tag, self.server.asked = 200, b"1. e4 *", '"a"', []
        self.server.go_on = threading.Event()
        threading.Thread(target=self.server.serve_forever, daemon=True).start()
        self.addCleanup(self.server.server_close)
        self.addCleanup(self.server.shutdown)
        self.addCleanup(self.server.go_on.set)
        self.source = source_of(f"http://127.0.0.1:{self.server.server_port}/round.pgn", 0)

    async def read(self):
        return (await self.source.poll())[0]

    async def is_unread(self, how, words):
        self.server.how = how
        with self.assertRaisesRegex(Unread, words):
            await self.source.poll()

    async def test_what_has_not_changed_is_not_fetched_again(self):
        self.assertEqual(await self.read(), b"1. e4 *")
        self.assertEqual(await self.read(), b"1. e4 *")
        self.server.tag, self.server.body = '"b"', b"1. e4 e5 *"
        self.assertEqual(await self.read(), b"1. e4 e5 *")
        date = "Fri, 27 Nov 2026 12:00:00 GMT"
        self.assertEqual(self.server.asked, [(None, None), ('"a"', date), ('"a"', date)])

    async def test_a_server_without_marks_is_read_each_time(self):
        self.server.tag = None
        self.assertEqual([await self.read(), await self.read()], [b"1. e4 *"] * 2)
        self.assertEqual(self.server.asked, [(None, None)] * 2)

    async def test_what_is_no_answer_is_said_and_the_next_reading_is_taken(self):
        await self.is_unread(404, "answers 404")
        await self.is_unread(500, "answers 500")
        await self.is_unread("half", "a part only")
        self.server.how = "to the end"
        self.server.tag = '"c"'
        self.assertEqual(await self.read(), b"1. e4 *")

    async def test_a_304_that_was_not_asked_for_is_no_answer(self):
        await self.is_unread(304, "answers 304")

    async def test_a_server_that_says_nothing_is_given_up(self):
        patience, source.PATIENCE = source.PATIENCE, 0.5
        self.addCleanup(setattr, source, "PATIENCE", patience)
        began = time.monotonic()
        await self.is_unread("silence", "cannot be read")
        self.assertLess(time.monotonic() - began, 10)
        self.assertEqual(patience, 10)

    async def test_no_server(self):
        self.server.shutdown()
        self.server.server_close()
        await self.is_unread(200, "cannot be read")


if __name__ == "__main__":
    unittest.main()
