"""A WebSocket client with only the standard library, which waits for each text that it expects."""

import ctypes
import socket
import struct

from relay_client.frames import frame, pong, read_frame, request
from relay_client.keys import target_of
from relay_client.program import PATIENCE

SO_ATTACH_FILTER = 26  # Linux, asm-generic/socket.h.
TAKE_NOTHING = struct.pack("HBBI", 6, 0, 0, 0)  # A filter of sockets in one step: it says that no byte is kept.


def stream_to(host, port, room=None, segment=None, patience=PATIENCE):
    """A stream of TCP; with little room for what it receives, or in segments of this many bytes, if given. With small segments the system
    keeps far fewer bytes for a peer that reads nothing. What it sends and receives may each take so many seconds."""
    stream = socket.socket(socket.AF_INET6 if ":" in host else socket.AF_INET)
    if segment:
        stream.setsockopt(socket.IPPROTO_TCP, socket.TCP_MAXSEG, segment)
    if room:
        stream.setsockopt(socket.SOL_SOCKET, socket.SO_RCVBUF, room)
    stream.settimeout(patience)
    stream.connect((host, port))
    return stream


class Connection:
    def __init__(self, port, key=None, target=None, host="127.0.0.1", **how):
        """A connection; with a key, with another target of its request, or to another address, if given. Its stream is made as `how`
        says."""
        self.stream = stream_to(host, port, **how)
        self.stream.sendall(request(target or target_of(key)))
        head = b""
        while not head.endswith(b"\r\n\r\n"):
            head += self.exactly(1)
        assert head.startswith(b"HTTP/1.1 101 "), head

    def exactly(self, count):
        read = b""
        while len(read) < count:
            piece = self.stream.recv(count - len(read))
            assert piece, "the connection ended"
            read += piece
        return read

    def send(self, *lines):
        """Sends the lines in one piece."""
        self.stream.sendall(b"".join(map(frame, lines)))

    def receive(self):
        """The next text or close. Pings on the way are answered."""
        while (received := self.receive_any()) == "ping":
            self.stream.sendall(pong())
        return received

    def receive_any(self):
        """The next text, close or ping, which is left unanswered."""
        return read_frame(self.exactly)

    def hears(self, *lines):
        """Receives these texts next."""
        for line in lines:
            received = self.receive()
            assert received == line, f"{line!r}, but received {received!r}"

    def asks(self, line, answer):
        self.send(line)
        self.hears(answer)

    def has_ended(self):
        """The server ended the connection without a word."""
        received = self.stream.recv(1)
        assert received == b"", received

    def close(self):
        self.stream.close()

    def reset(self):
        """Ends the connection as a broken network does: what is on its way is lost."""
        self.stream.setsockopt(socket.SOL_SOCKET, socket.SO_LINGER, struct.pack("ii", 1, 0))
        self.stream.close()

    def vanish(self):
        """From now on its machine is as one that is switched off: what comes is dropped by the system, which acknowledges and answers
        nothing."""
        steps = ctypes.create_string_buffer(TAKE_NOTHING, len(TAKE_NOTHING))
        self.stream.setsockopt(socket.SOL_SOCKET, SO_ATTACH_FILTER, struct.pack("HP", 1, ctypes.addressof(steps)))
