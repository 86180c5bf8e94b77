"""A client of WebSockets over a socket of this machine, for tools that play browsers."""
import base64
import json
import os
import struct

from loopback import HOST, joined

TEXT, BINARY, CLOSE, PING, PONG = 1, 2, 8, 9, 10


def head_of(port, target="/socket", version=13, host=None, origin=None, key=None):
    """The head of a request for a connection."""
    fields = [f"GET {target} HTTP/1.1", f"Host: {host or f'{HOST}:{port}'}", "Upgrade: websocket",
              "Connection: keep-alive, Upgrade", f"Sec-WebSocket-Version: {version}",
              f"Sec-WebSocket-Key: {key or base64.b64encode(os.urandom(16)).decode()}"]
    if origin:
        fields.append(f"Origin: {origin}")
    return ("\r\n".join(fields) + "\r\n\r\n").encode()


def frame_of(data, code=TEXT, last=True, masked=True):
    """A frame with that payload; its mask is of zeros, so that what is sent can be read."""
    size = len(data)
    mark = 128 if masked else 0
    if size < 126:
        length = bytes([mark | size])
    elif size < 65_536:
        length = bytes([mark | 126]) + struct.pack(">H", size)
    else:
        length = bytes([mark | 127]) + struct.pack(">Q", size)
    return bytes([(128 if last else 0) | code]) + length + (b"\0\0\0\0" if masked else b"") + data


class WebClient:
    """One connection, which is one session of the server."""

    def __init__(self, port, patience=60, head=None):
        self.socket = joined(port, patience)
        self.socket.sendall(head or head_of(port))
        self.lines = self.socket.makefile("rb")
        self.answer = b""
        while not self.answer.endswith(b"\r\n\r\n"):
            line = self.lines.readline()
            if not line:
                break
            self.answer += line

    def send(self, data, *how):
        """Sends one frame."""
        self.socket.sendall(frame_of(data, *how))

    def frame(self):
        """The next frame that the server sends: its code and payload; None at the end of the connection."""
        try:
            front = self.lines.read(2)
            if len(front) < 2:
                return None
            size = front[1] & 127
            if size == 126:
                size = struct.unpack(">H", self.lines.read(2))[0]
            elif size == 127:
                size = struct.unpack(">Q", self.lines.read(8))[0]
            return front[0] & 15, self.lines.read(size)
        except ConnectionError:
            return None

    def told(self):
        """The next line."""
        while True:
            frame = self.frame()
            if frame is None or frame[0] == CLOSE:
                raise EOFError(f"the server ended the connection: {frame}")
            if frame[0] == TEXT:
                return json.loads(frame[1])

    def ask(self, request):
        """Sends a request; answers the changes that came before its reply, and the reply."""
        self.send(json.dumps(request, separators=(",", ":")).encode())
        return self.answered()

    def reply(self):
        """The next reply."""
        return self.answered()[1]

    def answered(self):
        """The changes up to the next reply, and it."""
        changes = []
        while True:
            told = self.told()
            if "seq" not in told:
                return changes, told
            changes.append(told)

    def close(self):
        """Goes without a word."""
        self.lines.close()
        self.socket.close()
