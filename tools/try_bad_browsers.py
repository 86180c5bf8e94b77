#!/usr/bin/env python3
"""Plays browsers that do what none should against a built `grist_web`, beside one that does its work.

    tools/try_bad_browsers.py PROGRAM

Starts `PROGRAM serve` on a port of 127.0.0.1 that nobody uses. What is asked for that is not there, by another host or
of another site's page, and what is no request, is refused as docs/SERVING.md says; messages that are no text, too long,
in a million pieces or cut short end their own connection and no other; a hundred heads stop half way. Each connection
that should be there answers all the while, and all lanes are free afterwards. Its status is 1 where anything differs.
"""
import json
import pathlib
import socket
import struct
import subprocess
import sys
import tempfile
import threading
import time

from loopback import HOST, free_ports, joined
from web_sockets import BINARY, CLOSE, PING, PONG, TEXT, WebClient, frame_of, head_of

LANES = 8
USER = '{"user":{"access":"owners","email":"ann@x.org","id":1,"name":"Ann","token":"ta"}}\n'
OPEN = {"method": "openDoc", "token": "ta"}
SYNC = b'{"method":"sync"}'
ADD = {"actions": [["AddRecord", "Table1", None, {"A": 1}]], "method": "applyUserActions"}
FULL = 1_048_576
KEY, ACCEPTED = "dGhlIHNhbXBsZSBub25jZQ==", b"s3pPLMBiTxaQ9kYGzzhZRbK+xOo="  # The example of RFC 6455.


def answer(port, sent, patience=40):
    """What the server says to these bytes until it closes the connection."""
    link, said = joined(port, patience), b""
    try:
        link.sendall(sent)
        while part := link.recv(65_536):
            said += part
    except ConnectionError:
        pass
    link.close()
    return said


def status(port, sent):
    """The number in the first line of what the server says; 0 where it says nothing."""
    said = answer(port, sent)
    return int(said.split(b" ", 2)[1]) if said else 0


def get(port, target, host=None, method="GET"):
    """The head of a request for a page."""
    return f"{method} {target} HTTP/1.1\r\nHost: {host or f'{HOST}:{port}'}\r\n\r\n".encode()


def answers(port):
    """Each request with the status that it has to have."""
    own = f"http://{HOST}:{port}"
    return [
        ("the page", get(port, "/"), 200), ("the page with a query", get(port, "/?x=1"), 200),
        ("two pages", get(port, "/two"), 200), ("by name", get(port, "/", f"localhost:{port}"), 200),
        ("another path", get(port, "/x"), 404), ("a post", get(port, "/", method="POST"), 404),
        ("a plain request for a connection", get(port, "/socket"), 426),
        ("another version", head_of(port, version=8), 426),
        ("another host", get(port, "/", "evil.example"), 403), ("another port", get(port, "/", f"{HOST}:1"), 403),
        ("a host with more behind", get(port, "/", f"{HOST}:{port}.evil.example"), 403),
        ("no host", b"GET / HTTP/1.1\r\n\r\n", 403),
        ("a foreign page", head_of(port, origin="http://evil.example"), 403),
        ("a page of a file", head_of(port, origin="null"), 403),
        ("a page of the other name", head_of(port, origin=f"http://localhost:{port}"), 403),
        ("a page by another scheme", head_of(port, origin=own.replace("http", "https")), 403),
        ("a name that leads here", head_of(port, host="evil.example", origin="http://evil.example"), 403),
        ("no head", SYNC + b"\n", 400), ("too many fields", b"GET / HTTP/1.1\r\n" + b"x: y\r\n" * 80, 400),
        ("too many bytes", b"GET / HTTP/1.1\r\n" + b"".join(b"a%d: %s\r\n" % (i, b"z" * 2000) for i in range(60)),
         None),
    ]


def opened(port):
    """A connection whose document is open."""
    client = WebClient(port, head=head_of(port, origin=f"http://{HOST}:{port}"))
    client.ask(OPEN)
    return client


def handshakes(port, told):
    """A head with messages right behind it, in one piece and in short ones: the key is answered, and each message."""
    talk = head_of(port, key=KEY) + frame_of(json.dumps(OPEN).encode()) + frame_of(SYNC) + frame_of(b"", CLOSE)
    for size in (len(talk), 23):
        link, said = joined(port, 40), b""
        link.setsockopt(socket.IPPROTO_TCP, socket.TCP_NODELAY, 1)
        for start in range(0, len(talk), size):
            link.sendall(talk[start:start + size])
            time.sleep(0.002)
        while part := link.recv(65_536):
            said += part
        link.close()
        head, _, rest = said.partition(b"\r\n\r\n")
        told(f"a head in pieces of {size} bytes", head.split()[1], b"101")
        told("its key is answered", b"sec-websocket-accept: " + ACCEPTED in head.splitlines(), True)
        told("and what stands behind it", rest.count(b'{"ok":'), 2)


def messages(port, told):
    """What one connection is answered to, in order."""
    one = opened(port)
    one.send(b'{"meth', TEXT, False)
    one.send(b"hi", PING)
    one.send(b'od":"sync"}', 0)
    told("a ping between the pieces of a message", one.frame(), (PONG, b"hi"))
    told("and the message", one.reply(), {"ok": None})
    one.send(SYNC + b"\n" + SYNC)
    told("two lines in a message", [one.reply(), one.reply()], [{"ok": None}] * 2)
    one.send(b"")
    one.send(b"x")
    told("an empty message has no answer", one.reply()["error"]["name"], "BadLine")
    one.send(b"x" * FULL)
    told("the longest line", one.reply()["error"]["name"], "BadLine")
    one.send(b"x" * (FULL + 1))
    told("one byte more", one.reply()["error"]["name"], "LineTooLong")
    one.send(SYNC)
    told("it goes on", one.reply(), {"ok": None})
    one.send(struct.pack(">H", 1000), CLOSE)
    told("a close is answered", (one.frame() or (None,))[0], CLOSE)
    told("and is the end", one.frame(), None)
    one.close()


def ends(port, told):
    """What ends its own connection: each with the code that the server gives, where the peer still hears it."""
    bad = [("two bytes more", (b"x" * (FULL + 2),), 1009), ("two megabytes", (b"x" * 2_000_000,), 1009),
           ("bytes", (b"{}", BINARY), 1003), ("no text", (b"\xff\xff",), 1007),
           ("without a mask", (b"{}", TEXT, True, False), 1002), ("an unknown code", (b"{}", 3), 1002),
           ("pieces without a front", (b"{}", 0), 1002)]
    for name, how, code in bad:
        one = opened(port)
        try:
            one.send(*how)
        except ConnectionError:
            pass
        last = one.frame()
        heard = struct.unpack(">H", last[1][:2])[0] if last and last[0] == CLOSE else None
        told(f"{name}: the end", heard in (code, None) and one.frame() is None, True)
        one.close()
    one = opened(port)
    one.socket.sendall(frame_of(b"x" * 1000)[:500])
    one.close()
    one = opened(port)
    one.socket.setsockopt(socket.SOL_SOCKET, socket.SO_LINGER, struct.pack("ii", 1, 0))
    one.close()


def pieces(port, told):
    """A message in very many pieces, of a byte each, and then of none."""
    one = opened(port)
    one.socket.sendall(frame_of(b"x", TEXT, False) + frame_of(b"x", 0, False) * 199_999)
    one.send(b"", 0)
    told("two hundred thousand pieces", one.reply()["error"]["name"], "BadLine")
    one.socket.sendall(frame_of(b"", TEXT, False) + frame_of(b"", 0, False) * 1_000_000 + frame_of(SYNC, 0))
    told("a million pieces of nothing", one.reply(), {"ok": None})
    one.close()


def deaf(port):
    """Asks for much and never reads, until it goes."""
    one = opened(port)
    one.socket.settimeout(3)
    try:
        one.socket.sendall(frame_of(json.dumps(OPEN).encode()) * 100_000)
    except OSError:
        pass
    one.close()


def works(port, faults, ended):
    """Adds rows until all others have ended; changes are numbered without a gap."""
    one, number, rounds = opened(port), 0, 0
    while not ended.is_set() or rounds < 20:
        changes, reply = one.ask(ADD if rounds < 500 else {"method": "sync"})
        rounds += 1
        for change in changes:
            number += 1
            if change["seq"] != number:
                faults.append(f"change {number} has the number {change['seq']}")
        if "ok" not in reply:
            faults.append(f"the good client is told {reply}")
        time.sleep(0.01)
    one.close()


def main():
    program, port, faults = pathlib.Path(sys.argv[1]).resolve(), free_ports(1), []

    def told(name, found, wanted):
        print("ok  " if found == wanted else "NOT ", name)
        if found != wanted:
            faults.append(f"{name}: {str(found)[:200]} and not {str(wanted)[:200]}")

    with tempfile.TemporaryDirectory() as folder:
        server = subprocess.Popen([program, "serve", "--lanes", str(LANES), "--port", str(port), "--conns", "1000000"],
                                  stdin=subprocess.PIPE, stdout=subprocess.DEVNULL, cwd=folder)
        server.stdin.write(USER.encode())
        server.stdin.close()
        ended = threading.Event()
        good = threading.Thread(target=works, args=(port, faults, ended), daemon=True)
        good.start()
        for name, sent, wanted in answers(port):
            found = status(port, sent)
            told(name, found if wanted else found in (0, 400), wanted or True)
        for play in (handshakes, messages, ends, pieces):
            play(port, told)
        deaf(port)
        half = [joined(port) for _ in range(100)]
        for one in half:
            one.sendall(b"GET /socket HT")
        for one in half:
            one.close()
        slow = joined(port)
        slow.sendall(b"GET / HT")
        begun = time.monotonic()
        slow.settimeout(30)
        told("half a head is closed", slow.recv(1) if time.monotonic() else None, b"")
        told("after two seconds", 1 < time.monotonic() - begun < 15, True)
        lanes = [opened(port) for _ in range(LANES - 1)]
        told("all lanes are free", all(one.ask({"method": "sync"})[1] == {"ok": None} for one in lanes), True)
        ended.set()
        good.join()
        for one in lanes:
            one.close()
        server.kill()
        server.wait()
    for fault in faults:
        print(fault)
    return 1 if faults else 0


if __name__ == "__main__":
    sys.exit(main())
