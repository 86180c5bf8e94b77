"""Ports of this machine alone, for tools that start a server and play its clients."""
import socket
import subprocess
import sys
import tempfile
import time

from scripts import USER

HOST = "127.0.0.1"
PATIENCE = 30


def free_ports(count):
    """The first of so many ports in a row that nobody uses, below those that systems hand out by themselves."""
    for first in range(20_000, 32_000, count):
        held = []
        try:
            for port in range(first, first + count):
                one = socket.socket()
                one.setsockopt(socket.SOL_SOCKET, socket.SO_REUSEADDR, 1)
                held.append(one)
                one.bind((HOST, port))
            return first
        except OSError:
            continue
        finally:
            for one in held:
                one.close()
    sys.exit("no ports")


def joined(port, patience=60):
    """A connection to a port, once somebody listens there; so many seconds are waited for that, and for each read."""
    until = time.monotonic() + patience
    while True:
        try:
            return socket.create_connection((HOST, port), timeout=patience)
        except ConnectionRefusedError:
            if time.monotonic() > until:
                raise
            time.sleep(0.01)


class Server:
    """A server of so many lanes with a connection each, and these connections."""

    def __init__(self, program, lanes=2, users=USER, words=(), told=None):
        """The words stand behind its own ones; what it tells beside its end goes to `told`."""
        self.port = free_ports(lanes)
        self.users = tempfile.TemporaryFile()
        self.users.write(users.encode())
        self.users.seek(0)
        words = [program, "serve", "--lanes", str(lanes), "--port", str(self.port), "--conns", "1", *words]
        self.program = subprocess.Popen(words, stdin=self.users, stdout=subprocess.PIPE, stderr=told)
        self.links = [joined(self.port + lane, PATIENCE) for lane in range(lanes)]
        self.lines = [link.makefile("rb") for link in self.links]

    def ask(self, lane, line):
        """Sends a line, and what is written up to its reply."""
        self.links[lane].sendall(line)
        return self.answer(lane)

    def answer(self, lane):
        """What is written up to the next reply."""
        written = b""
        while True:
            came = self.lines[lane].readline()
            written += came
            if not came.endswith(b"\n") or b'"seq"' not in came:
                return written

    def end(self):
        """What the server tells at its end, and its status."""
        told, _ = self.program.communicate(timeout=PATIENCE)
        self.users.close()
        return told, self.program.returncode

    def stop(self):
        self.program.kill()
