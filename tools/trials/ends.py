"""The ends that a case puts together: servers and clients of ours, and peers and services that do as the case likes."""
import contextlib
import datetime
import os
import re
import select
import socket
import struct
import subprocess
import threading
import time

import basics
from world import PATIENCE, Collected, expect, expect_same, free_port, shortened, status_of, wait_until

IAC, DONT, DO, WONT, WILL, SB, SE = 255, 254, 253, 252, 251, 250, 240
NAWS, LINEMODE, BRK, IP, AYT = 31, 34, 243, 244, 246

# What a client says that agrees on nothing but to get no GA.
NO_GO_AHEAD = bytes([IAC, DO, 3])

TIME = re.compile(r"(\d{4}-\d\d-\d\dT\d\d:\d\d:\d\d\.\d{3})Z ")
NEEDLESS = re.compile(rb"\xff(?:[\xfb-\xfe].|\xf9)", re.DOTALL)


class Serving:
    """`tn serve` at a free port."""

    def __init__(self, world, *words, under=(), port=None, stderr=subprocess.PIPE, **settings):
        self.port = port or free_port()
        self.process = world.start(*under, world.program, "serve", "--port", self.port, *words, stderr=stderr, **settings)
        self.printed = Collected(self.process.stderr.fileno()) if self.process.stderr else None
        world.keep(f"tn serve {' '.join(map(str, words))}", lambda: (self.process.poll(), bytes(self.printed.bytes) if self.printed else None))
        wait_until(lambda: basics.is_listened_to(self.port) or not self.runs(), "tn serve listens")
        expect(self.runs(), f"tn serve ended with {self.process.poll()} before it listened")

    def runs(self):
        return self.process.poll() is None

    def end(self, printed=b"", status=0):
        """It ends by itself, with this status, and has printed this; returns what it printed."""
        expect_same(status, status_of(self.process, "tn serve"), "the status of tn serve")
        all_printed = self.printed.all() if self.printed else b""
        if printed is not None:
            expect_same(printed, all_printed, "what tn serve printed")
        return all_printed

    def notes(self, *plain):
        """The lines that it printed, each but the plain ones without its time, which is checked."""
        return [line if line in plain else without_time(line) for line in self.end(None).decode().splitlines()]

    def files(self):
        return os.listdir(f"/proc/{self.process.pid}/fd")

    def memory(self, kind="VmRSS"):
        """The memory that it holds, in kB, or that of another kind."""
        with open(f"/proc/{self.process.pid}/status", encoding="ascii") as status:
            return int(re.search(kind + r":\s+(\d+) kB", status.read())[1])

    def has_sanitizer(self):
        """Whether it was built to find faults of memory, as one without proofs is: that takes terabytes of addresses."""
        return self.memory("VmSize") > 10**9


def without_time(line):
    found = TIME.match(line)
    expect(found, f"wanted a time before {line!r}")
    noted = datetime.datetime.fromisoformat(found[1] + "+00:00")
    late = (datetime.datetime.now(datetime.timezone.utc) - noted).total_seconds()
    expect(-1 < late < 600, f"{line!r} was noted {late} s ago")
    return line[found.end():]


class Bytes:
    """Bytes that come over a connection, read as they are wanted."""

    def __init__(self, connection):
        self.connection = connection
        self.got = b""

    def read_more(self, seconds):
        """Whether more came in time; false at the end too."""
        if not select.select([self.connection], [], [], max(0, seconds))[0]:
            return False
        try:
            piece = self.connection.recv(65_536)
        except ConnectionError:
            return False
        self.got += piece
        return bool(piece)

    def read_while(self, wants_more, seconds=PATIENCE):
        """Reads while this holds; false if the bytes end before, or none come in time."""
        while wants_more():
            if not self.read_more(seconds):
                return False
        return True

    def read_until(self, *texts, after=0):
        for text in texts:
            expect(self.read_while(lambda: self.got.find(text, after) < 0), f"wanted {text!r} to come, got {shortened(self.got)}")

    def read_rest(self):
        """All that comes before the end."""
        self.read_while(lambda: True)
        return self.got

    def send(self, piece):
        self.connection.sendall(piece)

    def reset(self):
        self.left = time.monotonic()
        self.connection.setsockopt(socket.SOL_SOCKET, socket.SO_LINGER, struct.pack("ii", 1, 0))
        self.connection.close()


class Peer(Bytes):
    """A client that agrees on nothing."""

    def __init__(self, world, port, host="127.0.0.1", opening=b"", name="a peer got"):
        self.began, self.served, self.left = time.monotonic(), None, None
        to = "::1" if ":" in host else "127.0.0.1"
        super().__init__(socket.create_connection((to, port), timeout=PATIENCE, source_address=(host, 0)))
        world.keep(name, lambda: self.got)
        self.address = ("[%s]:%d" if ":" in host else "%s:%d") % self.connection.getsockname()[:2]
        self.sent = 0
        self.send(opening)

    def send(self, piece):
        super().send(piece)
        self.sent += len(piece)

    def is_served(self):
        """Reads until the session says its first words."""
        self.read_until(bytes([IAC, WILL, 1]))
        self.served = time.monotonic()
        return self

    def read_to_end(self):
        """All that came, without words of options and GA, once the connection was closed in order; then it is closed here too."""
        try:
            while True:
                piece = self.connection.recv(65_536)
                if not piece:
                    break
                self.got += piece
        except TimeoutError:
            expect(False, f"wanted the session to end, and it goes on; got {shortened(self.got)}")
        self.connection.close()
        return self.text()

    def text(self):
        return NEEDLESS.sub(b"", self.got)

    def leave(self):
        """Says that no more comes, and reads to the end."""
        self.left = time.monotonic()
        self.connection.shutdown(socket.SHUT_WR)
        return self.read_to_end()


class Listener(Bytes):
    """A server that takes one connection, and does with it as the case likes."""

    def __init__(self, world, backlog=1, buffer=None):
        self.listener = socket.socket()
        if buffer is not None:
            self.listener.setsockopt(socket.SOL_SOCKET, socket.SO_RCVBUF, buffer)
        self.listener.bind(("127.0.0.1", 0))
        self.listener.listen(backlog)
        self.port = self.listener.getsockname()[1]
        super().__init__(None)
        world.keep("the server got", lambda: self.got)

    def accept(self):
        self.listener.settimeout(PATIENCE)
        self.connection = self.listener.accept()[0]

    def settle(self):
        """The client has handled all that was sent before: it has answered two options since, which nobody knows."""
        for option in (98, 99):
            after = len(self.got)
            self.send(bytes([IAC, DO, option]))
            self.read_until(bytes([IAC, WONT, option]), after=after)

    def close(self):
        if self.connection is not None:
            self.connection.close()
        self.listener.close()


def filled(world):
    """A server that takes no connection, and those that wait for it."""
    listener = Listener(world, backlog=0)
    waiting = []
    while not waiting or select.select([], [waiting[-1]], [], 1)[1]:
        waiting.append(socket.socket())
        waiting[-1].setblocking(False)
        waiting[-1].connect_ex(("127.0.0.1", listener.port))
    return listener, waiting


class Relay:
    """A port of which one connection goes on to another port; it keeps what goes there and what comes back."""

    def __init__(self, port, buffers=None):
        self.onward, self.buffers = port, buffers
        self.front = self.sized(socket.socket())
        self.front.bind(("127.0.0.1", 0))
        self.front.listen(1)
        self.port = self.front.getsockname()[1]
        self.went, self.came = bytearray(), bytearray()
        threading.Thread(target=self.run, daemon=True).start()

    def sized(self, connection):
        for option in (socket.SO_RCVBUF, socket.SO_SNDBUF) if self.buffers else ():
            connection.setsockopt(socket.SOL_SOCKET, option, self.buffers)
        return connection

    def run(self):
        client, _ = self.front.accept()
        back = self.sized(socket.socket())
        back.connect(("127.0.0.1", self.onward))
        for ends in ((client, back, self.went), (back, client, self.came)):
            threading.Thread(target=self.carry, args=ends, daemon=True).start()

    @staticmethod
    def carry(source, target, kept):
        with contextlib.suppress(OSError):
            while piece := source.recv(4_096):
                kept += piece
                target.sendall(piece)
            target.shutdown(socket.SHUT_WR)

    def settle(self, seconds=1):
        """Something went and came, and then nothing for so long."""
        wait_until(lambda: self.went and self.came, "both ends say something")
        before = None
        while before != (len(self.went), len(self.came)):
            before = len(self.went), len(self.came)
            time.sleep(seconds)


class User:
    """A user at `tn connect`, whose keys are a pipe; what both ends agree on is seen in a trace."""

    def __init__(self, world, port, *words, edits=None):
        """If it is said who edits, "client" or "server", this returns once both ends have agreed on that."""
        trace = world.path(f"trace-{free_port()}")
        traced = ["--trace", trace] if edits else []
        self.process = world.start(world.program, "connect", "--port", port, *traced, *words, bufsize=0,
                                   stdin=subprocess.PIPE, stdout=subprocess.PIPE, stderr=subprocess.PIPE)
        self.screen = Collected(self.process.stdout.fileno())
        self.printed = Collected(self.process.stderr.fileno())
        world.keep("a screen", lambda: bytes(self.screen.bytes))
        world.keep("tn connect printed", lambda: (self.process.poll(), bytes(self.printed.bytes)))
        if edits:
            agreed = {"client": "> IAC DONT ECHO\n", "server": "< IAC SB LINEMODE SLC"}[edits]
            wait_until(lambda: agreed in read_text(trace), f"the {edits} edits")

    def type(self, keys, *texts):
        """Types keys, and waits until these texts are shown."""
        after = len(self.screen.bytes)
        self.process.stdin.write(keys)
        self.screen.wait_for(*texts, after=after)

    def end(self, status=0, printed=b""):
        """The screen, once it has ended after its keys have; it has printed this."""
        self.process.stdin.close()
        screen = self.screen.all()
        expect_same(status, status_of(self.process, "tn connect"), "the status of tn connect")
        all_printed = self.printed.all()
        if printed is not None:
            expect_same(printed, all_printed, "what tn connect printed")
        return screen


def read_text(path):
    try:
        with open(path, encoding="utf-8") as file:
            return file.read()
    except FileNotFoundError:
        return ""


def size(columns, rows):
    """What says a window of this size (RFC 1073)."""
    return bytes([IAC, SB, NAWS, 0, columns, 0, rows, IAC, SE])


def mode(mask):
    """What sets LINEMODE's mask (RFC 1184)."""
    return bytes([IAC, SB, LINEMODE, 1, mask, IAC, SE])
