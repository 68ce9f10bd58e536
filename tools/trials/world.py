"""What a case is, what it may expect, and the world that it gets: a program, a folder, and all that it starts, which ends with it."""
import ctypes
import dataclasses
import os
import random
import select
import shutil
import signal
import socket
import subprocess
import threading
import time

import basics

# For how many seconds a case waits for what is to happen, however busy the machine is.
PATIENCE = 40

# How many seconds a case may take, unless it says otherwise.
SECONDS = 240

# The call that makes this process the parent of what its children leave (Linux 3.4).
PR_SET_CHILD_SUBREAPER = 36

# Ports that the system gives to nobody who asks for any.
OWN_PORTS = range(10_240, 32_000)


class Failed(Exception):
    """What came is not what was wanted."""


class NotTried(Exception):
    """This machine lacks something that the case wants."""


@dataclasses.dataclass(frozen=True)
class Case:
    """A function that shows something, and what it is given besides its world."""
    function: object
    arguments: tuple
    name: str
    is_long: bool
    is_alone: bool
    seconds: int
    wants: tuple

    @property
    def module(self):
        return self.function.__module__.rpartition(".")[2]

    def run(self, world):
        lacking = [name for name in self.wants if not shutil.which(name)]
        if lacking:
            raise NotTried(f"this machine lacks {' '.join(lacking)}")
        return self.function(world, *self.arguments)


CASES = []


def case(function=None, *, long=False, alone=False, seconds=SECONDS, wants=(), each=None):
    """Marks a case. One that is long is left out by --quick; one that is alone runs when no other does; `wants` are commands. `each`
    has a tuple of arguments for each of several cases, by its label."""
    def mark(marked):
        for label, arguments in (each or {"": ()}).items():
            name = f"{marked.__name__}[{label}]" if label else marked.__name__
            CASES.append(Case(marked, arguments, name, long, alone, seconds, tuple(wants)))
        return marked
    return mark(function) if function else mark


def expect(holds, what):
    if not holds:
        raise Failed(what)


def expect_same(wanted, got, what):
    if wanted != got:
        raise Failed(f"{what}: wanted {shortened(wanted)}, got {shortened(got)}")


def expect_in_order(screen, *texts):
    """These texts stand there, one after another."""
    at = 0
    for text in texts:
        at = screen.find(text, at)
        if at < 0:
            raise Failed(f"wanted {text!r} in this place, got {shortened(bytes(screen))}")
        at += len(text)


def shortened(value, most=1_500):
    text = repr(bytes(value)) if isinstance(value, bytearray) else repr(value)
    return text if len(text) <= most else f"{text[:most // 2]} .. {text[-most // 2:]}"


def within(seconds, holds, pause=0.02):
    """What this gives as soon as it holds; false if it does not in time. It is asked again after each pause."""
    end = time.monotonic() + seconds
    while not (found := holds()):
        if time.monotonic() > end:
            return found
        time.sleep(pause)
    return found


def wait_until(holds, what, seconds=PATIENCE, pause=0.02):
    found = within(seconds, holds, pause)
    expect(found, f"wanted within {seconds} s: {what}")
    return found


def wait_while_more(count, is_done):
    """Waits until this is done, or the count has stayed for long."""
    before = None
    while before != count() and not is_done():
        before = count()
        within(PATIENCE, lambda: is_done() or count() != before)


def free_port():
    for port in random.sample(OWN_PORTS, 100):
        with socket.socket() as probe:
            try:
                probe.bind(("127.0.0.1", port))
                return port
            except OSError:
                continue
    raise Failed("no port is free")


def parents():
    """The parent of each process that has not ended."""
    found = {}
    for number in filter(str.isdigit, os.listdir("/proc")):
        try:
            with open(f"/proc/{number}/stat", "rb") as stat:
                state, parent = stat.read().rpartition(b")")[2].split()[:2]
        except OSError:
            continue
        if state != b"Z":
            found[int(number)] = int(parent)
    return found


def descendants(number):
    """The processes that this one has started, and those that they have."""
    above = parents()
    found, rest = [], [number]
    while rest:
        below = [child for child, parent in above.items() if parent in rest]
        found += below
        rest = below
    return found


def end_descendants(number):
    """Ends what a process has started, until nothing is left of it."""
    while left := descendants(number):
        for child in left:
            try:
                os.kill(child, signal.SIGKILL)
            except ProcessLookupError:
                continue
        time.sleep(0.01)


def adopt_orphans():
    ctypes.CDLL(None).prctl(PR_SET_CHILD_SUBREAPER, 1, 0, 0, 0)


class Collected:
    """What comes from a pipe or a terminal, read by a thread as it comes."""

    def __init__(self, descriptor):
        self.bytes = bytearray()
        self.has_ended = False
        self.is_stopped = False
        self.descriptor = descriptor
        self.thread = threading.Thread(target=self.collect, daemon=True)
        self.thread.start()

    def collect(self):
        while not self.is_stopped:
            if not select.select([self.descriptor], [], [], 0.1)[0]:
                continue
            try:
                piece = os.read(self.descriptor, 65_536)
            except OSError:  # A terminal that is gone gives an error in place of an end.
                piece = b""
            if not piece:
                break
            self.bytes += piece
        self.has_ended = True

    def stop(self):
        """Reads no more, so that the descriptor can be closed."""
        self.is_stopped = True
        self.thread.join()

    def wait_for(self, *texts, after=0):
        """Waits for all of these texts, as long as more comes."""
        for text in texts:
            wait_while_more(lambda: len(self.bytes), lambda: self.bytes.find(text, after) >= 0)
            expect(self.bytes.find(text, after) >= 0, f"wanted {text!r}, got {shortened(bytes(self.bytes[after:]))}")

    def all(self):
        """All that came, once its end has; it goes on waiting as long as more comes."""
        wait_while_more(lambda: len(self.bytes), lambda: self.has_ended)
        expect(self.has_ended, f"wanted an end, got {shortened(bytes(self.bytes))} and no end")
        return bytes(self.bytes)

    def wait_quiet(self, seconds=1):
        """Waits until nothing has come for so long."""
        before = None
        while before != len(self.bytes):
            before = len(self.bytes)
            time.sleep(seconds)


class World:
    """The program, a folder of the case's own, and what it starts; its transcript is printed if the case fails."""

    def __init__(self, program, folder):
        self.program = program
        self.launcher = os.path.join(basics.TOP, "libexec/launch")
        self.folder = folder
        self.kept = []

    def path(self, name):
        return os.path.join(self.folder, name)

    def keep(self, name, show):
        """Names something that the transcript is to show, by a function that gives it."""
        self.kept.append((name, show))

    def transcript(self):
        return [f"  {name}: {shortened(show())}" for name, show in self.kept]

    def start(self, *words, **settings):
        return subprocess.Popen([str(word) for word in words], **settings)

    def run(self, *words, data=b"", **settings):
        """Runs `tn` with these words and this input to its end."""
        return subprocess.run([self.program, *map(str, words)], input=data, check=False, **{"capture_output": True, **settings})


def status_of(process, what="tn"):
    """The status that a process ends with."""
    try:
        return process.wait(PATIENCE)
    except subprocess.TimeoutExpired:
        raise Failed(f"wanted within {PATIENCE} s that {what} ends, and it goes on") from None
