"""A pseudoterminal, with the launcher and `tn connect` at it."""
import fcntl
import os
import pty
import select
import struct
import subprocess
import termios
import time

from ends import Listener
from world import PATIENCE, Collected, expect, expect_same, parents, status_of, wait_until

# A shell with job control, which never sets the terminal: it runs its words, goes on with them as often as a line is
# typed once they have stopped, and says how they ended.
SHELL = ["bash", "-m", "-c", """
"$@"; status=$?
while [[ -n $(jobs -s) ]]; do echo stopped; read -r _; fg >/dev/null; status=$?; done
echo "ended with $status"; read -r _""", "shell"]


# What no program shows.
MARK = b"\0mark\0"


def state_of(number):
    """The letter of a process's state; Z if it has ended."""
    try:
        with open(f"/proc/{number}/stat", "rb") as stat:
            return stat.read().rpartition(b")")[2].split()[0].decode()
    except OSError:
        return "Z"


def is_there(number):
    return state_of(number) != "Z"


def words_of(number):
    try:
        with open(f"/proc/{number}/cmdline", "rb") as words:
            return words.read().split(b"\0")
    except OSError:
        return []


class Console:
    """A program at a pseudoterminal, as the leader of a session."""

    def __init__(self, world, *words, rows=40, columns=100, screen=None, errors=None, characters=None, flags=(), **variables):
        self.master, self.slave = pty.openpty()
        self.resize(rows, columns)
        self.set_characters(characters or {})
        if flags:
            subprocess.run(["stty", *flags], stdin=self.slave, check=True)
        self.before = termios.tcgetattr(self.slave)

        def lead():
            os.setsid()
            fcntl.ioctl(0, termios.TIOCSCTTY, 0)

        self.process = world.start(*words, env={**os.environ, "TERM": "xterm", **variables}, stdin=self.slave, stdout=screen or self.slave,
                                   stderr=errors or self.slave, preexec_fn=lead)
        self.collected = Collected(self.master)
        world.keep("a terminal showed", lambda: (self.process.poll(), bytes(self.shown)))

    @property
    def shown(self):
        return self.collected.bytes

    def resize(self, rows, columns):
        fcntl.ioctl(self.slave, termios.TIOCSWINSZ, struct.pack("HHHH", rows, columns, 0, 0))

    def set_characters(self, characters):
        """Sets special characters, as `stty` does."""
        settings = termios.tcgetattr(self.slave)
        for name, character in characters.items():
            settings[6][name] = character
        termios.tcsetattr(self.slave, termios.TCSANOW, settings)

    def type(self, keys, *texts):
        """Types keys, and waits until these texts are shown."""
        after = len(self.shown)
        os.write(self.master, keys)
        self.collected.wait_for(*texts, after=after)

    def paste(self, keys):
        """Types this as fast as it is read."""
        end = time.monotonic() + 4 * PATIENCE
        os.set_blocking(self.master, False)
        while keys and time.monotonic() < end:
            if select.select([], [self.master], [], 1)[1]:
                keys = keys[os.write(self.master, keys[:4096]):]
        os.set_blocking(self.master, True)
        expect(not keys, f"wanted what is pasted to be read, and {len(keys)} bytes are not")

    def see(self, *texts):
        self.collected.wait_for(*texts)

    def catch_up(self):
        """Reads all that was shown: a mark that is shown after it has come."""
        os.write(self.slave, MARK)
        self.see(MARK)
        del self.shown[-len(MARK):]

    def is_set_back(self):
        return termios.tcgetattr(self.slave) == self.before

    def is_raw(self):
        return not termios.tcgetattr(self.slave)[3] & (termios.ICANON | termios.ECHO)

    def gets_raw(self):
        wait_until(self.is_raw, "the terminal is raw")

    def hang_up(self):
        """Takes the terminal away."""
        self.collected.stop()
        os.close(self.master)


class Terminal(Console):
    """The launcher with `tn connect` at a pseudoterminal, as the leader of a session or as a job of a shell."""

    def __init__(self, world, *words, shell=False, folder=None, **settings):
        self.launcher_path, self.has_shell = world.launcher, shell
        super().__init__(world, *(SHELL if shell else []), world.launcher, world.program, "connect", *words,
                         TMPDIR=folder or world.folder, **settings)

    def below(self, parent, is_launcher):
        """A process that this one started, which runs the launcher or does not."""
        for number, above in parents().items():
            if above == parent and (self.launcher_path.encode() in words_of(number)) == is_launcher:
                return number
        return None

    def program(self):
        """The number of the program, which the launcher started."""
        return wait_until(lambda: self.below(self.launcher(), False), "the launcher has started a program")

    def launcher(self):
        """The number of the launcher, or None if a shell started it and it has ended."""
        return self.below(self.process.pid, True) if self.has_shell else self.process.pid

    def see_state(self, *texts):
        """Asks for the state by `^]` `s`, until it has all of these texts."""
        def has_all():
            after = len(self.shown)
            self.type(b"\x1ds\r", b" went\r\n")
            return all(text in self.shown[after:] for text in texts)
        wait_until(has_all, f"the state has {texts!r}")

    def end(self, status=0):
        """It has ended with this status, and has set the terminal back."""
        expect_same(status, status_of(self.process, "the launcher"), "the status of the launcher")
        self.catch_up()
        expect(self.is_set_back(), "the terminal is not set back")

    def leave(self):
        """The user leaves, and all is as it was before."""
        os.write(self.master, b"\x1dq\r")
        self.end()


def at_terminal(world, *words, **settings):
    """A server, and a client at a terminal that has connected to it. Keys go at once unless the words have a mode."""
    listener = Listener(world)
    mode = [] if {"--plain", "--mode"} & set(words) else ["--mode", "char"]
    terminal = Terminal(world, "--port", listener.port, *mode, *words, **settings)
    listener.accept()
    terminal.gets_raw()
    if "--quiet" not in words and "errors" not in settings:
        terminal.see(b"Connected to")
    return listener, terminal
