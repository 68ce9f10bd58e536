"""A terminal cast: a session at a pseudoterminal, recorded key by key, and drawn as an animated picture.

The times of a picture are those of its script, and not of the session, so that each recording gives the same picture.
"""
import contextlib
import fcntl
import html
import os
import pty
import select
import struct
import subprocess
import termios
import time

from basics import TOP, free_port, give_up, wait_for_port
from ladder import Picture

# The grid of a pane in pixels, and how long a step of a session is waited for, in seconds.
WIDE, HIGH, PATIENCE = 7.8, 17, 40

STYLE = """.f { visibility: hidden; animation: f SECONDSs step-end infinite }
.z { visibility: visible }
.code { font-size: 13px }
.up { fill: #0969da }
.cursor { fill: #818b98 }
@media (prefers-color-scheme: dark) {
.up { fill: #4493f8 }
}
@media (prefers-reduced-motion: reduce) {
.f { animation: none }
}
"""


class Screen:
    """What a terminal without escape sequences shows: lines of text, and the column of its cursor in the last one."""

    def __init__(self, columns):
        self.columns, self.lines, self.at = columns, [""], 0

    def feed(self, text):
        for letter in text:
            if letter == "\n":
                self.lines.append("")
            elif letter in "\r\b":
                self.at = 0 if letter == "\r" else max(0, self.at - 1)
            else:
                if self.at == self.columns:
                    self.lines.append("")
                    self.at = 0
                line = self.lines[-1].ljust(self.at)
                self.lines[-1] = line[:self.at] + letter + line[self.at + 1:]
                self.at += 1


class Session:
    """`tn connect` at a pseudoterminal, by its launcher, with `tn serve` and these options at its other end."""

    def __init__(self, program, folder, columns, *options):
        self.port, self.shown, self.trace = free_port(), b"", os.path.join(folder, f"trace-{'-'.join(options)}")
        self.server = subprocess.Popen([program, "serve", "--port", str(self.port), *options])
        wait_for_port(self.port, self.server)
        self.client, self.terminal = pty.fork()
        if self.client == 0:
            self.become_client(program, folder, columns)

    def become_client(self, program, folder, columns):
        """Runs the launcher in place of this process, which is the child at the pseudoterminal."""
        launch = os.path.join(TOP, "libexec", "launch")
        words = [launch, program, "connect", "--port", str(self.port), "--trace", self.trace]
        try:
            fcntl.ioctl(0, termios.TIOCSWINSZ, struct.pack("HHHH", 24, columns, 0, 0))
            os.execve(launch, words, {**os.environ, "HOME": folder, "TERM": "xterm"})
        finally:
            os._exit(127)

    def traced(self):
        """Returns the items of the trace, without their times. A line without its end is not there yet."""
        with contextlib.suppress(OSError), open(self.trace, encoding="utf-8") as file:
            return [line.split(" ", 1)[1] for line in file.read().rpartition("\n")[0].splitlines()]
        return []

    def wait(self, is_there, what):
        """Waits until this holds of what is shown and traced."""
        end = time.monotonic() + PATIENCE
        while not is_there(self.shown, self.traced()):
            if time.monotonic() > end:
                give_up(f"wanted {what}, and {self.shown!r} is shown, {self.traced()} traced")
            if select.select([self.terminal], [], [], 0.02)[0]:
                with contextlib.suppress(OSError):
                    self.shown += os.read(self.terminal, 65_536)

    def text(self):
        return self.shown.decode("ascii").replace(str(self.port), "2323")

    def close(self):
        os.close(self.terminal)
        os.waitpid(self.client, 0)
        self.server.terminate()
        self.server.wait()


class Film(Picture):
    """A picture whose lines come and go: each frame is shown for its seconds, and the last one remains if nothing may move."""

    def __init__(self, title, says):
        super().__init__(title, says)
        self.frames = []

    def add(self, seconds, marks):
        """Adds a frame: what is seen, by its place and kind. A mark that the frame before has, too, is drawn once for both."""
        self.frames.append((seconds, marks))

    def spans(self):
        """Each mark, with the frames from which and up to which it is seen."""
        begun = {}
        for number, (_, marks) in enumerate([*self.frames, (0, ())]):
            for mark in [mark for mark in begun if mark not in marks]:
                yield begun.pop(mark), number, mark
            for mark in marks:
                begun.setdefault(mark, number)

    def draw(self):
        """Draws all frames."""
        starts = [0]
        for seconds, _ in self.frames:
            starts.append(starts[-1] + seconds)
        motions, last = {}, len(self.frames)
        for first, after, mark in self.spans():
            motion, kind = "", mark[2]
            if (first, after) != (0, last):
                name, kind = f"f{first}-{after}", f"{kind} f" + (" z" if after == last else "")
                steps = ((0, "hidden"),) * (first > 0) + ((first, "visible"),) + ((after, "hidden"),) * (after < last)
                motions[name] = "".join(f"{100 * starts[at] / starts[-1]:.4g}%{{visibility:{value}}}" for at, value in steps)
                motion = f' style="animation-name:{name}"'
            self.parts.append(drawn(*mark[:2], kind, mark[3], motion))
        self.style += STYLE.replace("SECONDS", f"{starts[-1]:g}")
        self.style += "".join(f"@keyframes {name} {{ {steps} }}\n" for name, steps in motions.items())


def drawn(x, y, kind, text, motion):
    """A line of text, or the cursor if there is none; what is of code keeps to the grid, whichever font it gets."""
    if not text:
        return f'<rect x="{x:g}" y="{y - 13:g}" width="{WIDE}" height="{HIGH - 1}" class="{kind}"{motion}/>'
    grid = f' textLength="{len(text) * WIDE:g}"' if kind.startswith("code") else ""
    return f'<text x="{x:g}" y="{y:g}" class="{kind}"{grid}{motion}>{html.escape(text)}</text>'
