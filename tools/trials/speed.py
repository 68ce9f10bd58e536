"""How many lines many sessions get answered, of the built program and of tools/speed/line_server.c, a C server of the same form.

Each of 64 connections types a line with ERASE in it, sometimes with KILL, waits for its echo and its answer, and types the next one, 400
times. Passes go in turn over both servers, with a server of its own for each, and all that comes back is compared. With keys in place of
lines, keys are typed and erased, and each waits for its echo. A case that passes prints for each server the lines per second, and per second
that its process used of a processor: the median of the passes, and the most. It needs cc and libtelnet (Debian: libtelnet-dev).

And how long the built program takes to show what a server sends in one piece, next to inetutils' telnet.
"""
import os
import pty
import statistics
import subprocess
import threading
import time
import tty

import basics
from ends import Listener, Serving
from services import listened
from world import NotTried, case, expect_same, free_port, status_of

SPEED = os.path.join(basics.TOP, "tools", "speed")
SESSIONS = 64
PASS_SECONDS = 300


def compiled(world, name, *libraries):
    program = world.path(name)
    words = ["cc", "-O2", "-pthread", "-o", program, os.path.join(SPEED, f"{name}.c"), *libraries]
    done = subprocess.run(words, capture_output=True, text=True, check=False)
    if done.returncode:
        raise NotTried(f"{name}.c was not compiled (libtelnet is Debian's libtelnet-dev)")
    return program


class Pass:
    """What came of one pass."""

    def __init__(self, printed):
        lines, self.seconds, used, driver, self.middle = map(float, printed.split())
        self.a_second = lines / self.seconds
        self.a_processor_second = lines / max(used, 0.01)
        self.driver = driver / self.seconds


def run_pass(world, form, programs, times, kind):
    """Starts a server, lets the sessions talk to it, and waits until both have ended."""
    driver, theirs = programs
    if form == "tn serve":
        serving = Serving(world, "--limit", "64", "--count", SESSIONS)
        process, port = serving.process, serving.port
    else:
        port = free_port()
        process = world.start(theirs, port, SESSIONS, form, stdout=subprocess.DEVNULL)
        listened(port)
    load = [driver, port, process.pid, SESSIONS, times, *kind]
    done = subprocess.run(list(map(str, load)), stdout=subprocess.PIPE, text=True, timeout=PASS_SECONDS, check=False)
    expect_same((0, 0), (done.returncode, status_of(process, form)), f"the status of the sessions, and of {form}")
    return Pass(done.stdout)


def machine():
    with open("/proc/cpuinfo", encoding="utf-8") as file:
        names = [line.split(": ")[1].strip() for line in file if line.startswith("model name")]
    return (f"  {names[0] if names else 'a processor'}, {os.cpu_count()} processors, Linux {os.uname().release}, "
            f"load {os.getloadavg()[0]:.2f}, {time.strftime('%F', time.gmtime())}")


def summary(passes, what):
    """A line for each server, and for each but the first how many times as many the first one does."""
    medians = {}
    for name, done in passes.items():
        walls, used = [one.a_second for one in done], [one.a_processor_second for one in done]
        medians[name] = statistics.median(walls), statistics.median(used)
        middle, driver = (statistics.median(values) for values in zip(*((one.middle, one.driver) for one in done)))
        yield (f"  {name}: {medians[name][0]:.0f} {what} a second, {max(walls):.0f} at most; {medians[name][1]:.0f} a processor second, "
               f"{max(used):.0f} at most; one takes {middle:.1f} us; the driver used {driver:.2f} of a processor")
    first, *others = medians
    for name in others:
        wall, used = (medians[first][place] / medians[name][place] for place in (0, 1))
        yield f"  {first}: {wall:.2f} times {name} a second, {used:.2f} times a processor second"


@case(long=True, alone=True, seconds=3_600, wants=["cc"], each={
    "lines, next to C": ("lines", 7, 400, "mailbox"), "keys, next to C": ("keys", 7, 400, "mailbox"),
    "lines, next to all forms": ("lines", 7, 400, "mailbox", "lock", "one")})
@case(wants=["cc"], each={"lines": ("lines", 1, 20), "keys": ("keys", 1, 20)})
def all_of_64_sessions_are_answered(world, what, count, times, *forms):
    programs = compiled(world, "soak"), compiled(world, "line_server", "-ltelnet") if forms else None
    passes = {form: [] for form in ("tn serve", *forms)}
    for _ in range(count):
        for form, done in passes.items():
            done.append(run_pass(world, form, programs, times, ["keys"] * (what == "keys")))
    return "\n".join([machine(), *summary(passes, what)])


# The messages of a client have no such letter.
SENT = (b"x" * 62 + b"\r\n") * 320_000


def seconds_to_show(world, is_terminal, *words):
    """How long it takes until all that a server sends has come out of a pipe or a terminal, and the client has ended."""
    listener = Listener(world)
    out, screen = pty.openpty() if is_terminal else os.pipe()
    if is_terminal:
        tty.setraw(screen)
    keys, _ = pipe = os.pipe()
    began = time.monotonic()
    client = world.start(*words, "127.0.0.1", listener.port, stdin=keys, stdout=screen, stderr=subprocess.DEVNULL)
    os.close(screen)
    listener.accept()

    def send():
        listener.send(SENT)
        listener.close()
    sender = threading.Thread(target=send)
    sender.start()
    shown = bytearray()
    try:
        while piece := os.read(out, 65_536):
            shown += piece
    except OSError:  # The end of a terminal.
        pass
    status_of(client, words[0])
    took = time.monotonic() - began
    sender.join()
    if words[0] == world.program:  # telnet loses the last at a terminal.
        expect_same(SENT.count(b"x"), shown.count(b"x"), "how many letters are shown")
    for end in (out, *pipe):
        os.close(end)
    return took


@case(long=True, alone=True, seconds=900, wants=["telnet"], each={"pipe": (False,), "terminal": (True,)})
def what_a_server_sends_is_shown_as_fast_as_by_telnet(world, is_terminal):
    took = {"tn connect": [], "telnet": []}
    for _ in range(9):
        took["tn connect"].append(seconds_to_show(world, is_terminal, world.program, "connect"))
        took["telnet"].append(seconds_to_show(world, is_terminal, "telnet"))
    ours, theirs = (statistics.median(times) for times in took.values())
    return f"{machine()}\n  tn connect: {ours:.2f} s for {len(SENT) / 1e6:.1f} MB; telnet: {theirs:.2f} s, {ours / theirs:.2f} times as long"
