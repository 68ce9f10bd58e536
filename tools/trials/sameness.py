"""Random keys that are typed over a connection: what the job answers is what one local terminal makes of them.

The screen of `tn connect` has the echo of the keys and what the job writes, one among the other. What the job has to write is a function of
the entries that `tn local` prints of the same keys: a line comes back, a signal is named, `exit` and the end of file are answered by `bye`
and end the session. So a screen is as it should be if it is these answers, whole, in their order, each after the key that closes its entry
was typed, and between them the echo of the keys, in their order:

    as they are         while the client has not heard yet that the server echoes
    as a terminal's     while the server echoes
    none                with --local, once the server has stopped and the client has not heard of it yet
    as a terminal's     with --local, while the client edits and echoes

After the key that ends a session some more keys may be echoed. The client may report that some of those were not sent, or, if it edits, some
of a line that no key has closed. Each session has a seed of
its own; one that differs is printed with its seed, its keys in hexadecimal, the entries and the screen.
"""
import bisect
import concurrent.futures
import random
import re
import subprocess
import threading
import time

from ends import Serving
from world import Failed, case, expect

# How many sessions run at once, and how many seconds one may take.
AT_ONCE = 8
MAX_SECONDS = 180

# A line holds so many bytes before the one that closes it.
MAX_HELD = 254

SIGNALS = {3: "int", 28: "quit", 26: "tstp"}
EOF, ERASE, KILL, LF, CR = 4, 127, 21, 10, 13

# Who echoes, one after another; a server without --local has the first two. Before the last some keys may have no echo.
AS_THEY_ARE, BY_SERVER, BY_CLIENT = range(3)

NOT_SENT = re.compile(rb"tn: closed by the other end; (\d+) (?:bytes typed were|byte typed was) not sent\n")
def some_keys(chance):
    """Keys of all kinds; but what ends a session, `exit` and an end of file on an empty line, is typed near the end alone."""
    keys = bytearray()
    for _ in range(chance.choice([5, 40, 160, 400])):
        kind = chance.random()
        if kind < 0.50:
            keys += bytes([chance.choice(b"abcde ,;/")])
        elif kind < 0.62:
            keys += bytes([chance.choice([CR, CR, LF])])
        elif kind < 0.76:
            keys += bytes([chance.choice([ERASE, ERASE, KILL])])
        elif kind < 0.82:
            keys += bytes([chance.choice(list(SIGNALS))])
        elif kind < 0.86:
            keys += bytes([chance.choice(b"abc"), EOF])
        elif kind < 0.90:
            keys += bytes([chance.choice([255, 255, 0, 128, 254])])
        elif kind < 0.985:
            keys += bytes([chance.choice([key for key in range(256) if key != EOF])])
        else:
            keys += bytes([chance.choice(b"xyz\xff\x01")]) * chance.choice([250, 254, 255, 300])
    if chance.random() < 0.25:
        keys += chance.choice([b"\rexit\r", bytes([CR, EOF])]) + bytes(chance.choices(b"ab\r\x7f", k=chance.randint(0, 20)))
    return bytes(keys)


def echo_and_closing(keys):
    """The echo of each key at a terminal with standard settings, the places of the keys that give an entry, and the length of the last line."""
    held, echo, closing = 0, [], []
    for place, key in enumerate(keys):
        shown = b""
        if key in SIGNALS:
            closing.append(place)
        elif key == EOF:
            closing.append(place)
            held = 0
        elif key in (LF, CR):
            closing.append(place)
            held, shown = 0, b"\r\n"
        elif key == KILL:
            held, shown = 0, b"\r\n"
        elif key == ERASE:
            if held:
                held, shown = held - 1, b"\b \b"
        elif held == MAX_HELD:
            shown = b"\a"
        else:
            held, shown = held + 1, bytes([key])
        echo.append(shown)
    return echo, closing, held


def answers_to(lines):
    """What the job answers to the entries that `tn local` printed, one by one, and whether the last one ends it."""
    answers = []
    for line in lines:
        word, _, rest = line.partition(" ")
        if word == "signal":
            answers.append(rest.encode() + b"\r\n")
        elif word == "eof" or bytes.fromhex(rest) == b"exit\n":
            answers.append(b"bye\r\n")
            return answers, True
        else:
            answers.append(bytes.fromhex(rest).replace(b"\n", b"\r\n"))
    return answers, False


class Screen:
    """What a screen has to be made of: the job's answers, and the echo of the keys."""

    def __init__(self, keys, entries, local):
        self.raw = [b"\r\n" if key in (LF, CR) else bytes([key]) for key in keys]
        self.echo, closing, held = echo_and_closing(keys)
        self.last = BY_CLIENT if local else BY_SERVER
        answers, ends = answers_to(entries)
        self.fits = len(closing) == len(entries)
        self.answers = b"".join(answers)
        # Where the answer ends that each byte of the answers is of.
        self.ends = []
        for answer in answers:
            self.ends += [len(self.ends) + len(answer)] * len(answer)
        # The session may end at any key after this one.
        self.needed = closing[len(answers) - 1] + 1 if ends and self.fits else len(keys)
        # So many bytes at most may be reported as not sent.
        self.unsent = len(keys) - self.needed if ends else held if local else 0
        # So much of the answers may have come once so many keys were typed.
        self.ready = [0] * (len(keys) + 1)
        for place, answer in zip(closing, answers):
            self.ready[place + 1] = len(answer)
        for place in range(len(keys)):
            self.ready[place + 1] += self.ready[place]
        # How long the echo of the first keys is, at a terminal.
        self.length = [0]
        for shown in self.echo:
            self.length.append(self.length[-1] + len(shown))

    def may_be_left(self, screen, at, key, answered):
        """Where who echoes stays from here on: whether the rest of the screen has a length that is to come."""
        echo = len(screen) - at - (len(self.answers) - answered)
        least = self.length[max(self.needed, key)] - self.length[key]
        return least <= echo <= self.length[-1] - self.length[key]

    def may_come(self, screen, state):
        at, phase, key, answered = state
        return phase < self.last or self.may_be_left(screen, at, key, answered)

    def changes(self, screen, state):
        """The states in which another begins to echo; keys that nobody echoed lie between, if the client echoes."""
        at, phase, key, answered = state
        if phase == AS_THEY_ARE:
            yield at, BY_SERVER, key, answered
        if phase < self.last == BY_CLIENT:
            echo = len(screen) - at - (len(self.answers) - answered)
            first = bisect.bisect_left(self.length, self.length[self.needed] - echo)
            end = bisect.bisect_right(self.length, self.length[-1] - echo)
            for later in range(max(key, first), end):
                yield at, BY_CLIENT, later, answered

    def steps(self, screen, state):
        """Where a state leads: how much of the screen, which echo, how many keys and how much of the answers; the likely last.

        The server sends an answer whole; only what the client itself shows may come between two parts of one."""
        at, phase, key, answered = state
        ready = answered < self.ready[key]
        yield from self.changes(screen, state)
        if ready and phase != BY_SERVER and screen[at:at + 1] == self.answers[answered:answered + 1]:
            yield at + 1, phase, key, answered + 1
        if key < len(self.raw):
            shown = self.raw[key] if phase == AS_THEY_ARE else self.echo[key]
            if screen.startswith(shown, at):
                yield at + len(shown), phase, key + 1, answered
        if ready:
            rest = self.answers[answered:self.ends[answered]]
            if screen.startswith(rest, at):
                yield at + len(rest), phase, key, answered + len(rest)

    def is_made_of_these(self, screen):
        if not self.fits:
            return False
        first = (0, AS_THEY_ARE, 0, 0)
        seen, todo = {first}, [first]
        while todo:
            state = todo.pop()
            at, phase, key, answered = state
            if at == len(screen) and answered == len(self.answers) and key >= self.needed:
                return True
            for step in self.steps(screen, state):
                if step not in seen and self.may_come(screen, step):
                    seen.add(step)
                    todo.append(step)
        return False


def entries_of(program, keys):
    run = subprocess.run([program, "local"], input=keys, capture_output=True, timeout=MAX_SECONDS, check=False)
    expect(run.returncode == 0, f"tn local ended with status {run.returncode}: {run.stderr!r}")
    return run.stdout.decode().splitlines()


def type_keys(chance, keys, pipe):
    """Writes the keys in pieces, with pauses before some; an end that has left already takes no more."""
    pieces = chance.choice([1, 20, 40])
    longest = max(1, 2 * len(keys) // pieces)
    pauses = chance.choice([[0], [0.002, 0.01], [0.01, 0.03]])
    time.sleep(chance.choice([0, 0, 0.03, 0.1]))
    try:
        while keys:
            count = chance.randint(1, longest)
            pipe.write(keys[:count])
            pipe.flush()
            keys = keys[count:]
            time.sleep(chance.choice(pauses))
        pipe.close()
    except BrokenPipeError:
        pass


def may_be_printed(printed, wanted):
    found = NOT_SENT.fullmatch(printed)
    return not printed or found and 0 < int(found[1]) <= wanted.unsent


def difference(world, port, seed):
    """Runs the session of a seed: how many keys it has, and what differs in it."""
    chance = random.Random(seed)
    keys = some_keys(chance)
    entries = entries_of(world.program, keys)
    client = world.start(world.program, "connect", "--port", port, stdin=subprocess.PIPE, stdout=subprocess.PIPE, stderr=subprocess.PIPE)
    late = threading.Timer(MAX_SECONDS, client.kill)
    late.start()
    typist = threading.Thread(target=type_keys, args=(chance, keys, client.stdin))
    typist.start()
    screen, printed, status = client.stdout.read(), client.stderr.read(), client.wait()
    typist.join()
    late.cancel()
    wanted = Screen(keys, entries, seed % 2 == 1)
    if wanted.is_made_of_these(screen) and not status and may_be_printed(printed, wanted):
        return len(keys), ""
    return len(keys), "\n".join([
        f"  seed {seed} differs; status {status}, printed {printed!r}, which may say {wanted.unsent}", f"  keys {keys.hex()}",
        "  entries of tn local:", *entries, f"  answers {wanted.answers.hex()}", f"  screen {screen.hex()}"])


@case(long=True, seconds=3_600, each={"1000 sessions": (range(51, 1_051),)})
@case(seconds=600, each={"50 sessions": (range(1, 51),)})
def lines_of_random_keys_are_those_of_one_terminal(world, seeds):
    """Sessions of odd seeds are at a server with --local."""
    servings = [Serving(world, "--limit", "64", "--count", sum(seed % 2 == side for seed in seeds), *["--local"] * side) for side in (0, 1)]
    with concurrent.futures.ThreadPoolExecutor(AT_ONCE) as pool:
        done = list(pool.map(lambda seed: difference(world, servings[seed % 2].port, seed), seeds))
    different = [text for _, text in done if text]
    if different:
        raise Failed("\n".join([f"{len(different)} of {len(done)} sessions differ", *different]))
    for serving in servings:
        serving.end()
    return f"  {len(done)} sessions with {sum(keys for keys, _ in done)} keys"
