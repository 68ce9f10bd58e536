"""Line mode of `tn connect` compared with the kernel's own terminal.

The same random lines are typed at a pseudoterminal in canonical mode (with ECHO, ECHOE, ECHOK and ECHOKE), and at one with the same settings
of `stty` at which a client runs. The lines that are read there and that a service gets are the same bytes, but LF ends a line of the
first, and CR LF a line of the second. The rows of both screens are the same columns, and each row ends with the cursor in the same column.
The kernel's terminal is so wide that no line comes to the end of a row; at a client that is narrow, rows that go on in the next one count as
one row. The first line that differs is printed with its seed and its keys.

Some keys are left out, since line mode is not meant to treat them as the kernel does:

    signals                    flush what the kernel's terminal still has to show
    ^D on an empty line        is the end of file for a reader, and is sent to a service
    ESC, ^]                    begin a cursor key, and a line to the client itself
    ^V                         is ordinary in line mode, which has no LNEXT
    ^?, ^U, ^D                 are ERASE, KILL and EOF in line mode, also if the terminal has other characters for these
    wide, combining, C1        take two columns or none, and the kernel rubs out one for each character
    0x80 to 0xBF, 0xD7, 0xF7   are symbols in the kernel's table, which is Latin-1, so WERASE stops there; with IUTF8 that table is asked
                               of the first byte of a character
    tabs at a narrow client    stop at other columns than those of the wide terminal
    ^H without ECHOCTL         moves the cursor back, and the client does not take account of that at the next tab
"""
import os
import random
import termios

from lines import at_service, reading
from screens import Screen
from terminal import Console
from world import case, expect, expect_same, wait_while_more

# So many lines are typed with a seed, of at most so many keys before RETURN.
LINES, MAX_KEYS = 200, 40

# No line comes to the end of a row of so many columns.
WIDE = 1_000

# How often a key of each function is typed, in hundredths; the other keys are ordinary ones.
FUNCTIONS = ((termios.VERASE, 14), (termios.VWERASE, 5), (termios.VKILL, 2), (termios.VREPRINT, 2), (termios.VEOF, 2), (termios.VSTOP, 1))

LEFT_OUT = frozenset(b"\x03\x1c\x1a\x04" b"\x1b\x1d" b"\x16\x11\x13" b"\x7f\x15" b"\r\n")

# Characters of one column in two, three and four bytes.
CHARACTERS = [text.encode() for text in "éßÿĀΩЖ،–…→ｱ𝐀𝛺"]

# The letters of Latin-1.
LETTERS = [bytes([byte]) for byte in range(0xC0, 0x100) if byte not in (0xD7, 0xF7)]

# A line that is typed first, so that what is shown before it is known.
FIRST = b"first\r\n"


class Keyboard:
    """Random lines for a terminal."""

    def __init__(self, characters, flags, columns, seed):
        self.chance = random.Random(seed)
        self.own = {name: characters[name] for name, _ in (*FUNCTIONS, (termios.VSTART, 0))}
        left_out = LEFT_OUT.union(*self.own.values(), b"\b" if "-echoctl" in flags else b"")
        self.blanks = b" \t" if columns == WIDE else b" "
        self.symbols = [bytes([byte]) for byte in b"!#%&*+,-./:;<=>?@[]^_`{|}~" if byte not in left_out]
        self.controls = [bytes([byte]) for byte in range(32) if byte not in left_out.union(b"\t")]
        self.others = LETTERS if "-iutf8" in flags else CHARACTERS

    def key(self):
        place = self.chance.random() * 100
        for name, share in FUNCTIONS:
            if place < share and self.own[name] != b"\0":
                return self.function(name)
            place -= share
        return self.ordinary()

    def function(self, name):
        if name == termios.VEOF:
            return self.ordinary() + self.own[name]
        if name == termios.VSTOP:
            return self.own[name] + self.ordinary() + self.own[termios.VSTART]
        return self.own[name]

    def ordinary(self):
        kinds = (b"abcxyzABCXYZ0189_", self.blanks, self.symbols, self.controls, self.others)
        key = self.chance.choice(self.chance.choices(kinds, (45, 19, 10, 10, 16))[0])
        return key if isinstance(key, bytes) else bytes([key])

    def line(self):
        keys = b"".join(self.key() for _ in range(self.chance.randint(0, MAX_KEYS)))
        return keys + self.chance.choice((b"\r", b"\r", b"\n"))


def at_kernel(console, lines):
    """The lines that are read at a terminal of the kernel, and what it shows. EOF cuts a line into pieces."""
    taken = b""
    for line in lines:
        os.write(console.master, line)
        while not (piece := os.read(console.slave, 4_096)).endswith(b"\n"):
            taken += piece
        taken += piece
    console.catch_up()
    return taken.split(b"\n")[:-1], bytes(console.shown)


def at_client(world, flags, columns, lines):
    """The lines that a service gets, and what is shown at its client."""
    service, terminal = at_service(world, reading, flags=flags, columns=columns)
    terminal.type(FIRST[:-1], FIRST)
    begin = terminal.shown.index(FIRST) + len(FIRST)
    terminal.paste(b"".join(lines))
    wait_while_more(lambda: len(service.got), lambda: service.got.count(b"\r\n") > len(lines))
    terminal.catch_up()
    shown = bytes(terminal.shown[begin:])
    terminal.leave()
    return bytes(service.got).replace(b"\xff\xff", b"\xff").split(b"\r\n")[1:-1], shown


def rows_of(lines, rows, reprint):
    """The rows of each line: one, and one for each REPRINT."""
    place = 0
    for line in lines:
        count = 1 + (line.count(reprint) if reprint != b"\0" else 0)
        yield rows[place:place + count]
        place += count


@case(long=True, seconds=1_800, each={"IUTF8, 40 seeds": (["iutf8"], WIDE, range(2, 42)), "no IUTF8, 40 seeds": (["-iutf8"], WIDE, range(2, 42)),
                                     "rows of 7 columns, 40 seeds": (["iutf8"], 7, range(2, 42))})
@case(each={"a new terminal of a UTF-8 locale": (["iutf8"],), "no IUTF8": (["-iutf8"],), "no ECHOCTL": (["iutf8", "-echoctl"],),
            "other characters": (["iutf8", "erase", "^H", "werase", "^X", "kill", "^Y", "rprnt", "^T", "eof", "^E"],),
            "printable characters": (["-iutf8", "erase", "#", "werase", "%", "kill", "@", "rprnt", "~"],),
            "no WERASE and REPRINT": (["-iutf8", "werase", "undef", "rprnt", "undef"],),
            "rows of 20 columns": (["iutf8"], 20), "rows of 7 columns": (["iutf8"], 7)})
def lines_are_those_of_the_kernel(world, flags, columns=WIDE, seeds=(1,)):
    for seed in seeds:
        compare(world, flags, columns, seed)


def compare(world, flags, columns, seed):
    console = Console(world, "sleep", 600, flags=flags, columns=WIDE)
    characters = console.before[6]
    keyboard = Keyboard(characters, flags, columns, seed)
    lines = [keyboard.line() for _ in range(LINES)]
    encoding = "latin-1" if "-iutf8" in flags else "utf-8"
    sides = []
    for width, (taken, shown) in ((WIDE, at_kernel(console, lines)), (columns, at_client(world, flags, columns, lines))):
        rows = Screen(width, shown.decode(encoding, "replace")).rows()
        sides.append(list(zip(taken, rows_of(lines, rows, characters[termios.VREPRINT]))))
    for keys, kernel, client in zip(lines, *sides):
        expect(kernel == client, f"seed {seed}, keys {keys!r}\n  the kernel's line and rows: {kernel}\n  those of line mode: {client}")
    expect_same([LINES, LINES], [len(side) for side in sides], f"seed {seed}: how many lines were read")
