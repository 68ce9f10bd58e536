"""`tn connect --plain` with services that take lines, from pipes and at a pseudoterminal."""
import os
import socket
import struct
import subprocess
import tempfile
import termios
import time

from services import Service, answering, listening, strict_mail
from terminal import Terminal
from world import PATIENCE, case, expect, expect_in_order, expect_same

MANY = 1_000_000


def telnet(service, connection):
    """A server of Telnet, whose first two bytes come apart."""
    connection.setsockopt(socket.IPPROTO_TCP, socket.TCP_NODELAY, 1)
    connection.sendall(b"\xff")
    time.sleep(0.3)
    connection.sendall(b"\xfd\x18\xff\xfd\x1f")
    service.read_all(connection)


def doubles(service, connection):
    """A service whose first byte is 255 twice, which is none of Telnet."""
    connection.sendall(b"\xff\xff\xfd")
    service.read_all(connection)


def resets(service, connection):
    """Reads a line, and resets the connection."""
    service.read(connection)
    connection.setsockopt(socket.SOL_SOCKET, socket.SO_LINGER, struct.pack("ii", 1, 0))


def holding(service, connection):
    """Reads all, and says what the case has it say."""
    service.connection = connection
    service.read_all(connection)


def from_pipe(world, talk, data, *options):
    """What the service got, what was printed, and the status and the errors of a run with these bytes as its input."""
    service = Service(world, talk)
    run = world.run("connect", "--plain", *options, f"127.0.0.1:{service.port}", data=data)
    return service.end(), run.stdout, run.returncode, run.stderr


@case(each={
    "all line ends": (b"a\nb\rc\r\nd\xff\n\nhalf", b"a\r\nb\r\nc\r\nd\xff\r\n\r\nhalf"),
    "--lf": (b"a\r\nb\r", b"a\nb\n", "--lf"),
    "--cr": (b"a\r\nb\n", b"a\rb\r", "--cr"),
    "all bytes": (bytes(set(range(256)) - {10, 13}) + b"\n", bytes(set(range(256)) - {10, 13}) + b"\r\n"),
    "a long line": (b"x" * 100_000 + b"\n", b"x" * 100_000 + b"\r\n")})
def lines_from_a_pipe_go_with_their_ends(world, data, wanted, *options):
    expect_same((wanted, b"bye\n", 0, b""), from_pipe(world, listening, data, *options), "the run")


@case
def a_server_that_speaks_telnet_is_reported(world):
    service = Service(world, telnet)
    run = world.start(world.program, "connect", "--plain", f"127.0.0.1:{service.port}",
                      stdin=subprocess.PIPE, stdout=subprocess.PIPE, stderr=subprocess.PIPE)
    expect_same(b"tn: the other end speaks Telnet: leave out --plain\n", run.stderr.readline(), "what is printed at once")
    expect_same((b"\xff\xfd\x18\xff\xfd\x1f", b""), run.communicate(b"x\n", PATIENCE), "what is shown, and what is printed after that")
    expect_same(0, run.returncode, "the status")
    expect_same((b"\xff\xff\xfd", b""), from_pipe(world, doubles, b"x\n")[1::2], "what is shown and reported of a byte 255")


@case
def a_server_that_speaks_telnet_is_reported_once_at_a_terminal(world):
    service = Service(world, telnet)
    terminal = Terminal(world, "--plain", f"127.0.0.1:{service.port}")
    terminal.see(b"leave out --plain\r\n")
    terminal.type(b"\x04")
    terminal.end()
    expect_same(1, terminal.shown.count(b"speaks Telnet"), "how often it was printed")


@case
def the_end_is_sent_late(world):
    def answers_late(service, connection):
        service.read(connection)
        connection.sendall(b"late\n")
        service.read_all(connection)
        service.ended = time.monotonic()
    service = Service(world, answers_late)
    begun = time.monotonic()
    run = world.run("connect", "--plain", "-q", 2, f"127.0.0.1:{service.port}", data=b"a\n")
    service.end()
    expect(service.ended - begun >= 2, "with -q 2 the service gets the end before that")
    expect_same((b"late\n", 0), (run.stdout, run.returncode), "what was shown, and the status")
    run = from_pipe(world, strict_mail, b"QUIT\n", "-q", 10 * PATIENCE)  # It does not wait once the service has closed.
    expect_same(0, run[2], "the status")


@case
def faults_are_reported(world):
    expect_same((3, b"tn: session\ntn: the connection broke\n"), from_pipe(world, resets, b"a\n")[2:], "what is printed of a connection that broke")
    service = Service(world, answering)
    with open("/dev/full", "wb") as full:
        run = world.run("connect", "--plain", f"127.0.0.1:{service.port}", data=b"a\n", capture_output=False, stdout=full, stderr=subprocess.PIPE)
    expect_same((3, b"tn: session\ntn: the screen takes no more\n"), (run.returncode, run.stderr), "what is printed of a full disk")


@case
def options_of_telnet_are_not_for_plain(world):
    for word in ("--return=crlf", "--width=80", "--height=24"):
        run = world.run("connect", "--plain", word, "127.0.0.1:1")
        expect_same((2, True), (run.returncode, b"--plain" in run.stderr), f"the status of {word}, and that it is reported")


def plain_terminal(world, talk, *options, **settings):
    """A service, and a terminal that has connected to it."""
    service = Service(world, talk)
    terminal = Terminal(world, "--plain", *options, f"127.0.0.1:{service.port}", **settings)
    terminal.see(b"Connected to")
    return service, terminal


@case
def it_is_raw_once_the_connection_is_reported(world):
    for _ in range(5):
        service, terminal = plain_terminal(world, listening)
        flags = termios.tcgetattr(terminal.slave)[3]
        expect_same(0, flags & (termios.ICANON | termios.ECHO), "how the terminal is set once the connection is reported")
        terminal.type(b"ab\x7f\r\x04")
        terminal.end()
        expect_same(b"a\r\n", service.end(), "what went")


@case
def lines_are_edited_at_a_terminal(world):
    service, terminal = plain_terminal(world, answering)
    terminal.type(b"helo\x7flo\r", b"got hello\r\n")
    expect_same(b"hello\r\n", bytes(service.got), "what went")
    terminal.type(b"half\x03", b"half^C\r\n")
    terminal.type(b"b\r", b"b\r\ngot b\r\n")
    terminal.type(b"\x04")
    terminal.end()
    expect_same(b"hello\r\nb\r\n", service.end(), "what went in all")
    expect_in_order(terminal.shown, b"helo\x08 \x08lo\r\n", b"got hello\r\n", b"half^C\r\n", b"b\r\ngot b\r\n")


@case
def lines_are_edited_as_in_line_mode(world):
    service, terminal = plain_terminal(world, holding, flags=["iutf8"])
    terminal.type(b"h\xc3\xa9\x7fi one\x17two\r", "hé\b \bi one\b \b\b \b\b \btwo\r\n".encode())
    service.wait_for(b"hi two\r\n")
    terminal.type(b"\x1b[A!", b"hi two!")
    service.connection.sendall(b"news\n")
    terminal.see(b"\b \b" * 7 + b"news\r\nhi two!")
    terminal.type(b"\r", b"\r\n")
    service.wait_for(b"hi two!\r\n")
    terminal.type(b"a", b"a")
    os.write(terminal.master, b"\x13b")
    time.sleep(0.3)  # Nothing is to be shown.
    expect(terminal.shown.endswith(b"a"), "a key is shown at a screen that is stopped")
    terminal.type(b"\x11\r", b"b\r\n")
    service.wait_for(b"ab\r\n")
    terminal.type(b"\x04")
    terminal.end()


@case
def a_long_line_is_drawn_over_rows(world):
    service, terminal = plain_terminal(world, holding, columns=40)
    # The launcher tells the size of the window once the connection stands, and it is read before the next keys.
    terminal.type(b"first\r", b"first\r\n")
    service.wait_for(b"first\r\n")
    time.sleep(1)
    terminal.type(b"x" * 90, b"x" * 40 + b" \r" + b"x" * 40 + b" \r" + b"x" * 10)
    terminal.resize(40, 30)
    time.sleep(1)
    terminal.type(b"\r", b"\r\n")
    service.wait_for(b"x" * 90 + b"\r\n")
    terminal.type(b"y" * 31, b"y" * 30 + b" \ry")
    terminal.type(b"\r\x04")
    terminal.end()


@case(each={"of 1,000 bytes": (1_000,), "as long as one may be": (4_094,)})
def a_long_line_is_sent_whole(world, length):
    service, terminal = plain_terminal(world, listening, columns=10_000)
    terminal.paste(b"x" * length + b"\r")
    terminal.see(b"x" * length + b"\r\n")
    service.wait_for(b"x" * length + b"\r\n")
    expect(b"\x07" not in terminal.shown, "a key is refused")
    terminal.type(b"\x04")
    terminal.end()


@case(each={"4,095 by default": (4_094,), "--line 255": (254, "--line", "255")})
def a_full_line_refuses_keys_and_is_sent_as_it_is_shown(world, most, *words):
    service, terminal = plain_terminal(world, listening, *words, columns=10_000)
    terminal.paste(b"x" * most + b"yyy")
    terminal.see(b"x" * most + b"\x07\x07\x07")
    expect_same(b"", bytes(service.got), "what went before RETURN")
    terminal.type(b"\x7fz\r", b"\x08 \x08z\r\n")
    service.wait_for(b"x" * (most - 1) + b"z\r\n")
    expect_same(b"x" * (most - 1) + b"z\r\n", bytes(service.got), "what went")
    terminal.type(b"\x04")
    terminal.end()


OWN = {termios.VERASE: b"\x08", termios.VINTR: b"\x18", termios.VKILL: b"\x03"}


@case
def the_terminals_own_characters_are_taken_for_plain(world):
    service, terminal = plain_terminal(world, answering, characters=OWN)
    terminal.type(b"helo\x08lo\r", b"got hello")
    terminal.type(b"gone\x03b\x7fc\r", b"got c")
    terminal.type(b"half\x18", b"half^C\r\n")
    terminal.type(b"\x18")
    terminal.end(130)
    expect_same(b"hello\r\nc\r\n", service.end(), "what went")


@case
def standard_characters_are_taken_for_plain(world):
    service, terminal = plain_terminal(world, answering, "--keys=standard", characters=OWN)
    terminal.type(b"a\x08b\r", b"got a\x08b")
    terminal.type(b"\x04")
    terminal.end()
    expect_same(b"a\x08b\r\n", service.end(), "what went")


@case
def an_interrupt_on_an_empty_line_leaves(world):
    service, terminal = plain_terminal(world, answering)
    terminal.type(b"a\r", b"got a")
    terminal.type(b"\x03")
    terminal.end(130)
    expect_same(b"a\r\n", service.end(), "what went")


@case(each={
    "a word": (b"a\x1dstatus\rb\r", b"ab\r\n"),
    "words that are edited": (b"a\x1dstab\x7ftus\rb\x1dxyz\x15help\rc\r", b"abc\r\n"),
    "an empty line": (b"a\x1d\rb\x1d\nc\x1dnone\x03d\r", b"abcd\r\n"),
    "the escape character twice": (b"a\x1d\x1db\r", b"a\x1db\r\n"),
    "an unknown word": (b"a\x1dlose it\rb\r", b"ab\r\n"),
    "a control function": (b"a\x1dsend brk\rb\x1di\rc\r", b"abc\r\n"),
    "keys that send more than a byte": (b"a\x1d\x1b[A\x1bOB\x1b[15~?\rb\r", b"ab\r\n"),
    "another escape character": (b"a\x01?\rb\x1d?\r", b"ab\x1d?\r\n", {}, "--escape", "^A"),
    "no escape character": (b"a\x1d?\r", b"a\x1d?\r\n", {}, "--escape", "none"),
    "own characters": (b"ax\x08\x1dlose\x08\x08\x08\x08?\rb\r", b"ab\r\n", {termios.VERASE: b"\x08"})})
def a_line_to_the_client_goes_to_no_service(world, keys, wanted, characters=None, *words):
    service, terminal = plain_terminal(world, listening, *words, characters=characters)
    terminal.type(keys)
    service.wait_for(wanted[-2:])
    terminal.type(b"\x04")
    terminal.end()
    expect_same(wanted, service.end(), "what went")


@case
def a_line_to_the_client_is_shown_in_the_midst_of_another(world):
    service, terminal = plain_terminal(world, answering)
    terminal.see(b"Connected to 127.0.0.1. Escape character is '^]'.\r\n")
    terminal.type(b"one\r", b"one\r\ngot one\r\n")
    terminal.type(b"ab", b"ab")
    terminal.type(b"\x1dstap\x7ftus", b"\r\ntn> stap\x08 \x08tus")
    terminal.type(b"\r", f"connected to 127.0.0.1 port {service.port}\r\nlines are edited here, echo is made here\r\n8 bytes came, 5 went\r\n".encode())
    terminal.type(b"\x1dhelp\r", b"\r\nlog FILE ", b"again sends itself.\r\n")
    expect(b"send brk" not in terminal.shown, "what only Telnet has is listed")
    terminal.type(b"\x1db\r", b"\r\nwithout Telnet no control function can be sent\r\n")
    terminal.type(b"\x1dreturn lf\r", b"\r\nwithout Telnet --lf and --cr choose what RETURN sends\r\n")
    terminal.type(b"\x1dlose\r", b"\r\nunknown command")
    terminal.type(b"c\r", b"got abc\r\n")
    terminal.type(b"\x04")
    terminal.end()
    _, terminal = plain_terminal(world, listening, "--escape", "none")
    terminal.see(b"Connected to 127.0.0.1.\r\n")


@case(each={word: (b"\x1d" + word.encode() + b"\r",) for word in ("q", "quit", "close")})
def it_can_be_left_by_a_word(world, keys):
    service, terminal = plain_terminal(world, answering)
    terminal.type(b"one\rhalf" + keys + b"two\r", b"Connection closed.\r\n")
    terminal.end()
    expect_same(b"one\r\n", service.end(), "what went")
    expect(b"not sent" not in terminal.shown, "keys are reported as not sent")


@case
def a_service_that_reads_nothing_can_be_left_by_a_word(world):
    service = Service(world, lambda service, connection: service.hold(), buffer=1024)
    terminal = Terminal(world, "--plain", f"127.0.0.1:{service.port}")
    terminal.see(b"Connected to")
    lines = (b"x" * 99 + b"\r") * 10_000
    terminal.paste(lines[:200_000])
    begun = time.monotonic()
    terminal.type(b"\x1dq\r")
    terminal.end()
    expect(time.monotonic() - begun < 10, "leaving takes too long")
    service.go_on.set()


@case
def it_can_be_stopped_by_a_word(world):
    service, terminal = plain_terminal(world, answering, shell=True)
    terminal.type(b"ab\x1dz\r", b"stopped")
    expect(terminal.is_set_back(), "the terminal is not set back while it is stopped")
    terminal.type(b"\n")
    terminal.gets_raw()
    terminal.type(b"c\r")
    service.wait_for(b"c\r\n")
    terminal.type(b"\x1dq\r", b"ended with 0")
    expect_same(b"abc\r\n", service.end(), "what went")


@case
def a_stop_stops_it_and_is_not_sent(world):
    service, terminal = plain_terminal(world, answering, shell=True)
    terminal.type(b"ab", b"ab")
    terminal.type(b"\x1a", b"stopped")
    terminal.type(b"\n")
    terminal.gets_raw()
    terminal.type(b"c\r")
    service.wait_for(b"c\r\n")
    terminal.type(b"\x04", b"ended with 0")
    expect(b"\x1a" not in service.end(), "^Z went to the service")


@case(long=True, seconds=1_200, each={"1,000,000": (MANY,)})
@case(each={"20,000": (20_000,)})
def each_of_many_lines_is_answered(world, count):
    data = b"".join(b"line %d\n" % n for n in range(count))
    got, shown, *_ = from_pipe(world, answering, data)
    expect_same(data.replace(b"\n", b"\r\n"), got, "what went")
    expect_same(b"".join(b"got line %d\n" % n for n in range(count)) + b"farewell\n", shown, "what was shown")


@case(long=True, alone=True, seconds=1_200, wants=["nc.openbsd"])
def a_file_goes_to_a_service_as_by_nc(world):
    def seconds_of(*words):
        file.seek(0)
        service = Service(world, listening)
        begun = time.monotonic()
        run = subprocess.run([*words, "127.0.0.1", str(service.port)], stdin=file, capture_output=True, timeout=600, check=False)
        expect_same((b"bye\n", MANY), (run.stdout, service.end().count(b"\n")), "what was shown, and the lines that went")
        return time.monotonic() - begun
    with tempfile.TemporaryFile() as file:
        file.write(b"".join(b"line %d\n" % n for n in range(MANY)))
        file.flush()
        return f"  {MANY} lines in {seconds_of(world.program, 'connect', '--plain'):.1f} s, and by nc in {seconds_of('nc.openbsd', '-N'):.3f} s"
