"""`tn connect` from pipes, with servers that do as they like; its traces, what it reports of hosts, and `tn decode` as bytes come."""
import errno
import os
import re
import select
import socket
import subprocess
import threading
import time

from ends import DO, IAC, NAWS, NO_GO_AHEAD, SB, WILL, Listener, Serving, filled, read_text, size
from services import Service
from sockets import sockets_of
from terminal import at_terminal
from world import PATIENCE, case, expect, expect_same, free_port, status_of, wait_until

ASKS_SIZE = bytes([IAC, DO, NAWS])


def from_pipe(world, *words, screen=subprocess.PIPE, **settings):
    """A server, and a client whose keys are a pipe."""
    listener = Listener(world)
    process = world.start(world.launcher, world.program, "connect", "--port", listener.port, *words, bufsize=0,
                          stdin=subprocess.PIPE, stdout=screen, stderr=subprocess.PIPE, **settings)
    listener.accept()
    return listener, process


def expect_end(process, status, printed=b""):
    expect_same(status, status_of(process), "the status")
    expect_same(printed, process.stderr.read(), "what is printed")


@case
def from_a_pipe_every_byte_is_a_key(world):
    listener, process = from_pipe(world, env={**os.environ, "TN_KEYS": "181c1a080304"})
    process.stdin.write(b"\x1dq\x1d\x1dab\x08\x18\x03.\r")
    listener.read_until(b"\r\0")
    expect_same(b"\x1dq\x1d\x1dab\x08\x18\x03.\r\0", listener.got[:13], "what the server got")
    listener.close()
    expect_end(process, 0)  # A silent pipe does not hold the session.


@case(each={
    "CR LF": (b"user\r\npass\r\n", b"user\r\0pass\r\0"),
    "LF": (b"user\n\npass\n", b"user\r\0\r\0pass\r\0"),
    "CR": (b"user\r\rpass\r", b"user\r\0\r\0pass\r\0"),
    "CR LF between LF": (b"\n\r\n\n\r\r\n.", b"\r\0\r\0\r\0\r\0\r\0."),
    "all other bytes": (bytes(set(range(255)) - {10, 13}), bytes(set(range(255)) - {10, 13}))})
def a_text_from_a_pipe_has_one_return_for_a_line(world, data, wanted):
    listener, process = from_pipe(world, "--text")
    process.stdin.write(data)
    process.stdin.close()
    expect_same(wanted, listener.read_rest().replace(NO_GO_AHEAD, b""), "what the server got")
    listener.close()
    expect_end(process, 0)


@case
def a_text_whose_cr_and_lf_come_apart_has_one_return(world):
    listener, process = from_pipe(world, "--text")
    for piece, wanted in ((b"user\r", b"user\r\0"), (b"\n", b""), (b"pass\r", b"pass\r\0"), (b"\nx", b"x"), (b"\n", b"\r\0")):
        after = len(listener.got)
        process.stdin.write(piece)
        listener.read_until(wanted, after=after)
    process.stdin.close()
    expect_same(b"user\r\0pass\r\0x\r\0", listener.read_rest(), "what the server got")
    listener.close()
    expect_end(process, 0)


@case
def without_text_a_byte_from_a_pipe_stays_what_it_is(world):
    listener, process = from_pipe(world)
    process.stdin.write(b"user\r\npass\n")
    process.stdin.close()
    expect_same(b"user\r\0\npass\n", listener.read_rest(), "what the server got")
    listener.close()
    expect_end(process, 0)


@case
def at_a_terminal_a_text_changes_nothing(world):
    listener, terminal = at_terminal(world, "--text")
    terminal.type(b"a\r\nb\n.")
    listener.read_until(b".")
    expect_same(b"a\r\0\nb\n.", listener.got, "what the server got")
    terminal.leave()


@case
def characters_that_are_not_known_are_the_standard_ones(world):
    listener, process = from_pipe(world, "--mode", "char", env={**os.environ, "TN_TERMINAL": "1", "TN_KEYS": "08"})
    process.stdin.write(b"ab\x08\x1dq\r")
    process.stdin.close()
    expect_same(0, status_of(process), "the status")
    printed = process.stderr.read()
    expect(b"tn: TN_KEYS tells no characters of a terminal: the standard ones are taken\n" in printed, f"printed is {printed!r}")
    expect_same(b"ab\x08", listener.read_rest(), "what the server got")


@case
def a_dead_screen_ends_it_from_a_pipe(world):
    reading, writing = os.pipe()
    listener, process = from_pipe(world, screen=writing)
    os.close(writing)
    os.close(reading)
    listener.send(b"text\r\n")
    expect_end(process, 0)
    with open("/dev/full", "wb") as full:
        listener, process = from_pipe(world, screen=full)
        listener.send(b"text\r\n")
        expect_end(process, 3, b"tn: session\ntn: the screen takes no more\n")


def fill(process, seconds):
    """Writes keys to a client until it has taken none for this time, or has taken many."""
    os.set_blocking(process.stdin.fileno(), False)
    wrote = 0
    while wrote < 400_000 and select.select([], [process.stdin], [], seconds)[1]:
        wrote += process.stdin.write(b"x" * 60 + b"\r")


@case
def a_reader_that_leaves_ends_it_while_keys_flow(world):
    reading, writing = os.pipe()
    listener, process = from_pipe(world, screen=writing)
    os.close(writing)
    fill(process, 0.5)
    os.close(reading)
    listener.send(b"text\r\n")
    expect_end(process, 0)


@case
def what_was_not_sent_is_reported(world):
    listener, process = from_pipe(world, screen=subprocess.DEVNULL)
    listener.connection.setsockopt(socket.SOL_SOCKET, socket.SO_RCVBUF, 1024)
    for found in sockets_of(process.pid):
        found.setsockopt(socket.SOL_SOCKET, socket.SO_SNDBUF, 1024)
    fill(process, 1)
    listener.reset()
    status_of(process)
    printed = process.stderr.read()
    # A read meets the reset first, or a write does.
    expect(re.search(rb"tn: (?:closed by the other end|the connection broke); \d+ bytes? typed w(?:ere|as) not sent\n", printed),
           f"printed is {printed!r}")


@case
def the_end_of_a_pipe_is_sent_late(world):
    listener, process = from_pipe(world, "-q", "2")
    process.stdin.write(b"echo hi\rexit\r")
    closed = time.monotonic()
    process.stdin.close()
    listener.read_until(b"exit\r")
    listener.send(b"hi\r\n")
    listener.read_rest()
    expect(time.monotonic() - closed >= 2, "the server gets the end too early")
    listener.close()
    shown = process.stdout.read()
    expect(shown.endswith(b"\r\nhi\r\n"), f"the answer is lost: {shown!r}")
    expect_end(process, 0)


@case
def it_waits_no_longer_once_the_server_has_closed(world):
    listener, process = from_pipe(world, "-q", str(4 * PATIENCE))
    process.stdin.close()
    listener.send(b"bye\r\n")
    listener.close()
    expect_end(process, 0)


@case
def a_connection_that_is_refused_is_reported(world):
    port = free_port()
    run = world.run("connect", "--port", port)
    why = f"{os.strerror(errno.ECONNREFUSED)} (os error {errno.ECONNREFUSED})"
    expect_same((1, f"tn: network\ntn: 127.0.0.1:{port}: {why}\n".encode()), (run.returncode, run.stderr), "the status, and what is printed")
    run = world.run("connect", "no-such-host.invalid")
    expect_same((1, True), (run.returncode, run.stderr.startswith(b"tn: network\ntn: no-such-host.invalid: ")), "the status, and what is printed")


@case
def the_host_that_was_asked_for_is_the_one(world):
    serving = Serving(world, "--host", "127.0.0.2")
    with socket.socket() as other:
        expect_same(errno.ECONNREFUSED, other.connect_ex(("127.0.0.1", serving.port)), "a connection to another host")
    run = world.run("connect", f"127.0.0.2:{serving.port}", data=b"exit\r")
    expect_same((0, True), (run.returncode, run.stdout.endswith(b"bye\r\n")), "the status, and the farewell")
    serving.end()


@case(each={"by Telnet": (b"one\r\n",), "by lines": (b"", "--plain")})
def a_silent_server_is_left_after_the_input(world, echo, *words):
    def talk(service, connection):
        service.read_all(connection)
        for _ in range(3):
            time.sleep(1)  # As long as something comes, it is not left.
            connection.sendall(b"late\r\n")
        service.hold()
    service = Service(world, talk)
    begun = time.monotonic()
    run = world.run("connect", *words, "-w", 2, f"127.0.0.1:{service.port}", data=b"one\n", timeout=2 * PATIENCE)
    service.go_on.set()
    expect(time.monotonic() - begun >= 5, "it is left too soon")
    expect_same((echo + b"late\r\n" * 3, 0, b""), (run.stdout, run.returncode, run.stderr), "what is shown, the status, and what is printed")


@case(each={"by Telnet": (), "by lines": ("--plain",)})
def an_address_that_takes_no_connection_is_given_up(world, *words):
    listener, _waiting = filled(world)
    run = world.run("connect", *words, "--timeout", 1, f"127.0.0.1:{listener.port}", timeout=2 * PATIENCE)
    expect_same((1, True), (run.returncode, run.stderr.startswith(f"tn: network\ntn: 127.0.0.1:{listener.port}: ".encode())),
                f"the status, and whether it is reported by {run.stderr}")


@case
def a_trace_is_written(world):
    path = world.path("trace")
    listener, process = from_pipe(world, "--trace", path)
    listener.send(ASKS_SIZE + b"hi\r\n")
    listener.read_until(size(80, 24))
    process.stdin.write(b"k\r")
    listener.read_until(b"k\r")
    time.sleep(0.02)  # So that the last line has another time.
    listener.send(b"last prompt")
    wait_until(lambda: '< data "last prompt"\n' in read_text(path), "a prompt is written at once")
    listener.close()
    expect_end(process, 0)
    expect_same(0o600, os.stat(path).st_mode & 0o777, "its mode")
    lines = read_text(path).splitlines()
    expect(all(re.match(r"\d+\.\d{3} [<>] ", line) for line in lines), f"a line has no time: {lines!r}")
    times = [float(line.split(" ", 1)[0]) for line in lines]
    expect(times == sorted(times) and 0.02 <= times[-1] < 300, f"the times are {times!r}")
    lines = [line.split(" ", 1)[1] for line in lines]
    # Each way has its own order; which of both passes first is not known.
    expect_same(["< IAC DO NAWS", '< data "hi"', "< newline", '< data "last prompt"'], [line for line in lines if line[0] == "<"], "what came")
    expect_same(["> IAC WILL NAWS", "> IAC SB NAWS 80 24", '> data "k\\x0d"'], [line for line in lines if line[0] != "<"], "what went")


@case
def a_trace_takes_the_place_of_an_old_one(world):
    path = world.path("trace")
    with open(path, "w", encoding="ascii") as trace:
        trace.write("old\n" * 1_000)
    _, terminal = at_terminal(world, "--trace", path)
    terminal.see(b"passwords too.\r\nTrying ")
    terminal.leave()
    expect("old" not in read_text(path), "what was there before stays")
    run = world.run("connect", "--port", "1", "--trace", "/no/such/folder/x")
    expect_same((1, True), (run.returncode, run.stderr.startswith(b"tn: write\ntn: /no/such/folder/x: ")), "the status, and what is printed")


@case
def a_stream_is_decoded_as_it_comes(world):
    process = world.start(world.program, "decode", bufsize=0, stdin=subprocess.PIPE, stdout=subprocess.PIPE, stderr=subprocess.PIPE)
    for piece, line in ((b"a\r\n", b'data "a"\n'), (b"", b"newline\n"), (bytes([IAC, WILL, 34]), b"IAC WILL LINEMODE\n")):
        process.stdin.write(piece)
        expect(select.select([process.stdout], [], [], PATIENCE)[0], f"{line!r} does not come")
        expect_same(line, os.read(process.stdout.fileno(), len(line)), "what comes at once")
    reading = threading.Thread(target=process.stdout.read)
    reading.start()
    for _ in range(3):
        process.stdin.write(bytes([IAC, WILL, 34]) * 30_000)
    process.stdin.write(bytes([IAC, 1, IAC, SB, 34]))
    process.stdin.close()
    reading.join()
    expect_end(process, 0, b"tn: dropped escapes: 1\ntn: left unread: a subnegotiation\n")
