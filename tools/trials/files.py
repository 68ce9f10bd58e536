"""The files of `tn connect`, a trace and a log, and what becomes of standard streams that are closed when a program begins."""
import os
import subprocess
import time

from ends import DO, IAC, NO_GO_AHEAD, WILL, Listener, Peer, Serving, without_time
from services import Service, instrument
from terminal import Terminal, at_terminal
from world import case, expect, expect_in_order, expect_same, status_of


def text_of(path):
    with open(path, encoding="utf-8") as file:
        return file.read()


def mode_of(path):
    return os.stat(path).st_mode & 0o777


def write(path, text, mode=0o644):
    with open(path, "w", encoding="utf-8") as file:
        file.write(text)
    os.chmod(path, mode)


def one_line(world, *words):
    """A run at a server that says one line and closes."""
    service = Service(world, lambda service, connection: connection.sendall(b"said\r\n"))
    run = world.run("connect", *words, f"127.0.0.1:{service.port}", data=b"")
    service.end()
    return run.returncode, run.stderr


@case
def a_trace_is_its_owners_and_what_it_had_is_kept(world):
    path = world.path("trace")
    write(path, "old\n")
    expect_same((0, b""), one_line(world, "--trace", path), "the status, and what is printed")
    expect_same((0o600, True), (mode_of(path), '< data "said"' in text_of(path)), "the trace's mode, and whether it has what came")
    expect_same(("old\n", 0o644), (text_of(path + "~"), mode_of(path + "~")), "what is kept, and its mode")
    expect("old" not in text_of(path), "what was there before stays in the trace")


@case
def a_trace_follows_no_link(world):
    path, other = world.path("trace"), world.path("other")
    write(other, "other\n")
    os.symlink(other, path)
    expect_same((0, b""), one_line(world, "--trace", path), "the status, and what is printed")
    expect_same(("other\n", other, 0o600), (text_of(other), os.readlink(path + "~"), mode_of(path)), "the file behind the link, the link that is kept, "
                "and the trace's mode")
    expect(not os.path.islink(path), "the trace is a link")


@case
def a_trace_may_be_a_pipe(world):
    path = world.path("pipe")
    os.mkfifo(path)
    reader = subprocess.Popen(["cat", path], stdout=subprocess.PIPE)
    expect_same((0, b""), one_line(world, "--trace", path), "the status, and what is printed")
    expect_in_order(reader.communicate()[0], b'< data "said"')


@case(each={"by Telnet": (), "by lines": ("--plain",)})
def a_log_has_what_the_screen_gets_behind_what_it_had(world, *words):
    path = world.path("log")
    write(path, "before\n")
    for _ in range(2):
        expect_same((0, b""), one_line(world, *words, "--log", path), "the status, and what is printed")
    lines = text_of(path).replace("\r", "").splitlines()
    expect_same((["before", "said", "said"], 0o600), (lines, mode_of(path)), "the log, and its mode")


@case
def a_log_has_what_a_terminal_shows_of_a_session(world):
    path = world.path("log")
    listener, terminal = at_terminal(world, "--log", path)
    listener.send(bytes([IAC, WILL, 1]) + b"login: ")
    terminal.see(b"login: ")
    terminal.type(b"\x1d?\r", b"send brk")
    listener.send(b"welcome\r\n")
    terminal.see(b"welcome")
    terminal.leave()
    with open(path, "rb") as log:
        expect_same(b"login: welcome\r\n", log.read(), "the log")


@case(each={"by Telnet": (bytes([IAC, WILL, 1]),), "by lines": (b"", "--plain")})
def a_log_is_begun_and_ended_at_the_terminal(world, opening, *words):
    path, other = world.path("log"), world.path("other")
    write(path, "before\n")
    listener, terminal = at_terminal(world, *words)
    listener.send(opening + b"one\r\n")
    terminal.see(b"one\r\n")
    terminal.type(f"\x1dlog {path}\r".encode(), b"\r\nthe log begins\r\n")
    listener.send(b"two\r\n")
    terminal.see(b"two\r\n")
    terminal.type(f"\x1dlog {other}\r".encode(), b"\r\nthe log begins\r\n")
    listener.send(b"three\r\n")
    terminal.see(b"three\r\n")
    terminal.type(b"\x1dlog off\r", b"\r\nthe log ends\r\n")
    listener.send(b"four\r\n")
    terminal.see(b"four\r\n")
    terminal.type(b"\x1dlog off\r", b"\r\nthere is no log\r\n")
    terminal.type(b"\x1dlog /no/such/folder/x\r", b"\r\n/no/such/folder/x: No such file or directory")
    terminal.type(b"\x1dlog\r", b"\r\nunknown command")
    listener.send(b"five\r\n")
    terminal.see(b"five\r\n")
    terminal.leave()
    expect_same(("before\ntwo\n", 0o600), (text_of(path), mode_of(path)), "the first log, and its mode")
    expect_same(("three\n", 0o600), (text_of(other), mode_of(other)), "the second log, and its mode")
    expect_same(b"", listener.read_rest().replace(NO_GO_AHEAD, b"").replace(bytes([IAC, DO, 1]), b""), "what the server got")


@case(each={"by Telnet": (), "by lines": ("--plain",)})
def a_log_has_the_time_before_each_line(world, *words):
    path = world.path("log")
    expect_same((0, b""), one_line(world, *words, "--log", path, "--log-times"), "the status, and what is printed")
    expect_same(["said"], [without_time(line) for line in text_of(path).splitlines()], "the lines of the log, without their times")


@case
def a_log_has_one_time_for_a_line_that_comes_in_pieces(world):
    path = world.path("log")
    listener, terminal = at_terminal(world, "--plain", "--log-times")
    terminal.type(f"\x1dlog {path}\r".encode(), b"\r\nthe log begins\r\n")
    for piece in (b"log", b"in: ", b"\r\nwel", b"come\r\n\r\nbye"):
        listener.send(piece)
        terminal.see(piece)
    terminal.leave()
    lines = [without_time(line) for line in text_of(path).splitlines()]
    expect_same(["login: ", "welcome", "", "bye"], lines, "the lines of the log, without their times")


@case
def a_trace_without_telnet_has_each_byte(world):
    path = world.path("trace")
    service = Service(world, instrument)
    run = world.run("connect", "--plain", "--lf", "-q", 1, "--trace", path, f"127.0.0.1:{service.port}", data=b"*IDN?\nX\xff\xfb\n")
    service.end()
    expect_same((0, b""), (run.returncode, run.stderr), "the status, and what is printed")
    lines = [line.split(" ", 1)[1] for line in text_of(path).splitlines()]
    went = "".join(line[len('> data "'):-1] for line in lines if line[0] == ">")
    came = "".join(line[len('< data "'):-1] for line in lines if line[0] == "<")
    expect_same(("*IDN?\\x0aX\\xff\\xfb\\x0a", "MAKER,MODEL,1,2\\x0a-113\\x0a"), (went, came), "what went, and what came")
    expect_same(0o600, mode_of(path), "its mode")
    terminal = Terminal(world, "--plain", "--trace", path, f"127.0.0.1:{Service(world, instrument).port}")
    terminal.see(b"passwords too.\r\nTrying ")
    terminal.leave()
    expect_same((1, True), (one_line_not(world, "--plain", "--trace", "/no/such/folder/x")[0],
                            b"tn: /no/such/folder/x: " in one_line_not(world, "--plain", "--trace", "/no/such/folder/x")[1]),
                "the status, and whether a trace that cannot be made is reported")


@case
def a_log_that_cannot_be_written_is_reported(world):
    path, other = world.path("log"), world.path("other")
    write(other, "other\n")
    os.symlink(other, path)
    status, printed = one_line_not(world, "--log", path)
    expect_same((1, True, "other\n"), (status, printed.startswith(f"tn: write\ntn: {path}: ".encode()), text_of(other)),
                "the status, whether it is reported, and the file behind the link")
    status, printed = one_line_not(world, "--log", "/no/such/folder/x")
    expect_same((1, True), (status, printed.startswith(b"tn: write\ntn: /no/such/folder/x: ")), "the status, and whether it is reported")
    status, printed = one_line(world, "--log", "/dev/full")
    expect_same((0, b"tn: the log is not whole\n"), (status, printed), "the status with a full disk, and what is printed")


def one_line_not(world, *words):
    """A run that connects to nothing."""
    run = world.run("connect", *words, "127.0.0.1:1", data=b"")
    return run.returncode, run.stderr


def with_closed(world, redirections, *words, **settings):
    """The program with standard streams closed, as a shell does it."""
    return world.start("bash", "-c", f'exec "$@" {redirections}', "shell", world.program, *words, **settings)


@case
def a_closed_input_is_an_empty_one(world):
    listener = Listener(world)
    process = with_closed(world, "<&-", "connect", f"127.0.0.1:{listener.port}", stdout=subprocess.PIPE)
    listener.accept()
    for _ in range(20):
        listener.send(b"who\r\n")
        time.sleep(0.02)  # So that each can be read by itself.
    expect_same(b"", listener.read_rest(), "what the server got")
    listener.close()
    expect_same((b"who\r\n" * 20, 0), (process.communicate()[0], status_of(process)), "what is shown, and the status")


@case(each={"output": (">&-",), "output and errors": (">&- 2>&-",), "all but input": ("2>&- >&-",)})
def a_closed_output_is_not_the_connection(world, redirections):
    listener = Listener(world)
    process = with_closed(world, redirections, "connect", f"127.0.0.1:{listener.port}", stdin=subprocess.PIPE)
    listener.accept()
    listener.send(b"who is there\r\n" * 100)
    process.stdin.write(b"me\r")
    process.stdin.close()
    expect_same(b"me\r\0", listener.read_rest(), "what the server got")
    listener.close()
    expect_same(0, status_of(process), "the status")


@case(each={"all": ("<&- >&- 2>&-",), "input and errors": ("<&- 2>&-",), "errors": ("2>&-",)})
def a_closed_stream_of_a_server_is_not_its_peers(world, redirections):
    serving = Serving(world, "--verbose", "--count", 2, under=("bash", "-c", f'exec "$@" {redirections}', "shell"), stderr=None)
    for _ in range(2):
        peer = Peer(world, serving.port, opening=NO_GO_AHEAD).is_served()
        peer.send(b"hello\r\0exit\r\0")
        screen = peer.read_to_end()
        expect_same(b"hello\r\nbye\r\n", screen, "what the peer got")
    serving.end(printed=None)
