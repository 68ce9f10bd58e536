"""`tn connect --again` at a terminal, and `^]again`: one connection follows another, until the user leaves."""
import os
import signal
import socket
import termios
import time

from ends import DO, IAC, NAWS, WILL, Listener, size
from terminal import Terminal, is_there
from world import PATIENCE, case, expect, expect_in_order, expect_same, free_port, wait_until

CLOSED = b"Connection closed by 127.0.0.1.\r\nConnecting again in 1 second.\r\n"


class Console(Listener):
    """A server that takes one connection after another at its port."""

    def take(self, greeting=b"login: "):
        """The next connection, which is greeted."""
        self.got = b""
        self.accept()
        self.send(greeting)

    def hang_up(self):
        self.connection.close()


def at_console(world, *words, **settings):
    console = Console(world, backlog=5)
    terminal = Terminal(world, f"127.0.0.1:{console.port}", *words, **settings)
    console.take(b"first: ")
    terminal.see(b"first: ")
    return console, terminal


@case(each={"by Telnet": (b"\r\n",), "by lines": (b"\r\n", "--plain")})
def a_server_that_closed_and_comes_back_is_connected_to_again(world, line_end, *words):
    console, terminal = at_console(world, "--again", "1", *words)
    for greeting in (b"second: ", b"third: "):
        console.hang_up()
        console.take(greeting)
        terminal.see(greeting)
        expect(terminal.is_raw(), "the terminal is not raw")
        terminal.type(b"me\r")
        console.read_until(b"me" + line_end)
    expect_same(2, bytes(terminal.shown).count(CLOSED), "how often the end of a connection is reported")
    expect_same(3, bytes(terminal.shown).count(b"\r\nConnected to 127.0.0.1."), "how often a connection is reported")
    if words:
        terminal.type(b"\x03")
        terminal.end(130)
    else:
        terminal.leave()
        expect_same(2, bytes(terminal.shown).count(b"Connecting again"), "how often it is connected again")
        expect(terminal.shown.endswith(b"Connection closed.\r\n"), "the user's leaving is not reported")


@case
def a_server_that_is_not_there_yet_is_connected_to_later(world):
    port = free_port()
    terminal = Terminal(world, "--again", "1", f"127.0.0.1:{port}")
    terminal.see(b"tn: network\r\n", b"Connection refused", b"Connecting again in 1 second.\r\n")
    wait_until(lambda: bytes(terminal.shown).count(b"Connecting again in 1 second.") > 1, "it is refused again")
    with socket.create_server(("127.0.0.1", port)) as server:
        server.settimeout(PATIENCE)
        connection, _ = server.accept()
        connection.sendall(b"here I am")
        terminal.see(b"here I am")
        terminal.leave()
        connection.close()


@case
def a_connection_that_broke_is_made_again(world):
    console, terminal = at_console(world, "--again", "1")
    console.reset()
    terminal.see(b"tn: session\r\ntn: the connection broke\r\nConnecting again in 1 second.\r\n")
    console.take()
    terminal.see(b"login: ")
    console.reset()
    terminal.see(b"login: ", b"Connecting again")
    console.take(b"third: ")
    terminal.see(b"third: ")
    terminal.leave()


@case(each={"by ^C": (b"\x03", 130), "by ^backslash": (b"\x1c", 131)})
def it_can_be_left_between_two_connections(world, key, status):
    console, terminal = at_console(world, "--again", "3600")
    console.hang_up()
    terminal.see(b"Connecting again in 3600 seconds.\r\n")
    terminal.type(key)
    terminal.end(status)


@case
def lines_may_be_left_between_two_connections(world):
    console, terminal = at_console(world, "--plain", "--again", "3600")
    console.hang_up()
    terminal.see(b"Connecting again in 3600 seconds.\r\n")
    wait_until(lambda: termios.tcgetattr(terminal.slave)[6][termios.VINTR] == b"\x03", "^C is a signal again")
    terminal.type(b"\x03")
    terminal.end(130)


@case
def it_can_be_stopped_between_two_connections(world):
    console, terminal = at_console(world, "--again", "2", shell=True)
    console.hang_up()
    terminal.see(b"Connecting again in 2 seconds.\r\n")
    terminal.type(b"\x1a", b"stopped")
    expect(terminal.is_set_back(), "the terminal is not set back while it is stopped")
    terminal.type(b"\n")
    console.take()
    terminal.see(b"login: ")
    terminal.gets_raw()
    terminal.type(b"\x1dq\r", b"ended with 0")
    expect(terminal.is_set_back(), "the terminal is not set back after a stop")


@case
def a_size_that_changed_between_two_connections_is_sent(world):
    console, terminal = at_console(world, "--again", "1")
    asks = bytes([IAC, DO, NAWS])
    console.send(asks)
    console.read_until(size(100, 40))
    terminal.resize(30, 90)
    console.read_until(size(90, 30))
    console.hang_up()
    terminal.see(b"Connecting again")
    terminal.resize(50, 132)
    console.take(asks + b"second: ")
    console.read_until(size(132, 50))
    terminal.see(b"second: ")
    terminal.resize(24, 80)
    console.read_until(size(80, 24))
    terminal.leave()


@case
def the_user_may_connect_again_at_once(world):
    console, terminal = at_console(world)
    begun = time.monotonic()
    terminal.type(b"\x1dagain\r")
    console.take(b"second: ")
    terminal.see(b"second: ")
    expect_in_order(terminal.shown, b"tn> again", b"Connection closed.\r\n", b"Trying 127.0.0.1", b"Connected to 127.0.0.1.", b"second: ")
    expect(time.monotonic() - begun < PATIENCE, "it takes long")
    terminal.type(b"k\r")
    console.read_until(b"k\r\n")
    console.hang_up()
    terminal.end()
    expect(terminal.shown.endswith(b"Connection closed by 127.0.0.1.\r\n"), "it is connected again without being asked for")


@case
def connecting_again_once_ends_as_that_connection_does(world):
    console, terminal = at_console(world)
    console.listener.close()
    terminal.type(b"\x1dagain\r")
    terminal.end(1)
    terminal.see(b"tn: network\r\n", b"Connection refused")


@case(each={"the launcher": (Terminal.launcher,), "the program": (Terminal.program,)})
def a_kill_ends_it(world, number):
    console, terminal = at_console(world, "--again", "1", shell=True)
    program = terminal.program()
    os.kill(number(terminal), signal.SIGKILL)
    terminal.see(b"ended with 137")
    wait_until(lambda: not is_there(program), "the program ends")
    wait_until(terminal.is_set_back, "the terminal is set back")
    expect(b"Connecting again" not in terminal.shown, "it is connected again")
    console.close()


@case
def nothing_of_it_is_reported_if_that_is_not_wanted(world):
    console, terminal = at_console(world, "--again", "1", "--quiet")
    console.hang_up()
    console.take()
    terminal.see(b"login: ")
    terminal.leave()
    expect(b"onnect" not in terminal.shown, "something is reported")


@case
def a_refused_connection_takes_no_trace_away(world):
    trace = world.path("trace")
    console, terminal = at_console(world, "--again", "1", "--trace", trace)
    console.listener.close()
    console.hang_up()
    wait_until(lambda: bytes(terminal.shown).count(b"Connecting again in 1 second.") > 2, "it is refused twice")
    terminal.type(b"\x03")
    terminal.end(130)
    texts = []
    for path in (trace, trace + "~"):
        if os.path.exists(path):
            with open(path, "rb") as file:
                texts.append(file.read())
    expect(any(b"first" in text for text in texts), f"the trace of the connection is gone: {texts!r}")


@case(each={"a trace": ("--trace", "/no/such/folder/x"), "a number": ("--again", "0")})
def what_cannot_begin_is_not_tried_again(world, *words):
    words = words if "--again" in words else ("--again", "1", *words)
    terminal = Terminal(world, *words, "127.0.0.1:1")
    terminal.end(1 if "--trace" in words else 2)
    expect(b"Connecting again" not in terminal.shown, "it is tried again")


@case
def it_needs_a_terminal(world):
    run = world.start(world.launcher, world.program, "connect", "--again", "5", "127.0.0.1:1", stdin=-3, stderr=-1)
    expect_same((b"tn: usage\nerror: '--again' needs a terminal\n\nFor more information, try '--help'.\n", 2),
                (run.communicate()[1], run.returncode), "what is printed, and the status")


@case
def a_hidden_greeting_is_shown_once_the_terminal_is_set(world):
    """As at the first connection: an answer at once is not shown by the terminal itself."""
    console, terminal = at_console(world, "--again", "1")
    for _ in range(5):
        console.hang_up()
        console.take(bytes([IAC, WILL, 1]) + b"next: ")
        before = len(terminal.shown)
        wait_until(lambda: terminal.shown.find(b"next: ", before) >= 0, "the greeting is shown", pause=0.001)
        os.write(terminal.master, b"hidden\r")
        console.read_until(b"hidden\r\n")
    terminal.leave()
    expect(b"hidden" not in terminal.shown, "an answer is shown")
