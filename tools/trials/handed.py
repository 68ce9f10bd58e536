"""Sockets that `tn serve` is started with: a listener of another process (`--listen-fd`, systemd), and a connection (`--stdin`, inetd)."""
import os
import signal
import socket
import subprocess
import threading
import time

import basics
from ends import Peer
from world import PATIENCE, Collected, case, expect, expect_in_order, expect_same, free_port, status_of, wait_until

# What a shell does before it becomes the program: the socket is at descriptor 3, and systemd's words say so, or it is standard input.
AT_3 = "exec 3<&0 0</dev/null; "
BY_SYSTEMD = AT_3 + "export LISTEN_FDS=1 LISTEN_PID=$$; "
BY_INETD = "exec 1<&0 2<&0; "


class Handed:
    """`tn serve`, by the launcher or by itself, which is started with this socket."""

    def __init__(self, world, given, shell, *words, by_launcher=True):
        program = [world.launcher, world.program] if by_launcher else [world.program]
        command = ["sh", "-c", shell + 'exec "$@"', "sh", *program, "serve", *words]
        self.process = world.start(*command, stdin=given, stdout=subprocess.PIPE, stderr=subprocess.PIPE)
        self.printed = Collected(self.process.stderr.fileno())
        world.keep(f"tn serve {' '.join(words)}", lambda: (self.process.poll(), bytes(self.printed.bytes)))

    def end(self, status=0):
        """It ends by itself, with this status; returns what it printed."""
        expect_same(status, status_of(self.process, "tn serve"), "the status of tn serve")
        return self.printed.all()


def listener():
    return socket.create_server(("127.0.0.1", 0), backlog=128)


def port_of(given):
    return given.getsockname()[1]


def talk(world, port):
    """A session answers, and ends in order."""
    peer = Peer(world, port).is_served()
    peer.send(b"hello\r\nexit\r\n")
    expect_in_order(peer.read_to_end(), b"hello\r\n", b"bye\r\n")


@case(each={"a descriptor": (False, AT_3, "--listen-fd", "3"), "a descriptor, by the launcher": (True, AT_3, "--listen-fd=3"),
            "systemd's, by the launcher": (True, BY_SYSTEMD)})
def a_listener_that_is_handed_in_is_served(world, by_launcher, shell, *words):
    given = listener()
    serving = Handed(world, given, shell, *words, "--verbose", "--count", "2", by_launcher=by_launcher)
    for _ in range(2):
        talk(world, port_of(given))
    printed = serving.end()
    expect(f"listening on 127.0.0.1:{port_of(given)}\n".encode() in printed, f"printed is {printed!r}")
    socket.create_connection(given.getsockname(), timeout=PATIENCE).close()  # Whoever else has it goes on with it.


@case
def a_port_that_is_named_wins_over_a_socket_of_systemd(world):
    given, port = listener(), free_port()
    serving = Handed(world, given, BY_SYSTEMD, "--verbose", "--port", str(port))
    serving.printed.wait_for(b"listening on ")
    talk(world, port)
    serving.end()


@case(each={"of another process": ("export LISTEN_FDS=1 LISTEN_PID=1; ", b"--port <PORT>, --listen-fd <FD> or --stdin"),
            "more than one": ("export LISTEN_FDS=2 LISTEN_PID=$$; ",
                              b"tn: LISTEN_FDS is '2', and one socket is served: name it by --listen-fd\n")})
def sockets_of_systemd_are_not_taken(world, shell, printed):
    got = Handed(world, listener(), AT_3 + shell).end(status=2)
    expect(printed in got, f"printed is {got!r}")


@case
def a_server_that_is_started_anew_refuses_no_connection(world):
    given = listener()
    stop, refused, served = threading.Event(), [], []

    def come_and_go():
        while not stop.is_set():
            try:
                with socket.create_connection(given.getsockname(), timeout=PATIENCE) as connection:
                    connection.sendall(b"exit\r\n")
                    got = b""
                    while piece := connection.recv(4_096):
                        got += piece
                served.append(got)
                if b"bye\r\n" not in got:
                    refused.append(got)
            except OSError as error:
                refused.append(error)

    servers = [Handed(world, given, BY_SYSTEMD, "--forever", "--limit", "64", "--per-host", "0")]
    users = [threading.Thread(target=come_and_go, daemon=True) for _ in range(4)]
    for user in users:
        user.start()
    for _ in range(3):
        before = len(served)
        while len(served) < before + 20:
            expect(servers[-1].process.poll() is None, "it ended")
            time.sleep(0.01)
        servers[-1].process.send_signal(signal.SIGTERM)
        servers[-1].end()
        servers.append(Handed(world, given, BY_SYSTEMD, "--forever", "--limit", "64", "--per-host", "0"))
    before = len(served)
    while len(served) < before + 20 and not refused:
        expect(servers[-1].process.poll() is None, "it ended")
        time.sleep(0.01)
    stop.set()
    for user in users:
        user.join(PATIENCE)
    servers[-1].process.send_signal(signal.SIGTERM)
    servers[-1].end()
    expect_same([], refused, "what was refused")


def connected():
    """A connection: its server's side, and the client's."""
    with listener() as given:
        client = socket.create_connection(given.getsockname(), timeout=PATIENCE)
        return given.accept()[0], client


class Client(Peer):
    """The client's side of such a connection."""

    def __init__(self, world, connection):
        self.connection, self.got, self.sent = connection, b"", 0
        world.keep("a client got", lambda: self.got)


@case(each={"by itself": (False, ""), "by the launcher": (True, ""), "by inetd, with its messages": (True, BY_INETD)})
def a_connection_that_is_standard_input_is_served(world, by_launcher, shell):
    ours, theirs = connected()
    serving = Handed(world, ours, shell, "--stdin", "--verbose", by_launcher=by_launcher)
    ours.close()
    client = Client(world, theirs).is_served()
    client.send(b"hello\r\nexit\r\n")
    text = client.read_to_end()
    expect_same(b"hello\r\nbye\r\n", text, "all that the client reads")
    printed = serving.end()
    expect(bool(shell) != (b" ended: done" in printed), f"printed is {printed!r}")


@case(wants=["systemd-socket-activate"], each={"its listener": ((), "--count", "1"), "each connection": (("--accept", "--inetd"), "--stdin")})
def systemd_hands_in(world, options, *words):
    port = free_port()
    systemd = world.start("systemd-socket-activate", *options, "-l", f"127.0.0.1:{port}", world.launcher, world.program, "serve", *words,
                          stderr=subprocess.DEVNULL)
    wait_until(lambda: basics.is_listened_to(port), "systemd listens")
    for _ in range(2 if options else 1):
        talk(world, port)
    if not options:
        expect_same(0, status_of(systemd), "the status of tn serve")


@case(each={"a file": (0, "--stdin"), "nothing at all": (3, "--listen-fd", "9")})
def what_is_no_socket_is_an_error(world, descriptor, *words):
    with open(os.devnull, "rb") as nothing:
        printed = Handed(world, nothing, "", *words, by_launcher=False).end(status=1)
    named = b"0" if descriptor == 0 else b"9"
    expect(printed.startswith(b"tn: network\ntn: cannot listen on descriptor " + named + b": "), f"printed is {printed!r}")


@case(each={"none": ("--port <PORT>, --listen-fd <FD> or --stdin",),
            "a port and a descriptor": ("exclude each other", "--port", "1", "--listen-fd", "3"),
            "a port and standard input": ("exclude each other", "--port", "1", "--stdin"),
            "standard input and a count": ("excludes '--count' and '--forever'", "--stdin", "--count", "2"),
            "standard input for ever": ("excludes '--count' and '--forever'", "--stdin", "--forever"),
            "a standard stream": ("2 is not in 3..=1023", "--listen-fd", "2")})
def a_server_has_one_socket(world, printed, *words):
    run = world.run("serve", *words)
    expect_same((2, True), (run.returncode, printed.encode() in run.stderr), f"the status, and what is printed: {run.stderr}")
