"""Hosts of `tn serve` that are given more than once, and sockets at paths: those that it serves, and those of services."""
import contextlib
import os
import re
import signal
import socket
import stat
import subprocess
import threading
import time

import basics
from ends import Peer, Serving
from handed import AT_3, BY_SYSTEMD, Handed
from services import Service, answering
from world import PATIENCE, Collected, case, expect, expect_in_order, expect_same, free_port, status_of, wait_until


class AtPath:
    """`tn serve --verbose` at a path, by its launcher or by itself."""

    def __init__(self, world, path, *words, by_launcher=False):
        program = [world.launcher, world.program] if by_launcher else [world.program]
        command = ["sh", "-c", 'umask 0; exec "$@"', "sh", *program, "serve", "--verbose", "--host", f"unix:{path}", *words]
        self.process = world.start(*command, stderr=subprocess.PIPE)
        self.printed = Collected(self.process.stderr.fileno())
        world.keep(f"tn serve {' '.join(map(str, words))}", lambda: (self.process.poll(), bytes(self.printed.bytes)))
        self.printed.wait_for(f"listening on unix:{path}\n".encode())

    def end(self):
        """It ends by itself, with status 0; returns what it printed."""
        expect_same(0, status_of(self.process, "tn serve"), "the status of tn serve")
        return self.printed.all()


class PathPeer(Peer):
    """A client over a socket at a path."""

    def __init__(self, world, path):
        self.began, self.served, self.left = time.monotonic(), None, None
        self.connection = socket.socket(socket.AF_UNIX)
        self.connection.settimeout(PATIENCE)
        self.connection.connect(path)
        self.got, self.sent, self.address = b"", 0, "unix"
        world.keep("a peer got", lambda: self.got)


class PathService(Service):
    """A service for one connection at a path."""

    def __init__(self, world, path, talk, backlog=5):
        self.listener = socket.socket(socket.AF_UNIX)
        self.listener.bind(path)
        self.listener.listen(backlog)
        self.got = bytearray()
        self.has_ended = False
        self.go_on = threading.Event()
        self.thread = threading.Thread(target=self.run, args=(talk,), daemon=True)
        world.keep("the service got", lambda: bytes(self.got))
        self.thread.start()


def talk(peer):
    """A session answers, and ends in order."""
    peer.is_served()
    peer.send(b"hello\r\nexit\r\n")
    expect_in_order(peer.read_to_end(), b"hello\r\n", b"bye\r\n")


def connect(world, host, port):
    """A peer of the server at this address."""
    peer = Peer.__new__(Peer)
    peer.connection = socket.create_connection((host, port), timeout=PATIENCE)
    peer.began, peer.served, peer.left, peer.got, peer.sent = time.monotonic(), None, None, b"", 0
    world.keep(f"a peer of {host} got", lambda: peer.got)
    return peer


@case
def each_host_is_served_and_all_have_one_limit(world):
    serving = Serving(world, "--host", "127.0.0.1", "--host", "127.0.0.2", "--verbose", "--limit", "2", "--count", "4")
    hosts = ("127.0.0.1", "127.0.0.2")
    first, second = (connect(world, host, serving.port).is_served() for host in hosts)
    for host in hosts:
        expect_same(b"full\r\n", connect(world, host, serving.port).leave(), f"what one more peer of {host} gets")
    for peer in (first, second):
        peer.send(b"hello\r\n")
        expect_in_order(peer.leave(), b"hello\r\n")
    expect_same([f"listening on {host}:{serving.port}" for host in hosts], serving.notes()[:2], "the first notes")


@case
def a_busy_host_keeps_no_other_waiting(world):
    serving = Serving(world, "--host", "127.0.0.1", "--host", "127.0.0.2", "--forever", "--limit", "64")
    stop = threading.Event()

    def come_and_go():
        while not stop.is_set():
            with contextlib.suppress(OSError), socket.create_connection(("127.0.0.1", serving.port), timeout=PATIENCE) as connection:
                connection.sendall(b"exit\r\n")
                while connection.recv(4_096):
                    pass

    users = [threading.Thread(target=come_and_go, daemon=True) for _ in range(4)]
    for user in users:
        user.start()
    for _ in range(5):
        began = time.monotonic()
        talk(connect(world, "127.0.0.2", serving.port))
        expect(time.monotonic() - began < PATIENCE / 2, "a peer of the other host waits for long")
    stop.set()
    for user in users:
        user.join(PATIENCE)


@case(each={"given twice": ("127.0.0.1", "127.0.0.1", "127.0.0.1"), "by another name": ("127.0.0.1", "localhost", "localhost"),
            "of another machine": ("127.0.0.1", "192.0.2.1", "192.0.2.1"), "a path given twice": ("PATH", "PATH", "PATH"),
            "after a path": ("PATH", "192.0.2.1", "192.0.2.1")})
def a_host_that_cannot_be_listened_on_stops_all(world, first, second, refused):
    path = world.path("socket")
    port = [] if (first, second) == ("PATH", "PATH") else ["--port", free_port()]
    hosts = [host.replace("PATH", f"unix:{path}") for host in (first, second, refused)]
    run = world.run("serve", *port, "--verbose", "--host", hosts[0], "--host", hosts[1])
    named = hosts[2] if hosts[2].startswith("unix:") else f"{hosts[2]}:{port[1]}"
    expect_same(1, run.returncode, "the status")
    expect(run.stderr.startswith(f"tn: network\ntn: cannot listen on {named}: ".encode()), f"printed is {run.stderr}")
    expect(not os.path.exists(path), "the socket of the first is left")
    if port:
        expect(not basics.is_listened_to(port[1]), "one of them is listened to")


@case(each={"by itself": (False,), "by the launcher": (True,)})
def a_path_is_served(world, by_launcher):
    path = world.path("socket")
    serving = AtPath(world, path, "--count", "2", by_launcher=by_launcher)
    mode = os.lstat(path).st_mode
    expect_same((True, 0o600), (stat.S_ISSOCK(mode), stat.S_IMODE(mode)), "whether it is a socket, and its mode")
    for _ in range(2):
        talk(PathPeer(world, path))
    printed = serving.end()
    expect(not os.path.exists(path), "the socket is left")
    for note in (rb"Z session 0 \(serial 1\) from unix began\n", rb"Z session \d \(serial 2\) from unix ended: done, "):
        expect(re.search(note, printed), f"wanted a note {note}, got {printed}")


@case(each={"in one word": ("--host=unix:",), "in two": ("--host", "unix:")})
def a_path_wins_over_a_socket_of_systemd(world, *words):
    path = world.path("socket")
    *before, last = words
    serving = Handed(world, socket.create_server(("127.0.0.1", 0)), BY_SYSTEMD, "--verbose", *before, f"{last}{path}")
    serving.printed.wait_for(f"listening on unix:{path}\n".encode())
    talk(PathPeer(world, path))
    serving.end()


@case
def paths_and_ports_are_served_side_by_side(world):
    path = world.path("socket")
    serving = Serving(world, "--host", f"unix:{path}", "--host", "127.0.0.1", "--count", "2", "--verbose")
    talk(PathPeer(world, path))
    talk(connect(world, "127.0.0.1", serving.port))
    expect_same([f"listening on unix:{path}", f"listening on 127.0.0.1:{serving.port}"], serving.notes()[:2], "the first notes")


@case
def the_socket_is_gone_once_no_more_are_accepted(world):
    path = world.path("socket")
    serving = AtPath(world, path, "--forever", "--drain", "3", by_launcher=True)
    peer = PathPeer(world, path).is_served()
    serving.process.send_signal(signal.SIGTERM)
    wait_until(lambda: not os.path.exists(path), "the socket is gone")
    peer.send(b"hello\r\n")
    peer.read_until(b"hello\r\n", b"closing\r\n")
    peer.read_to_end()
    serving.end()


def left(path):
    with socket.socket(socket.AF_UNIX) as old:
        old.bind(path)
        old.listen()


def served(path):
    live = socket.socket(socket.AF_UNIX)
    live.bind(path)
    live.listen()
    return live


def file(path):
    with open(path, "wb") as kept:
        kept.write(b"kept")


@case
def a_socket_that_nobody_serves_is_replaced(world):
    path = world.path("socket")
    left(path)
    serving = AtPath(world, path)
    talk(PathPeer(world, path))
    serving.end()


@case(each={"served": (served,), "no socket": (file,)})
def what_is_there_stays_if_it_is(world, make):
    path = world.path("socket")
    kept = make(path)
    before = os.lstat(path)
    run = world.run("serve", "--host", f"unix:{path}")
    printed = f"tn: network\ntn: cannot listen on unix:{path}: Address already in use (os error 98)\n"
    expect_same((1, printed), (run.returncode, run.stderr.decode()), "the status, and what is printed")
    expect_same((before.st_ino, before.st_mode), (os.lstat(path).st_ino, os.lstat(path).st_mode), "what is there")
    if kept:
        socket.socket(socket.AF_UNIX).connect(path)


@case(each={"no path": ("unix:", "it has no path"), "too long a path": ("unix:/" + "x" * 107, "its path has more than 107 bytes"),
            "no folder": ("unix:/no/such/folder/socket", "No such file or directory (os error 2)")})
def no_listener_is_at(world, host, why):
    run = world.run("serve", "--host", host)
    expect_same((1, f"tn: network\ntn: cannot listen on {host}: {why}\n"), (run.returncode, run.stderr.decode()), "the status, and what is printed")


@case(each={"a path and a port": ("'--port' needs a '--host' that is no path", "--host", "unix:/s", "--port", "7"),
            "a path, a host and no port": ("--port <PORT>, --listen-fd <FD> or --stdin", "--host", "unix:/s", "--host", "127.0.0.1"),
            "a service without a path": ("it is neither a host with a port", "--port", "7", "--to", "unix:")})
def words_of_paths_are_refused(world, printed, *words):
    run = world.run("serve", *words)
    expect_same((2, True), (run.returncode, printed.encode() in run.stderr), f"the status, and what is printed: {run.stderr}")


@case
def peers_at_a_path_have_no_bound_of_their_own(world):
    path = world.path("socket")
    serving = AtPath(world, path, "--per-host", "1", "--limit", "3", "--count", "4")
    peers = [PathPeer(world, path).is_served() for _ in range(3)]
    more = PathPeer(world, path)
    expect_same(b"full\r\n", more.leave(), "what one more peer gets")
    for peer in peers:
        peer.leave()
    printed = serving.end()
    expect(b"no session (serial 4) from unix: full\n" in printed, f"printed is {printed}")


@case
def a_proxy_at_a_path_says_for_whom_it_connects(world):
    path = world.path("socket")
    serving = AtPath(world, path, "--proxy", "--count", "2")
    for line in (b"PROXY TCP4 192.0.2.7 192.0.2.1 4000 23\r\n", b"PROXY UNKNOWN\r\n"):
        peer = PathPeer(world, path)
        peer.send(line)
        talk(peer)
    printed = serving.end()
    expect(b" from 192.0.2.7:4000 began\n" in printed and b" from unix began\n" in printed, f"printed is {printed}")


@case(each={"a listener": (False,), "a connection": (True,)})
def a_socket_of_a_path_may_be_handed_in(world, is_connection):
    path = world.path("socket")
    given = served(path)
    if is_connection:
        peer = PathPeer(world, path)
        serving = Handed(world, given.accept()[0], "", "--stdin", "--verbose")
    else:
        serving = Handed(world, given, AT_3, "--listen-fd", "3", "--verbose")
        peer = PathPeer(world, path)
    talk(peer)
    printed = serving.end()
    expect(f"listening on unix:{path}\n".encode() in printed and b" from unix began\n" in printed, f"printed is {printed}")
    expect(os.path.exists(path), "the socket is gone, which is another's")


@case(each={"at a port": (False,), "at a path": (True,)})
def lines_go_to_a_service_at_a_path(world, is_at_path):
    path, ours = world.path("service"), world.path("socket")
    service = PathService(world, path, answering)
    if is_at_path:
        serving = AtPath(world, ours, "--to", f"unix:{path}")
        peer = PathPeer(world, ours)
    else:
        serving = Serving(world, "--to", f"unix:{path}")
        peer = Peer(world, serving.port)
    peer.send(b"hello\r\n")
    peer.read_until(b"got hello\r\n")
    peer.send(b"\x04")
    expect_in_order(peer.read_to_end(), b"farewell\r\n")
    expect_same(b"hello\n", service.end(), "what the service got")
    serving.end()


@case
def a_service_may_answer_a_peer_that_has_closed(world):
    """Such a peer looks, over a socket at a path, as one that reset its connection does over TCP."""
    path, ours = world.path("service"), world.path("socket")
    answered = []

    def talk_late(service, connection):
        service.read_all(connection)
        with contextlib.suppress(BrokenPipeError):
            connection.sendall(b"late\n")
            answered.append(bytes(service.got))

    service = PathService(world, path, talk_late)
    serving = AtPath(world, ours, "--to", f"unix:{path}")
    peer = PathPeer(world, ours).is_served()
    peer.send(b"hello\r\n")
    service.wait_for(b"hello\n")
    peer.connection.close()
    expect_same(b"hello\n", service.end(), "what the service got")
    expect_same([b"hello\n"], answered, "what it got before its answer was taken")
    serving.end()


@case(each={"nobody serves": (left, "Connection refused (os error 111)"), "is not there": (None, "No such file or directory (os error 2)")})
def a_service_at_a_path_that(world, make, why):
    path = world.path("service")
    if make:
        make(path)
    serving = Serving(world, "--to", f"unix:{path}")
    screen = Peer(world, serving.port).read_to_end()
    expect_in_order(screen, f"the service cannot be reached: {why}\r\n".encode())
    printed = serving.end(None)
    expect(f" ended: service not reached: unix:{path}: {why}, ".encode() in printed, f"printed is {printed}")


@case(each={"^C": (b"\x03", b""), "the time": (b"", b"the service cannot be reached: timed out\r\n")})
def a_service_that_takes_no_more_is_left_by(world, keys, last):
    path = world.path("service")
    full = socket.socket(socket.AF_UNIX)
    full.bind(path)
    full.listen(0)
    waiting = []
    with contextlib.suppress(BlockingIOError):
        while True:
            waiting.append(socket.socket(socket.AF_UNIX))
            waiting[-1].setblocking(False)
            waiting[-1].connect(path)
    serving = Serving(world, "--to", f"unix:{path}", "--dial", "2")
    peer = Peer(world, serving.port).is_served()
    peer.send(keys)
    expect_in_order(peer.read_to_end(), last)
    serving.end(None)
