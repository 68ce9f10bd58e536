"""Services that take lines, which a case connects to."""
import contextlib
import fcntl
import os
import socket
import subprocess
import threading

import basics
from world import PATIENCE, NotTried, expect, free_port, wait_until, wait_while_more


class Service:
    """A service for one connection, in a thread: `talk` gets the connection, and what it read is kept. It waits for `go_on` if it is held."""

    def __init__(self, world, talk, buffer=None):
        self.listener = socket.socket()
        if buffer is not None:
            self.listener.setsockopt(socket.SOL_SOCKET, socket.SO_RCVBUF, buffer)
        self.listener.bind(("127.0.0.1", 0))
        self.listener.listen()
        self.port = self.listener.getsockname()[1]
        self.got = bytearray()
        self.has_ended = False
        self.go_on = threading.Event()
        self.thread = threading.Thread(target=self.run, args=(talk,), daemon=True)
        world.keep("the service got", lambda: bytes(self.got))
        self.thread.start()

    def run(self, talk):
        connection, _ = self.listener.accept()
        # A peer that left takes no more words.
        with connection, contextlib.suppress(ConnectionError):
            talk(self, connection)

    def hold(self):
        self.go_on.wait(2 * PATIENCE)

    def read(self, connection):
        try:
            piece = connection.recv(65_536)
        except ConnectionResetError:
            piece = b""
        self.got += piece
        self.has_ended |= not piece
        return piece

    def read_all(self, connection):
        while self.read(connection):
            pass

    def pieces(self, connection, end):
        """Lists of lines, as they come."""
        rest = b""
        while piece := self.read(connection):
            *lines, rest = (rest + piece).split(end)
            yield lines

    def wait_for(self, data):
        wait_until(lambda: data in self.got, f"the service gets {data!r}")

    def end(self):
        """All that came, once the service has closed."""
        wait_while_more(lambda: len(self.got), lambda: not self.thread.is_alive())
        expect(not self.thread.is_alive(), "wanted the service to end, and its connection goes on")
        return bytes(self.got)


def answering(service, connection):
    """Answers each line, and says farewell at the end of file."""
    for lines in service.pieces(connection, b"\n"):
        connection.sendall(b"".join(b"got " + line.rstrip(b"\r") + b"\n" for line in lines))
    connection.sendall(b"farewell\n")


def answering_returns(service, connection):
    """Answers each line that ends with CR, as a service at a serial line does."""
    for lines in service.pieces(connection, b"\r"):
        connection.sendall(b"".join(b"got " + line + b"\r\n" for line in lines))
    connection.sendall(b"farewell\r\n")


def listening(service, connection):
    """Takes all to the end, says one line, and closes."""
    service.read_all(connection)
    connection.sendall(b"bye\n")


def strict_mail(service, connection):
    """A server for mail that gives up at a line feed without a carriage return, or the other way round."""
    connection.sendall(b"220 here\r\n")
    for lines in service.pieces(connection, b"\r\n"):
        for line in lines:
            if b"\n" in line or b"\r" in line:
                connection.sendall(b"500 bare\r\n")
                return
            connection.sendall(b"221 bye\r\n" if line == b"QUIT" else b"250 ok\r\n")
            if line == b"QUIT":
                return


def instrument(service, connection):
    """An instrument (SCPI), whose lines end by a line feed only."""
    for lines in service.pieces(connection, b"\n"):
        for line in lines:
            connection.sendall(b"MAKER,MODEL,1,2\n" if line == b"*IDN?" else b"-113\n")


def start_redis(world):
    """The port of a redis-server."""
    port = free_port()
    world.start("redis-server", "--port", port, "--save", "", "--daemonize", "no", stdout=subprocess.DEVNULL)
    return listened(port)


def start_ser2net(world):
    """The port of a ser2net that gives each connection a terminal of its own, whose line editing is on."""
    port, settings = free_port(), world.path("ser2net.yaml")
    with open(settings, "w", encoding="ascii") as file:
        file.write(f"%YAML 1.1\n---\nconnection: &console\n  accepter: tcp,127.0.0.1,{port}\n  connector: pty,/bin/cat\n")
    world.start("ser2net", "-d", "-n", "-c", settings, stdout=subprocess.DEVNULL, stderr=subprocess.DEVNULL)
    return listened(port)


def start_smtpd(world):
    """The port of OpenSMTPD's smtpd, which wants root."""
    if os.geteuid() != 0:
        raise NotTried("smtpd wants root")
    lock = open("/run/tn-trials-smtpd", "w", encoding="ascii")  # One runs at a time; the lock ends with the case.
    fcntl.flock(lock, fcntl.LOCK_EX)
    world.locks = [lock]
    port, settings = free_port(), world.path("smtpd.conf")
    with open(settings, "w", encoding="ascii") as file:
        file.write(f"listen on 127.0.0.1 port {port}\naction \"out\" relay\nmatch from local for any action \"out\"\n")
    world.start("smtpd", "-d", "-f", settings, stdout=subprocess.DEVNULL, stderr=subprocess.DEVNULL)
    return listened(port)


def listened(port):
    wait_until(lambda: basics.is_listened_to(port), f"somebody listens on port {port}")
    return port
