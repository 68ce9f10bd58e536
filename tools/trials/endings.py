"""How a connection ends at either side: who gets the end, who may still send, and with which status."""
import contextlib
import os
import socket
import subprocess
import threading
import time

from ends import Listener, Peer, Serving
from services import Service, answering
from terminal import Console
from world import Collected, case, expect, expect_in_order, expect_same, status_of, wait_until


def piped(world, *words):
    """`tn connect` whose keys are a pipe that stays open, and what it shows and prints."""
    process = world.start(world.program, "connect", *words, bufsize=0, stdin=subprocess.PIPE, stdout=subprocess.PIPE, stderr=subprocess.PIPE)
    return process, Collected(process.stdout.fileno()), Collected(process.stderr.fileno())


@case
def a_server_that_gets_the_end_may_still_answer(world):
    listener = Listener(world)
    process, screen, printed = piped(world, "--port", listener.port)
    listener.accept()
    process.stdin.write(b"last\r")
    process.stdin.close()
    expect_same(b"last\r\0", listener.read_rest(), "what the server got before the end")
    time.sleep(0.5)  # Nothing is to happen before the server closes.
    expect(process.poll() is None, "it ends before the server has closed")
    listener.send(b"late\r\n")
    listener.close()
    expect_in_order(screen.all(), b"late\r\n")
    expect_same((0, b""), (status_of(process), printed.all()), "the status, and what is printed")


@case
def a_peer_that_got_the_end_may_still_send(world):
    def may_send():
        serving = Serving(world)
        peer = Peer(world, serving.port).is_served()
        peer.send(b"exit\r\n")
        peer.read_rest()
        expect_in_order(peer.text(), b"bye\r\n")
        with contextlib.suppress(ConnectionError):
            for _ in range(2):  # If both directions were shut down, the second of these fails.
                peer.connection.sendall(b"x")
                time.sleep(0.1)
            peer.connection.close()
            serving.end()
            return True
        return False
    expect(any(may_send() for _ in range(3)), "a peer that got the end can send nothing more")


@case
def a_talk_ends_with_its_service_after_the_end_of_the_input(world):
    def talk(service, connection):
        service.read_all(connection)
        service.hold()
        connection.sendall(b"farewell\n")
    service = Service(world, talk)
    process, screen, printed = piped(world, "--plain", f"127.0.0.1:{service.port}")
    process.stdin.write(b"one\nhalf")
    process.stdin.close()
    wait_until(lambda: service.has_ended, "the service gets the end of the input")
    time.sleep(0.5)  # Nothing is to happen before the service closes.
    expect(process.poll() is None, "it ends before the service has closed")
    service.go_on.set()
    expect_same((b"farewell\n", 0, b""), (screen.all(), status_of(process), printed.all()), "what is shown, the status, and what is printed")
    expect_same(b"one\r\nhalf", service.end(), "what went")


@case
def a_talk_ends_with_its_service_before_the_end_of_the_input(world):
    service = Service(world, lambda service, connection: (service.read(connection), connection.sendall(b"enough\n")))
    process, screen, printed = piped(world, "--plain", f"127.0.0.1:{service.port}")
    process.stdin.write(b"one\n")
    expect_same((b"enough\n", 0, b""), (screen.all(), status_of(process), printed.all()), "what is shown, the status, and what is printed")
    expect_same(b"one\r\n", service.end(), "what went")


@case
def a_talk_goes_on_while_neither_has_ended(world):
    service = Service(world, answering)
    process, screen, _ = piped(world, "--plain", f"127.0.0.1:{service.port}")
    for word in (b"one", b"two"):
        process.stdin.write(word + b"\n")
        screen.wait_for(b"got " + word + b"\n")
        time.sleep(0.3)  # Nothing is to happen before more is typed.
        expect(process.poll() is None, "it ends though neither its input nor its service has")
    process.stdin.close()
    expect_same((b"got one\ngot two\nfarewell\n", 0), (screen.all(), status_of(process)), "what is shown, and the status")


@case(each={"that reads at once": (False,), "that reads late": (True,)})
def a_long_paste_goes_whole_to_a_server(world, is_late):
    text = b"".join(b"line %06d of a paste\r" % n for n in range(2_000))
    listener = Listener(world, buffer=8_192)
    process, screen, printed = piped(world, "--port", listener.port)
    listener.accept()

    def paste():
        process.stdin.write(text)
        process.stdin.close()
    typing = threading.Thread(target=paste)
    typing.start()
    if is_late:
        typing.join(2)  # So long nobody reads.
    expect_same(text.replace(b"\r", b"\r\0"), listener.read_rest(), "what the server got")
    listener.close()
    typing.join()
    screen.all()
    expect_same((0, b""), (status_of(process), printed.all()), "the status, and what is printed")


@case(alone=True)
def a_session_without_a_service_ends_with_its_input(world):
    """Only a session before a service stays for two seconds, so that its user gets what the service still says."""
    def seconds():
        serving = Serving(world)
        peer = Peer(world, serving.port, opening=b"\xff\xfd\x03").is_served()
        peer.send(b"one\r\0")
        peer.read_until(b"one\r\n")
        began = time.monotonic()
        peer.connection.shutdown(socket.SHUT_WR)
        peer.read_to_end()
        return time.monotonic() - began
    fastest = min(seconds() for _ in range(5))
    expect(fastest < 1.5, f"wanted an end at once, and the fastest of five took {fastest:.1f} s")


@case(seconds=300, each={name: (name, "connect", "host", "1") for name in ("HUP", "WINCH", "USR1")} | {"TERM": ("TERM", "serve", "-p", "1")})
def a_program_that_ends_as_a_signal_comes_is_not_waited_for(world, name, *words):
    """The shell of the launcher then forgets how the program ended, in one of some twenty times."""
    program = world.path("program")
    with open(program, "w", encoding="ascii", opener=lambda path, flags: os.open(path, flags, 0o755)) as file:
        file.write(f"#!/bin/sh\nkill -{name} $PPID\n")
    for _ in range(80):
        console = Console(world, world.launcher, program, *words, HOME=world.folder)
        status_of(console.process, "the launcher")
        console.hang_up()
        os.close(console.slave)
