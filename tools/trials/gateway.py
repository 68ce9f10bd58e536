"""Sessions of `tn serve --to` that are joined to line services: what goes to them, what comes back, and how a session ends."""
import contextlib
import re
import select
import socket
import subprocess
import threading
import time

import services
from ends import BRK, DO, DONT, IAC, IP, LINEMODE, NAWS, NO_GO_AHEAD, SB, SE, WILL, WONT, Peer, Serving, User, filled, mode, size
from services import Service, answering, answering_returns
from sockets import sockets_of, unread
from world import NotTried, case, expect, expect_in_order, expect_same, free_port, shortened, wait_until, within


def joined(world, talk, *words, **settings):
    """A service, and a server whose sessions are joined to it."""
    service = Service(world, talk, **settings)
    return service, Serving(world, "--to", f"127.0.0.1:{service.port}", *words)


def peer_of(world, serving):
    return Peer(world, serving.port, opening=NO_GO_AHEAD)


def editing(words):
    return "client" if "--local" in words else "server"


@case(each={" ".join(words) or "as they are": words for words in
            ((), ("--crlf",), ("--cr",), ("--local",), ("--crlf", "--local"), ("--cr", "--local"))})
def lines_go_to_a_service_with_their_ends(world, *words):
    service, serving = joined(world, answering_returns if "--cr" in words else answering, *words)
    user = User(world, serving.port, edits=editing(words))
    user.type(b"helo\x7flo\r", b"got hello\r\n")
    user.type(b"wrong\x15a\x1ab\r", b"got ab\r\n")
    user.type(b"half\x04 whole\r", b"got half whole\r\n")
    user.type(b"\x04", b"farewell\r\n")
    user.end()
    end = b"\r\n" if "--crlf" in words else b"\r" if "--cr" in words else b"\n"
    expect_same(b"hello" + end + b"ab" + end + b"half whole" + end, service.end(), "what the service got")
    serving.end()


def answering_the_second(service, _):
    """Says nothing to the first session, and answers the lines of the second."""
    other, _ = service.listener.accept()
    with other:
        answering(service, other)


@case(each={"sent by a server that edits": ("send",), "sent by a client that edits": ("send", "--local"),
            "not sent by a server that edits": ("end",), "not sent by a client that edits": ("end", "--local")})
def a_line_that_is_too_long_is_noted(world, ending, *words):
    service, serving = joined(world, answering_the_second, "--verbose", "--line-cut", ending, "--count", "2", *words)
    first = peer_of(world, serving).is_served()
    once_joined(service, serving)
    user = User(world, serving.port, edits=editing(words))
    user.type(b"y" * 253 + b"\r", b"got " + b"y" * 253 + b"\r\n")
    whole, cut = b"y" * 253 + b"\n", b"x" * 254 + b"\n"
    if ending == "end":
        user.type(b"x" * 300 + b"\r", b"line cut\r\n")
        user.end()
        expect_same(whole, service.end(), "what the service got")
    else:
        user.type(b"x" * 300 + b"\r", b"got " + b"x" * 254 + b"\r\n")
        user.type(b"\x04", b"farewell\r\n")
        user.end()
        expect_same(whole + cut, service.end(), "what the service got")
    first.connection.close()
    notes = re.findall(rb"Z session 1 \(serial 2\) from 127\.0\.0\.1:\d+: a line of ([\d,]+) bytes may have been cut\n", serving.end(None))
    expect_same([b"255"], notes, "the lengths of the lines that are noted")


@case
def new_lines_of_a_service_are_shown_as_such(world):
    def talk(_, connection):
        connection.setsockopt(socket.IPPROTO_TCP, socket.TCP_NODELAY, 1)
        for piece in (b"one\r\ntwo\r", b"\n", b"three\r\r\nfour\rfive\n\r"):
            connection.sendall(piece)

    _, serving = joined(world, talk)
    screen = peer_of(world, serving).read_to_end()
    expect_same(b"one\r\ntwo\r\nthree\r\0\r\nfour\r\0five\r\n\r\0", screen, "what is shown")
    serving.end()


TELNET = b"\xff\xfd\x18\xff\xfb\x01\xff\xfa\x18\x01\xff\xff\xff\xf0login: \xff\xf9\xff\xffend\n"


@case(each={"at once": (len(TELNET), TELNET, b"login: \xff\xffend\r\n", 1), "in pieces": (1, TELNET, b"login: \xff\xffend\r\n", 1),
            "never, but has the byte 255": (9, b"\xff one \xff\xff two \xff\n", b"\xff\xff one \xff\xff\xff\xff two \xff\xff\r\n", 0)})
def a_service_that_speaks_telnet_is_noted(world, size, said, shown, count):
    def talk(_, connection):
        connection.setsockopt(socket.IPPROTO_TCP, socket.TCP_NODELAY, 1)
        for at in range(0, len(said), size):
            # Its first command comes whole.
            connection.sendall(said[at:at + size] if at >= 3 or size > 3 else said[:3] if at == 0 else b"")
            time.sleep(0.01)

    _, serving = joined(world, talk)
    expect_same(shown, peer_of(world, serving).read_to_end(), "what is shown")
    printed = serving.end(None)
    notes = re.findall(rb"Z session 0 \(serial 1\) from 127\.0\.0\.1:\d+: its service speaks Telnet, which is not shown\n", printed)
    expect_same((count, count), (len(notes), printed.count(b"\n")), f"the notes of it, and all lines: {printed}")


@case
def a_return_is_shown_before_the_service_says_more(world):
    def talk(service, connection):
        connection.sendall(b"ready\r")
        service.hold()
        connection.sendall(b"\ndone\n")

    service, serving = joined(world, talk)
    peer = peer_of(world, serving)
    expect(peer.read_while(lambda: b"ready\r\0" not in peer.text()), "its CR is not shown before it says more")
    service.go_on.set()
    expect_in_order(peer.read_to_end(), b"ready\r\0\r\ndone\r\n")
    serving.end()


def narrow(service, serving):
    """Has the server's end of the connection to the service take little."""
    for found in once_joined(service, serving):
        found.setsockopt(socket.SOL_SOCKET, socket.SO_SNDBUF, 4_096)


def fill(service, serving, peer, lines=(b"y" * 200 + b"\r\0") * 10):
    """Types until the server reads no more, since a service that reads nothing has taken all that it can."""
    narrow(service, serving)
    waiting = 0
    while waiting < 20:
        if unread(serving.port, peer.connection.getsockname()[1]):
            waiting += 1
        else:
            waiting = 0
            peer.send(lines)
        time.sleep(0.1 if waiting else 0.002)


def once_joined(service, serving):
    """What the server has of connections to the service, once there is one: a session begins before that."""
    def ours():
        return [found for found in sockets_of(serving.process.pid) if is_joined(found, service.port)]
    return wait_until(ours, "the session is joined")


def is_joined(found, port):
    with contextlib.suppress(OSError):
        return found.getpeername()[1] == port
    return False


@case(each={"ends what it says": (True,), "is left by its user": (False,)})
def a_service_that_reads_nothing_is_given_up_if_it(world, is_service):
    def talk(service, connection):
        service.hold()
        connection.shutdown(socket.SHUT_WR)
        service.go_on.clear()
        service.hold()

    service, serving = joined(world, talk, buffer=4_096)
    peer = peer_of(world, serving)
    fill(service, serving, peer)
    if is_service:
        service.go_on.set()
    else:
        peer.connection.shutdown(socket.SHUT_WR)
    with contextlib.suppress(ConnectionError):
        peer.read_to_end()
    serving.end()


@case
def few_bytes_wait_for_a_service_that_reads_nothing(world):
    """At most 64 KB of lines wait in a session, also of the longest ones, besides what the service's connection holds."""
    service, serving = joined(world, lambda service, _: service.hold(), "--line", "4095", "--verbose", buffer=4_096)
    peer = peer_of(world, serving)
    fill(service, serving, peer, b"y" * 4_000 + b"\r\0")
    peer.reset()
    count, = re.findall(r" ended: .*, in ([\d,]+) bytes", serving.end(None).decode())
    expect(int(count.replace(",", "")) < 200_000, f"the session took in {count} bytes for a service that reads nothing")


@case
def a_line_after_the_end_of_file_is_not_taken(world):
    def talk(service, connection):
        service.read_all(connection)
        service.hold()

    service, serving = joined(world, talk)
    peer = peer_of(world, serving)
    peer.send(b"one\r\0\x04")
    wait_until(lambda: service.has_ended, "the service gets the end of file")
    peer.send(b"two\r\0")
    peer.read_until(b"closed\r\n")
    service.go_on.set()
    peer.read_to_end()
    expect_same(b"one\n", service.end(), "what the service got")
    serving.end()


@case(each={"^C": (b"\x03",), "^backslash": (b"\x1c",)})
def an_interrupt_ends_a_session_whose_service_goes_on(world, key):
    def talk(service, connection):
        service.read_all(connection)
        service.hold()

    service, serving = joined(world, talk)
    peer = peer_of(world, serving)
    peer.send(b"one\r\0")
    service.wait_for(b"one\n")
    peer.send(b"two" + key)
    peer.read_to_end()
    wait_until(lambda: service.has_ended, "the service's connection is closed")
    expect_same(b"one\n", bytes(service.got), "what the service got")
    serving.end()


@case(each={"edited at the server": (), "edited at the client": ("--local",)})
def an_interrupt_ends_a_session_whose_service_reads_nothing(world, *words):
    """Past the lines that wait, which the service would not have taken."""
    service, serving = joined(world, lambda service, _: service.hold(), *words, buffer=4_096)
    user = User(world, serving.port, edits=editing(words))
    narrow(service, serving)
    user.type((b"y" * 200 + b"\r") * 200 + b"\x1a")
    user.type(b"\x03")
    serving.end()
    user.end()


@case
def signals_that_go_to_a_service_do_not_end_a_session_whose_service_reads_late(world):
    def talk(service, connection):
        service.hold()
        services.listening(service, connection)

    service, serving = joined(world, talk, "--signals", "send", buffer=4_096)
    peer = peer_of(world, serving)
    narrow(service, serving)
    lines = b"y" * 200 + b"\n"
    peer.send(lines.replace(b"\n", b"\r\0") * 200 + b"\x03")
    time.sleep(1)  # So long the service reads nothing.
    service.go_on.set()
    expect_in_order(peer.leave(), b"bye\r\n")
    expect_same(lines * 200 + b"\x03", service.end(), "what the service got")
    serving.end()


@case
def a_service_that_cannot_be_reached_is_reported(world):
    serving = Serving(world, "--to", f"127.0.0.1:{free_port()}")
    screen = peer_of(world, serving).read_to_end()
    expect(re.search(rb"(\A|\n)the service cannot be reached: Connection refused[^\r\n]*\r\n\Z", screen), f"a user reads {screen!r}")
    printed = serving.end(None)
    expect(re.search(rb"\A[^\n]* ended: service not reached: 127\.0\.0\.1:\d+: Connection refused[^\n]*\n\Z", printed), f"printed is {printed!r}")


def dialling(world, *words):
    """A service that takes no connection, as one that drops what opens it; and a session, which runs while that is dialled."""
    listener, waiting = filled(world)
    serving = Serving(world, "--to", f"127.0.0.1:{listener.port}", *words)
    return listener, waiting, serving, peer_of(world, serving).is_served()


@case(each={"^C": (b"\x03",), "^C after a line": (b"one\r\0\x03",), "^C after a stop": (b"one\r\0\x1a\x03",)})
def an_interrupt_ends_a_session_whose_service_is_dialled(world, keys):
    _, _, serving, peer = dialling(world)
    peer.send(keys)
    peer.read_to_end()
    serving.end()


@case(each={"--idle": (b"idle\r\n", "--idle", "1"), "--longest": (b"too long\r\n", "--longest", "1"),
            "--until": (b"closing\r\n", "--drain", "1", "--until")})
def a_limit_ends_a_session_whose_service_is_dialled(world, last, *words):
    """Also after a line, which waits for the service; and nobody says that the service cannot be reached."""
    end = world.path("end")
    _, _, serving, peer = dialling(world, *words, *([end] if "--until" in words else []))
    peer.send(b"one\r\0")
    with open(end, "wb"):
        pass
    expect_in_order(peer.read_to_end(), last)
    expect(b"reached" not in serving.end(None), "it is noted that the service was not reached")


@case
def who_leaves_a_session_whose_service_is_dialled_frees_its_place(world):
    _, _, serving, peer = dialling(world)
    peer.reset()
    serving.end(None)


@case
def a_service_is_dialled_for_as_long_as_is_asked_for(world):
    _, _, serving, peer = dialling(world, "--dial", "2")
    began = time.monotonic()
    screen = peer.read_to_end()
    expect(re.search(rb"the service cannot be reached: [^\r\n]*timed out[^\r\n]*\r\n\Z", screen), f"a user reads {screen!r}")
    expect(1 < time.monotonic() - began < 8, "it is dialled for another time")
    printed = serving.end(None)
    expect(re.search(rb"ended: service not reached: 127\.0\.0\.1:\d+: [^\n]*timed out[^\n]*\n\Z", printed), f"printed is {printed!r}")


def accept_alive(listener):
    """Accepts a connection that is in use, and none that was given up before it was accepted."""
    listener.accept()
    while not (select.select([listener.connection], [], [], 20)[0] and listener.connection.recv(1, socket.MSG_PEEK)):
        listener.accept()


@case(each={"^D": (b"\x04", False), "its user's end": (b"", True)})
def what_is_typed_while_a_service_is_dialled_goes_there_in_order(world, end, is_left):
    lines = b"".join(b"line %d\n" % n for n in range(600))
    listener, waiting, serving, peer = dialling(world)
    peer.send(lines.replace(b"\n", b"\r\0") + end)
    time.sleep(0.7)  # So that it is dialled more than once.
    for _ in waiting:
        with contextlib.suppress(TimeoutError):
            listener.listener.settimeout(0.2)
            listener.listener.accept()[0].close()
    accept_alive(listener)
    if is_left:
        peer.connection.shutdown(socket.SHUT_WR)
    expect_same(lines, listener.read_rest(), "what the service got")
    listener.send(b"bye\n")
    listener.close()
    expect_in_order(peer.read_to_end(), b"bye\r\n")
    serving.end()


@case(each={"nothing": (b"",), "a line": (b"so long\n",), "20,000 lines": (b"".join(b"line %d\n" % n for n in range(20_000)),)})
def a_session_ends_with_its_service_that_says(world, said):
    _, serving = joined(world, lambda _, connection: connection.sendall(said))
    peer = peer_of(world, serving)
    expect_same(said.replace(b"\n", b"\r\n"), peer.read_to_end(), "what is shown")
    serving.end()


@case(alone=True)
def a_session_ends_at_once_with_its_service(world):
    def seconds_of(serving, listener, number):
        peer = peer_of(world, serving)
        service, _ = listener.accept()
        peer.send(b"half a line")
        time.sleep(0.05 + 0.01 * number)  # So that it ends at any moment of a wait.
        service.sendall(b"so long\n")
        closed = time.monotonic()
        service.close()
        expect_in_order(peer.read_to_end(), b"so long\r\n")
        return time.monotonic() - closed

    def usual():
        with socket.create_server(("127.0.0.1", 0)) as listener:
            serving = Serving(world, "--to", f"127.0.0.1:{listener.getsockname()[1]}", "--count", "21")
            taken = sorted(seconds_of(serving, listener, number) for number in range(21))
            serving.end()
            return taken[10]
    expect(any(usual() < 0.05 for _ in range(4)), "it takes more than 50 ms as a rule")


@case
def a_service_may_close_while_a_user_types(world):
    def talk(service, connection):
        service.hold()
        connection.sendall(b"enough\n")

    def type_on():
        with contextlib.suppress(OSError):
            while not stop.is_set():
                peer.connection.sendall(b"x")
                time.sleep(0.01)

    service, serving = joined(world, talk)
    peer, stop = peer_of(world, serving).is_served(), threading.Event()
    typing = threading.Thread(target=type_on)
    typing.start()
    wait_until(lambda: not within(0.2, lambda: unread(serving.port, peer.connection.getsockname()[1])), "the server reads")
    service.go_on.set()
    expect_in_order(peer.read_to_end(), b"enough\r\n")
    stop.set()
    typing.join()
    serving.end()


@case
def what_is_typed_last_is_answered(world):
    _, serving = joined(world, answering)
    user = User(world, serving.port, edits="server")
    user.type(b"last\r")
    expect_in_order(user.end(), b"got last\r\n")
    serving.end()


@case
def a_service_may_answer_after_its_user_has_left(world):
    def talk(service, connection):
        service.read(connection)
        time.sleep(0.5)
        connection.sendall(b"late\n")

    _, serving = joined(world, talk)
    peer = peer_of(world, serving)
    peer.send(b"last\r\0")
    expect_in_order(peer.leave(), b"late\r\n")
    serving.end()


@case
def a_service_gets_the_end_of_a_user_after_all_that_was_typed(world):
    """A service that reads to the end answers only then: the user, who sends no more, still reads it."""
    lines = b"".join(b"line %07d\n" % n for n in range(2_000))
    service, serving = joined(world, services.listening)
    peer = peer_of(world, serving)
    peer.send(lines.replace(b"\n", b"\r\0"))
    expect_in_order(peer.leave(), b"bye\r\n")
    expect_same(lines, service.end(), "what the service got")
    serving.end()


def seconds_to_leave(world, leave, talk):
    """How long a place is held after its user has left."""
    service, serving = joined(world, talk)
    peer = peer_of(world, serving)
    peer.send(b"one\r\0")
    service.wait_for(b"one\n")
    peer.read_while(lambda: True, 0.2)  # So that it is closed in order.
    left = time.monotonic()
    leave(service, peer)
    serving.end(None)
    return time.monotonic() - left


def close(_, peer):
    peer.connection.close()


def reset(_, peer):
    peer.reset()


def end_and_reset(service, peer):
    peer.connection.shutdown(socket.SHUT_WR)
    wait_until(lambda: service.has_ended, "the service gets the end")
    peer.reset()


def staying(service, connection):
    """Does nothing at the end of what its user sends, until that is answered by a reset or so."""
    service.read_all(connection)
    with contextlib.suppress(OSError):
        for _ in range(100):
            connection.sendall(b".")
            time.sleep(0.1)


@case(alone=True, each={"closes": (close, Service.read_all), "resets": (reset, Service.read_all), "ends, and then resets": (end_and_reset, staying)})
def a_place_is_free_soon_after_its_user(world, leave, talk):
    expect(any(seconds_to_leave(world, leave, talk) < 0.5 for _ in range(4)), "it takes more than half a second as a rule")


@case(long=True, seconds=1_200, each={"60,000 at the server": (60_000,), "60,000 at the client": (60_000, "--local")})
@case(each={"8,000 at the server": (8_000,), "8,000 at the client": (8_000, "--local")})
def each_edited_line_goes_to_a_service_that_reads_late(world, count, *words):
    def talk(service, connection):
        service.hold()
        services.listening(service, connection)

    service, serving = joined(world, talk, *words)
    user = User(world, serving.port, edits=editing(words))
    text = b"".join(b"line %07d\r" % n for n in range(count))
    typing = threading.Thread(target=user.type, args=(text + b"\x04",))
    typing.start()
    within(2, lambda: not typing.is_alive())
    service.go_on.set()
    typing.join()
    expect_same(text.replace(b"\r", b"\n"), service.end(), "what the service got")
    user.screen.wait_for(b"bye\r\n")
    user.end()
    serving.end()


@case(long=True, seconds=1_200, each={"50": (50,)})
@case(each={"3": (3,)})
def megabytes_that_a_user_does_not_read_take_no_memory(world, megabytes):
    line = b"x" * 98 + b"\n"
    count = megabytes * 10_000

    def talk(service, connection):
        service.hold()
        for _ in range(count // 100):
            connection.sendall(line * 100)

    service, serving = joined(world, talk)
    if serving.has_sanitizer():
        raise NotTried("this program keeps the memory that it has freed")
    peer = peer_of(world, serving).is_served()
    once_joined(service, serving)
    before, most, done = serving.memory(), 0, threading.Event()
    service.go_on.set()
    time.sleep(3)  # So long nobody reads.

    def watch():
        nonlocal most
        with contextlib.suppress(OSError, TypeError):
            while not done.wait(0.05):
                most = max(most, serving.memory())

    watcher = threading.Thread(target=watch)
    watcher.start()
    screen = peer.read_to_end()
    done.set()
    watcher.join()
    expect_same(line.replace(b"\n", b"\r\n") * count, screen, "what is shown")
    expect(most - before < 1_024, f"the memory of tn serve grew from {before} kB to {most} kB")
    serving.end()


def start_socat(world):
    port = free_port()
    world.start("socat", f"TCP-LISTEN:{port},bind=127.0.0.1", "EXEC:cat")
    return services.listened(port)


REDIS = services.start_redis, [(b"PINNG\x7f\x7fG\r", b"+PONG\r\n"), (b"SET key value\r", b"+OK\r\n"), (b"GET key\r", b"$5\r\nvalue\r\n"),
                               (b"QUIT\r", b"+OK\r\n")]
SMTPD = services.start_smtpd, [(b"", b"220 "), (b"HELLO\x7f\x7f\x7fLO example.org\r", b"Hello example.org"), (b"NOOPX\x7f\r", b"250 "),
                               (b"QUIT\r", b"221 ")]
SOCAT = start_socat, [(b"helo\x7flo\r", b"lo\r\nhello\r\n"), (b"\x04", b"")]


@case(wants=["smtpd"], each={"smtpd": (*SMTPD, "--crlf", "--local")})
@case(wants=["redis-server"], each={"redis-server": REDIS, "redis-server, edited at the client": (*REDIS, "--crlf", "--local")})
@case(wants=["socat"], each={"socat": SOCAT})
def another_makers_service_answers(world, start, steps, *words):
    serving = Serving(world, "--to", f"127.0.0.1:{start(world)}", *words)
    user = User(world, serving.port, edits=editing(words))
    for keys, answer in steps:
        user.type(keys, answer) if keys else user.screen.wait_for(answer)
    user.end()
    serving.end()


@case(each={"edited at the server": (), "edited at the client": ("--local",)})
def signals_go_to_a_service_that_wants_them(world, *words):
    """As a console behind a serial line wants them: nothing of ^C, ^\\, ^Z and ^D is done here."""
    def talk(service, connection):
        while b"\x04" not in service.got and service.read(connection):
            connection.sendall(b"got %d\n" % len(service.got))
        connection.sendall(b"logout\n")

    service, serving = joined(world, talk, "--signals", "send", *words)
    user = User(world, serving.port, edits=editing(words))
    user.type(b"top\r", b"got 4\r\n")
    for count, key in enumerate((b"\x03", b"\x1a", b"\x1c"), 5):
        user.type(key, b"got %d\r\n" % count)
    user.type(b"\x04", b"logout\r\n")
    user.end()
    expect_same(b"top\n\x03\x1a\x1c\x04", service.end(), "what the service got")
    serving.end()


@case(each={"without a service": ("'--signals' needs '--to'", "--signals", "send"),
            "of another word": ("'--signals <WHAT>': it is neither `act` nor `send`", "--to", "127.0.0.1:7", "--signals", "keep")})
def signals_make_sense_only(world, lack, *words):
    ran = world.run("serve", "--port", "7", *words)
    expect(ran.returncode == 2 and lack.encode() in ran.stderr, f"wanted {lack}, got {ran}")


TTYPE, ABORT, SUSP, EOF = 24, 238, 237, 236


class Said:
    """What a case's service says in Telnet, and what a client answers."""
    go_ahead = bytes([IAC, WILL, 3])
    echo = bytes([IAC, WILL, 1])
    kind = bytes([IAC, DO, TTYPE])
    asks_kind = bytes([IAC, SB, TTYPE, 1, IAC, IAC, IAC, SE])
    window = bytes([IAC, DO, NAWS])
    lines = bytes([IAC, DO, LINEMODE])

    agrees_go_ahead = bytes([IAC, DO, 3])
    refuses_echo = bytes([IAC, DONT, 1])
    refuses_kind = bytes([IAC, WONT, TTYPE])
    agrees_window = bytes([IAC, WILL, NAWS])
    agrees_lines = bytes([IAC, WILL, LINEMODE])


def doubled(data):
    return data.replace(b"\xff", b"\xff\xff")


NEGOTIATION = (Said.go_ahead + b"lo" + Said.echo + b"gin" + Said.kind + b": " + Said.asks_kind + Said.window + b"\xff\xff\r\n\xff\xf9.\r\0.\r\n")
ANSWERS = Said.agrees_go_ahead + Said.refuses_echo + Said.refuses_kind + Said.agrees_window + size(0, 0)


@case(each={f"{name}, {kind}": (pieces, *words) for name, pieces in (("at once", len(NEGOTIATION)), ("in pieces", 1))
            for kind, words in (("edited at the server", ()), ("edited at the client", ("--local",)))})
def a_service_is_spoken_to_in_telnet(world, pieces, *words):
    """Its text is shown, its words are answered in order, and the byte 255 goes doubled both ways; nothing is noted."""
    def talk(service, connection):
        connection.setsockopt(socket.IPPROTO_TCP, socket.TCP_NODELAY, 1)
        for at in range(0, len(NEGOTIATION), pieces):
            connection.sendall(NEGOTIATION[at:at + pieces])
            time.sleep(0.005)
        while len(service.got) < len(ANSWERS):
            service.read(connection)
        answering(service, connection)

    service, serving = joined(world, talk, "--to-telnet", *words)
    user = User(world, serving.port, "--width", "0", "--height", "0", edits=editing(words))
    user.screen.wait_for(b"login: \xff\r\n.\r.\r\n")
    service.wait_for(ANSWERS)
    user.type(b"helo\x7flo \xff.\r", b"got hello \xff.\r\n")
    user.type(b"\x04", b"farewell\r\n")
    user.end()
    expect_same(ANSWERS + b"hello \xff\xff.\r\n", service.end(), "what the service got")
    serving.end()


@case(each={" ".join(words) or "as they are": (end, *words) for end, words in
            ((b"\r\n", ()), (b"\r\n", ("--crlf",)), (b"\r\0", ("--cr",)))})
def lines_go_in_telnet_with_their_ends(world, end, *words):
    service, serving = joined(world, services.listening, "--to-telnet", *words)
    user = User(world, serving.port, edits="server")
    user.type(b"one\r\rhalf\x04\x04", b"bye\r\n")
    user.end()
    expect_same(b"one" + end + end + b"half", service.end(), "what the service got")
    serving.end()


@case
def answers_to_a_service_do_not_cut_lines(world):
    """Also while it reads late: each goes between two lines, in order."""
    line = b"y" * 200 + b"\xff"

    def talk(service, connection):
        for option in range(100, 200):
            connection.sendall(bytes([IAC, DO, option]))
            time.sleep(0.005)
        service.hold()
        services.listening(service, connection)

    service, serving = joined(world, talk, "--to-telnet", buffer=4_096)
    peer = peer_of(world, serving)
    narrow(service, serving)
    for _ in range(100):
        peer.send(doubled(line) + b"\r\0")
        time.sleep(0.005)
    service.go_on.set()
    expect_in_order(peer.leave(), b"bye\r\n")
    got = service.end()
    expect(re.fullmatch(rb"(?:\xff\xfc.|y{200}\xff\xff\r\n)*", got, re.DOTALL), f"an answer stands within a line: {shortened(got)}")
    expect_same(bytes(range(100, 200)), b"".join(re.findall(rb"\xff\xfc(.)", got, re.DOTALL)), "the options that are refused")
    expect_same(100, got.count(b"\r\n"), "the count of lines")
    serving.end()


KEYS = b"\x03\x1a\x1c\x04"
BY_LINE = bytes([IAC, IP, 26, IAC, BRK, 4])
BY_MODE = bytes([IAC, IP, IAC, SUSP, IAC, ABORT, IAC, EOF])


@case(each={"that takes lines": (b"", b"", BY_LINE), "that takes keys": (Said.go_ahead, Said.agrees_go_ahead, KEYS),
            "that traps signals": (Said.lines + mode(3), Said.agrees_lines + mode(7), BY_MODE),
            "that traps none": (Said.lines + mode(0), Said.agrees_lines, KEYS)})
def signals_go_in_telnet_to_a_service(world, said, answers, sent):
    def talk(service, connection):
        connection.sendall(said)
        while (answers + sent)[-1:] not in service.got[len(answers):] and service.read(connection):
            connection.sendall(b"got %d\n" % len(service.got))
        connection.sendall(b"logout\n")

    service, serving = joined(world, talk, "--to-telnet", "--signals", "send")
    user = User(world, serving.port, edits="server")
    service.wait_for(answers)
    for key in KEYS:
        after = len(service.got)
        user.type(bytes([key]))
        wait_until(lambda: len(service.got) > after, "the service gets the signal")
    user.screen.wait_for(b"logout\r\n")
    user.end()
    expect_same(answers + sent, service.end(), "what the service got")
    serving.end()


@case
def a_service_hears_of_the_window_of_its_user(world):
    def talk(service, connection):
        while b"\n" not in service.got:
            service.read(connection)
        connection.sendall(Said.window)
        services.listening(service, connection)

    service, serving = joined(world, talk, "--to-telnet")
    user = User(world, serving.port, "--width", "100", "--height", "40", edits="server")
    user.type(b"ready\r")
    service.wait_for(b"ready\r\n" + Said.agrees_window + size(100, 40))
    user.end()
    serving.end()


@case(each={"which edits": (), "whose client edits": ("--local",)})
def our_own_server_is_a_service(world, *words):
    """Both ends of the second connection are ours too. The user's terminal shows each line once, since the echo is refused."""
    inner = Serving(world, *words)
    serving = Serving(world, "--to", f"127.0.0.1:{inner.port}", "--to-telnet", "--signals", "send")
    user = User(world, serving.port, edits="server")
    user.type(b"helo\x7flo\r", b"helo\x08 \x08lo\r\nhello\r\n")
    user.type(b"\x03", b"int\r\n")
    user.type(b"\x1c", b"quit\r\n")
    user.type(b"exit\r", b"bye\r\n")
    user.end()
    inner.end()
    serving.end()


def start_chatd(world):
    port = free_port()
    world.start("telnet-chatd", str(port), stdout=subprocess.DEVNULL, stderr=subprocess.DEVNULL)
    return services.listened(port)


def start_busybox(world):
    port = free_port()
    world.start("busybox", "telnetd", "-F", "-p", str(port), "-l", "/bin/cat")
    return services.listened(port)


def start_telnetd(world):
    port = free_port()
    world.start("socat", f"TCP-LISTEN:{port},bind=127.0.0.1", "EXEC:/usr/sbin/telnetd -h -E /bin/cat,nofork", stderr=subprocess.DEVNULL)
    return services.listened(port)


CHATD = start_chatd, [(b"", b"Enter name: "), (b"anx\x7fn\r", b"Welcome, ann!"), (b"hi\r", b"ann: hi\r\n")]
LOGINS = [(b"helo\x7flo\r", b"hello\r\nhello\r\n"), (b"\x03", b"^C")]


@case(wants=["telnet-chatd"], each={"telnet-chatd": CHATD})
@case(wants=["busybox"], each={"busybox": (start_busybox, LOGINS)})
@case(wants=["/usr/sbin/telnetd", "socat"], each={"telnetd": (start_telnetd, LOGINS)})
def another_makers_service_is_spoken_to_in_telnet(world, start, steps):
    """The last two echo although that was refused, so that the user sees a line twice before it comes back."""
    serving = Serving(world, "--to", f"127.0.0.1:{start(world)}", "--to-telnet", "--signals", "send")
    user = User(world, serving.port, edits="server")
    for keys, answer in steps:
        user.type(keys, answer) if keys else user.screen.wait_for(answer)
    user.end()
    serving.end()


@case
def a_service_that_asks_and_reads_nothing_is_not_read_for_ever(world):
    """It is answered as long as it takes that. Its user may leave it."""
    def talk(service, connection):
        connection.settimeout(0.2)
        while not service.go_on.is_set():
            with contextlib.suppress(TimeoutError):
                connection.send(bytes([IAC, DO, 99]) * 1_000)

    service, serving = joined(world, talk, "--to-telnet", buffer=4_096)
    peer = peer_of(world, serving).is_served()
    narrow(service, serving)
    port = once_joined(service, serving)[0].getsockname()[1]
    waiting = []

    def is_left():
        waiting.append(unread(port, service.port))
        return len(waiting) > 5 and waiting[-1] > 0 and len(set(waiting[-5:])) == 1
    wait_until(is_left, "no more is read of the service", pause=0.5)
    peer.send(b"one\r\0\x03")
    peer.read_to_end()
    service.go_on.set()
    serving.end()


@case
def telnet_makes_sense_to_a_service_only(world):
    ran = world.run("serve", "--port", "7", "--to-telnet")
    expect(ran.returncode == 2 and b"'--to-telnet' needs '--to'" in ran.stderr, f"got {ran}")
