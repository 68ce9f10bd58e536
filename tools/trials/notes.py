"""What `tn serve` notes of its sessions and sends its peers, how it ends them and itself, and what it prints if it cannot listen."""
import contextlib
import itertools
import os
import re
import resource
import signal
import socket
import subprocess
import time

import basics
from ends import IAC, NAWS, SB, SE, WILL, Peer, Serving
from sockets import enter_own_network, probed_in, sockets_of, unread
from world import Collected, NotTried, case, expect, expect_same, free_port, wait_until

BEGAN = re.compile(r"session (\d+) \(serial (\d+)\) from (\S+) began")
STARVED = re.compile(r"no connection can be accepted now: (.+)")
FULL = re.compile(r"no session \(serial (\d+)\) from (\S+): full")
WITHOUT_DESCRIPTOR = re.compile(r"no session from (\S+): full, Too many open files.*")
ROSTER = re.compile(r"accepted \d+|full")
ENDED = re.compile(r"session (\d+) \(serial (\d+)\) from (\S+) ended: (.+), (\d+\.\d) s, in ([\d,]+) bytes, out ([\d,]+) bytes, "
                   r"([\d,]+) entries")


def number_of(text):
    expect(re.fullmatch(r"\d{1,3}(,\d{3})*", text), f"{text!r} is not in groups of three digits")
    return int(text.replace(",", ""))


def noted(lines, kind, peer):
    """What the one note of this kind says of this peer."""
    found = [match for match in map(kind.fullmatch, lines) if match and peer.address in match.groups()]
    expect(len(found) == 1, f"wanted one note of {peer.address}, got {len(found)}: {lines}")
    return found[0]


def expect_session(lines, serial, peer, cause, entries):
    """What is noted of this peer is what it saw; returns its number."""
    began = noted(lines, BEGAN, peer)
    expect_same(str(serial), began[2], "the serial number")
    expect_end(lines, began[1], serial, peer, cause, entries)
    expect(lines.index(began[0]) < lines.index(noted(lines, ENDED, peer)[0]), f"an end before its beginning: {lines}")
    return int(began[1])


def expect_end(lines, number, serial, peer, cause, entries):
    found = noted(lines, ENDED, peer)
    seen = (found[1], int(found[2]), found[4], number_of(found[6]), number_of(found[7]), number_of(found[8]))
    expect_same((number, serial, cause, peer.sent, len(peer.got), entries), seen, "what is noted")
    least, most = peer.left - (peer.served or peer.left), time.monotonic() - peer.began
    expect(least - 0.1 <= float(found[5]) <= most + 0.1, f"{found[0]!r}, and it lasted {least:.1f} to {most:.1f} s")


def wait_for_end(serving, peer):
    serving.printed.wait_for(f"from {peer.address} ended".encode())


def answers(peer):
    """A session goes on: it answers a line, and says GA."""
    peer.send(b"hello\r\n")
    peer.read_until(b"hello\r\n\xff\xf9")


@case
def each_session_is_noted(world):
    serving = Serving(world, "--verbose", "--limit", "2", "--count", "5")
    first, second = Peer(world, serving.port).is_served(), Peer(world, serving.port).is_served()
    third = Peer(world, serving.port)
    expect_same(b"full\r\n", third.leave(), "what one more peer gets")
    probed = wait_until(lambda: probed_in(serving.port, second.connection.getsockname()[1]), "a silent peer is to be probed")
    expect(10 < probed <= 60, f"wanted a silent peer to be probed within a minute, got {probed}")
    first.send(b"hello\r\n" * 200)
    first.leave()
    wait_for_end(serving, first)
    fourth = Peer(world, serving.port).is_served()
    fourth.send(b"a" * 77)
    wait_until(lambda: not unread(serving.port, fourth.connection.getsockname()[1]), "tn serve reads what is typed")
    fourth.reset()
    wait_for_end(serving, fourth)
    second.leave()
    fifth = Peer(world, serving.port).is_served()
    fifth.send(b"\x04")
    fifth.leave()
    lines = serving.notes("tn: session")
    answered = [line for line in lines if ROSTER.fullmatch(line)]
    expect_same((5, ["accepted 0", "accepted 1", "full"]), (len(answered), answered[:3]), "what the roster answered")
    lines = [line for line in lines if line not in answered]
    expect_same((11, f"listening on 127.0.0.1:{serving.port}"), (len(lines), lines[0]), "how many other notes there are, and the first")
    expect_same("3", noted(lines, FULL, third)[1], "the serial number of one more")
    numbers = [expect_session(lines, 1, first, "hang-up", 200), expect_session(lines, 2, second, "hang-up", 0)]
    expect_same([0, 1], sorted(numbers), "the numbers of the two first")
    expect_same(numbers[0], expect_session(lines, 4, fourth, "reset by the client", 0), "a number that is free again")
    expect_session(lines, 5, fifth, "done", 1)
    expect_same(noted(lines, ENDED, fourth)[0], lines[lines.index("tn: session") + 1], "the line after `tn: session`")


@case
def who_is_turned_away_may_send_for_a_second(world):
    serving = Serving(world, "--limit", "1", "--count", "7")
    first = Peer(world, serving.port).is_served()

    def may_send(peer):
        peer.read_rest()
        try:
            for _ in range(2):  # If it is closed at once, the second of these fails.
                peer.send(b"x")
                time.sleep(0.05)
        except ConnectionError:
            return False
        return True
    sent = [may_send(Peer(world, serving.port)) for _ in range(6)]
    expect(any(sent), "no peer that is turned away may send a byte")
    first.leave()
    serving.end()


@case(each={
    "idle": ("idle", 1, "--idle", "1"), "idle before the longest": ("idle", 1, "--idle", "1", "--longest", "60"),
    "too long": ("too long", 2, "--longest", "2"), "too long before idle": ("too long", 1, "--longest", "1", "--idle", "60")})
def a_peer_gets_the_cause_of_its_end(world, cause, seconds, *words):
    serving = Serving(world, "--verbose", *words)
    peer = Peer(world, serving.port).is_served()
    peer.read_until(cause.encode() + b"\r\n")
    lasted = time.monotonic() - peer.began
    expect(lasted >= seconds, f"wanted an end after {seconds} s, got one after {lasted:.1f}")
    if cause != "idle":  # It has five seconds to close, and what it sends is read meanwhile: else the second of these fails.
        for _ in range(2):
            peer.connection.sendall(b"x")
            time.sleep(0.1)
    peer.leave()
    expect(peer.got.endswith(cause.encode() + b"\r\n"), "more comes after why it is ended")
    expect_session(serving.notes(), 1, peer, cause, 0)


@case(each={"a line": (b"a\r\n",), "an interrupt": (b"\xff\xf4",)})
def who_types_is_not_idle_and_may_stay_too_long(world, piece):
    serving = Serving(world, "--verbose", "--idle", "5", "--longest", "8")
    peer = Peer(world, serving.port).is_served()
    while b"too long\r\n" not in peer.got and b"idle\r\n" not in peer.got:
        peer.send(piece)
        peer.read_more(0.3)
    peer.leave()
    expect_same("too long", noted(serving.notes(), ENDED, peer)[4], "why it was ended")


@case(each={"NOP": (b"\xff\xf1",), "AYT": (b"\xff\xf6",), "an option": (bytes([IAC, WILL, 99]),),
            "a size": (bytes([IAC, SB, NAWS, 0, 80, 0, 24, IAC, SE]),)})
def who_types_nothing_is_idle(world, piece):
    serving = Serving(world, "--verbose", "--idle", "1")
    peer = Peer(world, serving.port).is_served()
    end = time.monotonic() + 30
    while not peer.got.endswith(b"idle\r\n"):
        expect(time.monotonic() < end, f"{piece!r} keeps a session")
        peer.send(piece)
        peer.read_more(0.2)
    peer.leave()
    expect_same("idle", noted(serving.notes(), ENDED, peer)[4], "why it was ended")


@case(each={"--forever": (["--forever"],), "--count": (["--count", "3"],)})
def once_a_file_is_there_sessions_go_on_and_none_begins(world, words):
    marker = world.path("end")
    serving = Serving(world, "--verbose", "--until", marker, "--drain", "0", *words)
    first, second = Peer(world, serving.port).is_served(), Peer(world, serving.port).is_served()
    open(marker, "w", encoding="ascii").close()
    serving.printed.wait_for(b"no more connections are accepted\n")
    wait_until(lambda: not basics.is_listened_to(serving.port), "no connection is taken once the file is there")
    answers(first)
    for peer in (first, second):
        expect(serving.runs(), "it ended while a session ran")
        peer.leave()
    lines = serving.notes()
    expect_same(1, lines.count("no more connections are accepted"), "how often that is noted")
    expect_session(lines, 1, first, "hang-up", 1)
    expect_session(lines, 2, second, "hang-up", 0)


@case(each={"--drain 1": (1, "--drain", "1"), "--drain 5, the default": (5,)})
def once_a_file_is_there_sessions_have_their_time_to_end(world, seconds, *words):
    marker = world.path("end")
    serving = Serving(world, "--verbose", "--forever", "--until", marker, *words)
    first, second = Peer(world, serving.port).is_served(), Peer(world, serving.port).is_served()
    open(marker, "w", encoding="ascii").close()
    began = time.monotonic()
    answers(first)
    for peer in (first, second):
        peer.read_until(b"closing\r\n")
        lasted = time.monotonic() - began
        expect(lasted >= seconds, f"wanted {seconds} s for a session to end, and it had {lasted:.1f}")
        peer.leave()
        expect(peer.got.endswith(b"closing\r\n"), "more comes after why it is ended")
    lines = serving.notes()
    expect_session(lines, 1, first, "closing", 1)
    expect_session(lines, 2, second, "closing", 0)


@case
def once_a_file_is_there_a_peer_that_takes_nothing_is_cut(world):
    marker = world.path("end")
    serving = Serving(world, "--verbose", "--until", marker, "--drain", "1")
    peer = Peer(world, serving.port).is_served()
    fill(peer.connection)
    open(marker, "w", encoding="ascii").close()
    expect_same("closing", noted(serving.notes("tn: session"), ENDED, peer)[4], "why it was ended")


def fill(connection):
    """Sends lines, and reads nothing of what comes back, until the server takes no more."""
    connection.setblocking(False)
    last = time.monotonic()
    while time.monotonic() < last + 1:
        try:
            connection.send(b"a line for a peer that reads nothing\r\n" * 100)
            last = time.monotonic()
        except BlockingIOError:
            time.sleep(0.02)


def launched(world, *words, under=None):
    """A server that the launcher runs, and a peer that it serves."""
    serving = Serving(world, "--forever", "--verbose", *words, under=under or (world.launcher,), env={**os.environ, "TMPDIR": world.folder})
    return serving, Peer(world, serving.port).is_served()


@case(each={"TERM": (signal.SIGTERM,), "INT": (signal.SIGINT,)})
def a_signal_ends_a_server_in_order(world, number):
    serving, peer = launched(world, "--drain", "1")
    serving.process.send_signal(signal.SIGHUP)
    answers(peer)
    serving.process.send_signal(number)
    peer.read_until(b"closing\r\n")
    peer.leave()
    expect_session(serving.notes(), 1, peer, "closing", 1)
    expect_same([], os.listdir(world.folder), "what is left of it")


@case(wants=("unshare",))
def the_first_process_of_a_container_ends_in_order(world):
    """The system drops a signal for such a process, unless it has asked for it."""
    first = ("unshare", "--map-root-user", "--pid", "--fork", "--kill-child", "--mount-proc", world.launcher)
    serving, peer = launched(world, "--drain", "1", under=first)
    unsharing = serving.process.pid
    with open(f"/proc/{unsharing}/task/{unsharing}/children", encoding="utf-8") as file:
        os.kill(int(file.read()), signal.SIGTERM)
    peer.read_until(b"closing\r\n")
    peer.leave()
    expect_session(serving.notes(), 1, peer, "closing", 0)


@case
def a_second_signal_ends_a_server_at_once(world):
    serving, peer = launched(world, "--drain", "0", "--until", world.path("end"))
    serving.process.send_signal(signal.SIGTERM)
    serving.printed.wait_for(b"no more connections are accepted\n")
    answers(peer)
    serving.process.send_signal(signal.SIGTERM)
    serving.end(None, 128 + signal.SIGTERM)
    expect_same([], os.listdir(world.folder), "what is left of it")


@case
def a_killed_launcher_ends_the_server(world):
    serving, peer = launched(world)
    serving.process.kill()
    peer.read_rest()
    wait_until(lambda: not basics.is_listened_to(serving.port), "the server ends")


@case
def a_file_that_cannot_be_looked_for_is_none(world):
    serving = Serving(world, "--count", "1", "--until", "/dev/null/end")
    time.sleep(1.2)  # It looks twice, and nothing is to happen.
    expect(serving.runs(), "it ended without its file")
    Peer(world, serving.port).leave()
    serving.end()


@case
def a_file_ends_a_server_without_sessions(world):
    marker = world.path("end")
    serving = Serving(world, "--forever", "--until", marker)
    time.sleep(1.2)  # It looks twice, and nothing is to happen.
    expect(serving.runs(), "it ended without its file")
    open(marker, "w", encoding="ascii").close()
    serving.end()
    run = world.run("serve", "--port", serving.port, "--forever", "--until", marker)
    expect_same((0, b"", b""), (run.returncode, run.stdout, run.stderr), "a server whose file is there before it starts")


@case
def who_is_turned_away_is_closed(world):
    serving = Serving(world, "--limit", "1", "--count", "32")
    first = Peer(world, serving.port).is_served()
    before = len(serving.files())
    others = [Peer(world, serving.port) for _ in range(30)]
    for peer in others:
        peer.read_until(b"full\r\n")
    wait_until(lambda: len(serving.files()) == before, "those are closed who neither close nor send")
    first.leave()
    Peer(world, serving.port).leave()
    serving.end()


@case
def one_address_has_as_many_sessions_as_it_may(world):
    serving = Serving(world, "--verbose", "--host", "0.0.0.0", "--per-host", "2", "--count", "6")
    first, second = Peer(world, serving.port).is_served(), Peer(world, serving.port).is_served()
    third = Peer(world, serving.port)
    expect_same(b"full\r\n", third.leave(), "what the third peer of an address gets")
    other = Peer(world, serving.port, "127.0.0.2").is_served()
    first.leave()
    wait_for_end(serving, first)
    fourth, fifth = Peer(world, serving.port).is_served(), Peer(world, serving.port)
    expect_same(b"full\r\n", fifth.leave(), "what one more peer gets")
    for peer in (second, other, fourth):
        peer.leave()
    lines = serving.notes()
    expect_same(["3", "6"], [noted(lines, FULL, peer)[1] for peer in (third, fifth)], "the serial numbers of those turned away")
    for serial, peer in ((1, first), (2, second), (4, other), (5, fourth)):
        expect_session(lines, serial, peer, "hang-up", 0)


def allow_files(serving, count):
    """From now on a server may have descriptors below this number; returns what it might have before."""
    allowed = resource.prlimit(serving.process.pid, resource.RLIMIT_NOFILE)
    resource.prlimit(serving.process.pid, resource.RLIMIT_NOFILE, (count, allowed[1]))
    return allowed[0]


def first_free(serving):
    taken = {int(name) for name in serving.files()}
    return next(free for free in itertools.count() if free not in taken)


@case
def without_a_descriptor_a_peer_is_turned_away(world):
    serving = Serving(world, "--verbose", "--count", "2")
    first = Peer(world, serving.port).is_served()
    before = allow_files(serving, first_free(serving))
    others = [Peer(world, serving.port) for _ in range(3)]
    for peer in others:
        expect_same(b"full\r\n", peer.leave(), "what a peer gets without a descriptor for it")
    answers(first)
    allow_files(serving, before)
    last = Peer(world, serving.port).is_served()
    first.leave()
    last.leave()
    lines = serving.notes()
    for peer in others:
        noted(lines, WITHOUT_DESCRIPTOR, peer)
    expect_session(lines, 1, first, "hang-up", 1)
    expect_same("2", noted(lines, ENDED, last)[2], "the serial number of the next session")


@case
def a_peer_waits_until_there_is_a_descriptor_for_it(world):
    serving = Serving(world, "--verbose", "--count", "2")
    first = Peer(world, serving.port).is_served()
    before = allow_files(serving, 3)  # Not even the spare descriptor of a listener can be given again.
    second = Peer(world, serving.port)
    serving.printed.wait_for(b"no connection can be accepted now")
    expect(not second.read_more(1), "a peer gets something though no descriptor is left")
    answers(first)
    allow_files(serving, before)
    second.is_served()
    first.leave()
    second.leave()
    lines = serving.notes()
    expect_same(1, len([line for line in lines if STARVED.fullmatch(line) and "open files" in line]), "how often that is noted")
    expect_session(lines, 1, first, "hang-up", 1)
    expect_same("hang-up", noted(lines, ENDED, second)[4], "how the other session ended")


def proxied(world, serving, line, address=None):
    """A peer whose proxy sends this line, for a client of this address."""
    peer = Peer(world, serving.port, opening=line)
    peer.address, peer.sent = address or peer.address, 0
    return peer


@case
def a_proxy_names_its_client(world):
    serving = Serving(world, "--verbose", "--proxy", "--per-host", "1", "--count", "4")
    first = proxied(world, serving, b"PROXY TCP4 192.0.2.7 127.0.0.1 4000 23\r\nhel", "192.0.2.7:4000").is_served()
    first.sent = 3
    first.send(b"lo\r\n")
    first.read_until(b"hello\r\n\xff\xf9")
    second = proxied(world, serving, b"PROXY TCP4 192.0.2.7 127.0.0.1 4001 23\r\n", "192.0.2.7:4001")
    expect_same(b"full\r\n", second.leave(), "what a second connection for one host gets")
    third = proxied(world, serving, b"PROXY TCP6 2001:db8::7 ::1 4002 23\r\n", "[2001:db8::7]:4002").is_served()
    fourth = proxied(world, serving, b"PROXY UNKNOWN\r\n").is_served()
    for peer in (first, third, fourth):
        peer.leave()
    lines = serving.notes()
    expect_session(lines, 1, first, "hang-up", 1)
    expect_same("2", noted(lines, FULL, second)[1], "the serial number of the second connection")
    expect_session(lines, 3, third, "hang-up", 0)
    expect_session(lines, 4, fourth, "hang-up", 0)


@case(each={"text": (b"hello\r\n",), "nothing": (b"",), "an endless line": (b"PROXY TCP4 " + 200 * b"1",), "no address": (b"PROXY TCP4 a b 1 2\r\n",),
            "a port too large": (b"PROXY TCP4 192.0.2.7 127.0.0.1 65536 23\r\n",), "another protocol": (b"PROXY UDP4 192.0.2.7 127.0.0.1 1 2\r\n",)})
def who_sends_no_line_of_a_proxy_is_closed(world, opening):
    serving = Serving(world, "--proxy")
    stranger = Peer(world, serving.port, opening=opening)
    expect_same(b"", stranger.read_rest(), "what a connection without the line of a proxy gets")
    proxied(world, serving, b"PROXY UNKNOWN\r\n").is_served().leave()
    lines = serving.notes()
    expect_same([f"no session from {stranger.address}: it does not begin with a PROXY line"], lines, "what is noted")


def counts_in(path):
    with open(path, encoding="ascii") as file:
        return {name: int(value) for name, value in (line.rsplit(" ", 1) for line in file if not line.startswith("#"))}


@case
def counts_are_kept_for_a_collector(world):
    path = world.path("tn.prom")
    serving = Serving(world, "--metrics", path, "--limit", "1", "--count", "4")
    expect_same({0}, set(counts_in(path).values()), "the counts at the beginning")
    first = Peer(world, serving.port).is_served()
    wait_for = lambda name: wait_until(lambda: counts_in(path)[name] == 1, f"{name} is 1")
    wait_for("tn_sessions_open")
    Peer(world, serving.port).leave()
    answers(first)
    first.leave()
    wait_for('tn_sessions_ended_total{cause="hang-up"}')
    second = Peer(world, serving.port).is_served()
    second.send(b"\x04")
    second.leave()
    wait_for('tn_sessions_ended_total{cause="done"}')
    third = Peer(world, serving.port).is_served()
    third.reset()
    serving.end(b"tn: session\n")
    counted = {name: count for name, count in counts_in(path).items() if count}
    expect_same({'tn_connections_total{got="session"}': 3, 'tn_connections_total{got="full"}': 1, 'tn_sessions_ended_total{cause="hang-up"}': 1,
                 'tn_sessions_ended_total{cause="done"}': 1, 'tn_sessions_ended_total{cause="reset by the client"}': 1, "tn_entries_total": 2,
                 'tn_bytes_total{way="in"}': first.sent + second.sent, 'tn_bytes_total{way="out"}': len(first.got + second.got + third.got)},
                counted, "what was counted at the end")
    expect_same(["tn.prom"], os.listdir(world.folder), "what is left beside the counts")


@case
def counts_that_cannot_be_written_are_noted(world):
    serving = Serving(world, "--metrics", world.path("none/tn.prom"))
    Peer(world, serving.port).is_served().leave()
    lines = serving.notes()
    expect(len(lines) == 1 and re.fullmatch(r"cannot write \S+/none/tn.prom: No such file or directory.*", lines[0]), f"one note: {lines}")


@case(alone=True)
def who_stays_too_long_keeps_no_place(world):
    serving = Serving(world, "--limit", "1", "--longest", "1", "--forever")
    first = Peer(world, serving.port).is_served()
    first.read_until(b"too long\r\n")
    began = time.monotonic()
    second = Peer(world, serving.port)
    while second.leave() == b"full\r\n":
        second = Peer(world, serving.port)
        time.sleep(0.1)
    expect(time.monotonic() - began < 4, f"the place of who stayed too long was free after {time.monotonic() - began:.1f} s")


@case
def a_subnet_of_ipv6_counts_as_one_host(world):
    enter_own_network("2001:db8:0:1::1", "2001:db8:0:1::2", "2001:db8:0:2::1")
    serving = Serving(world, "--verbose", "--host", "::", "--per-host", "2", "--count", "6")
    first, second = Peer(world, serving.port, "2001:db8:0:1::1").is_served(), Peer(world, serving.port, "2001:db8:0:1::2").is_served()
    third = Peer(world, serving.port, "2001:db8:0:1::1")
    expect_same(b"full\r\n", third.leave(), "what the third peer of a subnet gets")
    others = [Peer(world, serving.port, host).is_served() for host in ("2001:db8:0:2::1", "127.0.0.1", "127.0.0.2")]
    for peer in (first, second, *others):
        peer.leave()
    lines = serving.notes()
    noted(lines, FULL, third)
    for serial, peer in ((1, first), (2, second), (4, others[0]), (5, others[1]), (6, others[2])):
        expect_session(lines, serial, peer, "hang-up", 0)


def full_pipe():
    """Both ends of a pipe in which there is no room."""
    reading, writing = os.pipe()
    os.set_blocking(writing, False)
    with contextlib.suppress(BlockingIOError):
        while os.write(writing, b"x" * 1_024):
            pass
    os.set_blocking(writing, True)
    return reading, writing


@case
def a_full_pipe_as_standard_error_stops_nobody(world):
    reading, writing = full_pipe()
    marker = world.path("end")
    serving = Serving(world, "--verbose", "--forever", "--until", marker, stderr=writing)
    for _ in range(40):
        peer = Peer(world, serving.port).is_served()
        answers(peer)
        peer.leave()
    open(marker, "w", encoding="ascii").close()
    serving.end()
    os.close(reading)


@case(seconds=120)
def notes_that_find_no_room_are_counted(world):
    """Of 300 lines that wait 256 are kept; once somebody reads, the next is preceded by how many were not."""
    reading, writing = full_pipe()
    serving = Serving(world, "--verbose", "--count", "401", "--limit", "1", stderr=writing)
    os.close(writing)
    first = Peer(world, serving.port).is_served()
    for _ in range(399):
        expect_same(b"full\r\n", Peer(world, serving.port).leave(), "what one more is told")
    told = Collected(reading)
    told.wait_for(b" notes were dropped\n")
    first.leave()
    told.wait_for(b" ended: ")
    Peer(world, serving.port).is_served().leave()
    serving.end()
    lines = told.all().decode().splitlines()
    dropped = [re.search(r"(\d+) notes were dropped$", line) for line in lines]
    count = sum(int(found[1]) for found in dropped if found)
    # Two notes of each connection that found no place, and of the others what the roster answers, that they begin and how they end.
    written = sum(1 for line in lines if re.search(r"Z (accepted \d+|full|.* began|.*: full|.* ended: .*|no more .*|listening .*)$", line))
    expect(399 * 2 + 2 * 3 <= count + written <= 399 * 2 + 2 * 3 + 2, f"wanted each note written or counted, got {written} and {count}")


PAIR = re.compile(r' (\w+)=("(?:[^"\\]|\\.)*"|[^\s"=]+)')


def pairs_of(line):
    """The pairs of a line in logfmt, which is nothing else."""
    found = PAIR.findall(" " + line)
    expect_same(line, " ".join(f"{key}={value}" for key, value in found), "a line in logfmt")
    return {key: value.strip('"') for key, value in found}


@case
def notes_are_written_in_pairs(world):
    serving = Serving(world, "--verbose", "--notes", "logfmt", "--count", "2", "--to", f"127.0.0.1:{free_port()}")
    first = Peer(world, serving.port)
    first.read_until(b"the service cannot be reached")
    first.leave()
    serving.printed.wait_for(b" event=ended ")
    second = Peer(world, serving.port)
    second.read_until(b"the service cannot be reached")
    second.send(b"x" * 1_500)
    second.leave()
    lines = [pairs_of(line) for line in serving.end(None).decode().splitlines()]
    for line in lines:
        expect(re.fullmatch(r"\d{4}-\d\d-\d\dT\d\d:\d\d:\d\d\.\d{3}Z", line["time"]), f"a time: {line}")
    events = [line["event"] for line in lines]
    expect_same(["listening", "roster", "began", "ended", "roster", "began", "ended"], events, "the events")
    expect_same({"info": 5, "warn": 2}, {level: [line["level"] for line in lines].count(level) for level in ("info", "warn")}, "the levels")
    ended = lines[3]
    expect_same(("0", "1", first.address, "0"), tuple(ended[key] for key in ("session", "serial", "peer", "entries")), "whose end it is")
    expect(ended["cause"].startswith("service not reached: 127.0.0.1:"), f"a cause: {ended}")
    expect(re.fullmatch(r"\d+\.\d", ended["seconds"]) and ended["out"].isdigit() and lines[6]["in"].isdigit(), f"numbers without commas: {lines}")


@case
def notes_for_the_journal_begin_with_their_priority(world):
    serving = Serving(world, "--verbose", "--count", "2", env={**os.environ, "JOURNAL_STREAM": "8:12345"})
    Peer(world, serving.port).is_served().leave()
    failed = Peer(world, serving.port).is_served()
    failed.reset()
    lines = serving.end(None).decode().splitlines()
    expect_same(f"<6>listening on 127.0.0.1:{serving.port}", lines[0], "the first line")
    expect_same(["<6>accepted 0", "<3>tn: session"], [line for line in lines if line in ("<6>accepted 0", "<3>tn: session")][-2:], "plain lines")
    expect(any(re.fullmatch(r"<6>session \d+ \(serial 2\) from \S+ ended: reset by the client, .*", line) for line in lines), f"no warning: {lines}")
    expect(all(re.match(r"<[346]>\D", line) for line in lines), f"a priority and no time in each line: {lines}")


@case(wants=["strace"])
def a_connection_that_was_aborted_is_skipped(world):
    serving = Serving(world, "--verbose", under=("strace", "-f", "-qq", "-o", os.devnull, "-e", "trace=accept4", "-e",
                                                 "inject=accept4:error=ECONNABORTED:when=1"))
    peer = Peer(world, serving.port).is_served()
    peer.leave()
    lines = serving.notes()
    expect(not any(map(STARVED.fullmatch, lines)), f"it is noted: {lines}")
    expect_session(lines, 1, peer, "hang-up", 0)


@case
def a_listener_that_breaks_ends_a_server_after_its_sessions(world):
    serving = Serving(world, "--forever")
    peer = Peer(world, serving.port).is_served()
    listeners = [found for found in sockets_of(serving.process.pid) if found.getsockopt(socket.SOL_SOCKET, socket.SO_ACCEPTCONN)]
    listeners[0].shutdown(socket.SHUT_RDWR)
    wait_until(lambda: not basics.is_listened_to(serving.port), "the listener is shut down")
    answers(peer)
    time.sleep(0.5)  # Nothing is to happen while a session runs.
    expect(serving.runs(), "it ended while a session ran")
    peer.leave()
    serving.end(b"tn: network\n", 1)


@case
def only_a_session_that_failed_is_reported(world):
    serving = Serving(world, "--count", "2")
    Peer(world, serving.port).is_served().leave()
    bad = Peer(world, serving.port).is_served()
    bad.reset()
    serving.end(b"tn: session\n")


def expect_not_listening(world, port, host, cause, **settings):
    """It cannot listen there, and says why in a second line."""
    run = world.run("serve", "--port", port, "--host", host, **settings)
    shown = f"[{host}]" if ":" in host and not host.startswith("[") else host
    lines = run.stderr.decode().splitlines()
    expect_same((1, b"", 2, "tn: network"), (run.returncode, run.stdout, len(lines), lines[0]), "how it ends")
    expect(lines[1].startswith(f"tn: cannot listen on {shown}:{port}: ") and re.search(cause, lines[1], re.I),
           f"wanted the cause {cause}, got {lines[1]!r}")


@case
def a_port_in_use_is_reported(world):
    with socket.socket() as taken:
        taken.bind(("127.0.0.1", 0))
        taken.listen()
        expect_not_listening(world, taken.getsockname()[1], "127.0.0.1", "in use")


@case(each={
    "that nobody knows": ("nobody.invalid", "address information|name"), "in brackets": ("[::1]", "address information|name"),
    "that is another's": ("192.0.2.7", "assign requested address"),
    "that is another's of IPv6": ("2001:db8::7", "assign requested address|not supported")})
def a_host_that_is_not_ours_is_reported(world, host, cause):
    expect_not_listening(world, free_port(), host, cause)


@case
def a_port_of_the_systems_own_is_reported(world):
    with open("/proc/sys/net/ipv4/ip_unprivileged_port_start", encoding="ascii") as start:
        if int(start.read()) <= 80:
            raise NotTried("every port is free to all here")
    others = {"user": 65_534, "group": 65_534, "extra_groups": []} if os.geteuid() == 0 else {}
    if subprocess.run(["test", "-x", world.program], check=False, **others).returncode or world.run("--version", **others).returncode:
        raise NotTried("nobody else may run this program here")
    expect_not_listening(world, 80, "127.0.0.1", "permission denied", **others)
