"""Each option of `tn serve` and `tn connect` has its effect at the program. Those that are not tried here:

    tn serve     --host                             piped.the_host_that_was_asked_for_is_the_one, the module paths
                 --until, --verbose                 notes
                 --idle, --longest                  notes.a_peer_gets_the_cause_of_its_end and others
                 --to, --crlf, --cr, --line-cut     gateway
    tn connect   --escape, --width, --height        interactive.another_escape_character_is_taken, a_size_by_hand_wins
                 --keys                             interactive.the_terminals_own_characters_are_taken
                 --trace, --log, --log-times        piped.a_trace_is_written, the module files
                 --text                             piped.a_text_from_a_pipe_has_one_return_for_a_line
                 -q, -w                             piped.the_end_of_a_pipe_is_sent_late, a_silent_server_is_left_after_the_input
                 --timeout                          piped.an_address_that_takes_no_connection_is_given_up
                 --again                            again
                 -4, -6, --bind                     hosts
                 --quiet                            interactive.nothing_is_reported_if_it_is_not_wanted
                 --plain, --lf, --cr                plain
                 --line                             a_line_has_as_many_bytes_as_it_may, plain.a_full_line_refuses_keys_and_is_sent_as_it_is_shown
"""
import os
import re
import signal
import socket
import subprocess
import time

from ends import IAC, LINEMODE, NO_GO_AHEAD, WILL, Peer, Serving, User, mode
from services import Service, answering
from world import NotTried, case, expect, expect_in_order, expect_same, free_port

EDITS = mode(1)[:4]

# The first words of a server.
OPENING = bytes.fromhex("fffd22 fffd1f fffb03 fffd03 fffb01")

# The first words of a server for clients that edit lines themselves, and an option message.
FOR_LINES = bytes.fromhex("fffd22 fffd1f")
WORDS = re.compile(rb"\xff[\xfb-\xfe].", re.DOTALL)

# A clock that runs a thousand times as fast, for a program that is loaded with it.
FAST_CLOCK = """
#include <sys/syscall.h>
#include <time.h>
#include <unistd.h>

int clock_gettime(clockid_t clock, struct timespec *now) {
    int status = syscall(SYS_clock_gettime, clock, now);
    if (status == 0 && clock == CLOCK_MONOTONIC) {
        now->tv_sec = now->tv_sec * 1000 + now->tv_nsec / 1000000;
        now->tv_nsec = now->tv_nsec % 1000000 * 1000;
    }
    return status;
}
"""


@case(each={"by default": (1,), "--count 3": (3, "--count", "3")})
def a_server_ends_after_as_many_connections_as_asked(world, count, *words):
    serving = Serving(world, *words)
    first, *others = [Peer(world, serving.port).is_served() for _ in range(count)]
    for peer in others:
        peer.leave()
    expect(serving.runs(), "it ends before its last session does")
    first.leave()
    serving.end()


@case
def a_server_without_end_goes_on(world):
    serving = Serving(world, "--forever")
    for _ in range(3):
        Peer(world, serving.port).is_served().leave()
    time.sleep(0.5)  # Nothing is to happen once a session has ended.
    expect(serving.runs(), "it ended")
    Peer(world, serving.port).is_served().leave()
    serving.process.send_signal(signal.SIGTERM)
    serving.end(status=-signal.SIGTERM)


@case(each={"8 by default": (8,), "--limit 12": (12, "--limit", "12")})
def a_server_has_as_many_sessions_as_its_limit(world, limit, *words):
    serving = Serving(world, "--count", limit + 1, *words)
    peers = [Peer(world, serving.port).is_served() for _ in range(limit)]
    expect_same(b"full\r\n", Peer(world, serving.port).leave(), "what one more peer gets")
    for peer in peers:
        peer.send(b"hello\r\n")
        expect_in_order(peer.leave(), b"hello\r\n")
    serving.end()


@case(each={
    "half the limit off loopback": (2, "--host", "0.0.0.0", "--limit", "4"), "one of three off loopback": (1, "--host", "0.0.0.0", "--limit", "3"),
    "the limit on loopback": (4, "--host", "127.0.0.1", "--limit", "4"), "the limit of localhost": (4, "--host", "localhost", "--limit", "4"),
    "a given number": (3, "--host", "0.0.0.0", "--limit", "4", "--per-host", "3"),
    "any number for 0": (4, "--host", "0.0.0.0", "--limit", "4", "--per-host", "0")})
def an_address_has_as_many_sessions_as_its_share(world, share, *words):
    serving = Serving(world, "--count", share + 1, *words)
    peers = [Peer(world, serving.port).is_served() for _ in range(share)]
    expect_same(b"full\r\n", Peer(world, serving.port).leave(), "what one more peer of the address gets")
    for peer in peers:
        peer.leave()
    serving.end()


@case(wants=["cc"], each={"an hour off loopback": (True, "--host", "0.0.0.0"), "never on loopback": (False,),
                          "never for 0": (False, "--host", "0.0.0.0", "--idle", "0")})
def a_silent_client_is_let_go_after(world, is_let_go, *words):
    source, clock = world.path("clock.c"), world.path("clock.so")
    with open(source, "w", encoding="utf-8") as file:
        file.write(FAST_CLOCK)
    subprocess.run(["cc", "-shared", "-fPIC", "-o", clock, source], check=True)
    serving = Serving(world, *words, under=("env", f"LD_PRELOAD={clock}"))
    peer = Peer(world, serving.port).is_served()
    if is_let_go:
        peer.read_until(b"idle\r\n")
        lasted = time.monotonic() - peer.began
        expect(3.5 <= lasted, f"wanted an end after an hour of the clock, 3.6 s, got one after {lasted:.1f} s")
        peer.read_to_end()
    else:
        time.sleep(6)
        peer.send(b"hello\r\n")
        peer.read_until(b"hello\r\n")
        peer.leave()
    serving.end()


@case
def a_banner_is_shown_before_what_a_service_says(world):
    path = world.path("issue.net")
    with open(path, "wb") as file:
        file.write(b"Welcome\nto \xff tn\r\nalone\rend\n")
    service = Service(world, answering)
    serving = Serving(world, "--banner", path, "--to", f"127.0.0.1:{service.port}")
    os.remove(path)
    peer = Peer(world, serving.port)
    peer.send(b"hello\r\n")
    peer.read_until(b"got hello\r\n")
    expect_in_order(peer.got, OPENING, b"Welcome\r\nto \xff\xff tn\r\nalone\r\0end\r\n", b"got hello\r\n")
    peer.leave()
    serving.end()


@case(each={"is not there": (1, b"tn: read\ntn: PATH: No such file or directory"), "is a folder": (1, b"tn: read\ntn: PATH: Is a directory"),
            "is too long": (1, b"tn: read\ntn: PATH: it has more than 65536 bytes\n"),
            "has no name": (2, b"tn: usage\nerror: '--banner <FILE>' needs a path of 1 to 4095 bytes\n")})
def a_banner_is_an_error_that(world, status, printed):
    path = world.path("issue.net") if status == 1 else ""
    if b"folder" in printed or b"Is a" in printed:
        os.mkdir(path)
    elif b"65536" in printed:
        with open(path, "wb") as file:
            file.write(bytes(65_537))
    run = world.run("serve", "--port", free_port(), "--banner", path)
    expect_same((status, True), (run.returncode, run.stderr.startswith(printed.replace(b"PATH", path.encode()))), f"what is printed: {run.stderr}")


@case(each={"none by default": (0,), "--ticks 1": (1, "--ticks", "1"), "--ticks 5": (5, "--ticks", "5")})
def a_job_in_the_background_ticks_as_often_as_asked(world, count, *words):
    serving = Serving(world, *words)
    peer = Peer(world, serving.port, opening=NO_GO_AHEAD).is_served()
    expect(peer.read_while(lambda: peer.got.count(b"tick\r\n") < count), "wanted more ticks to come")
    peer.read_more(0.5)  # GA may come after the last tick.
    peer.send(b"one\r\0")
    peer.read_until(b"one\r\n")
    peer.send(b"exit\r\0")
    screen = peer.read_to_end()
    expect_same((count, 1, 1), tuple(screen.count(word) for word in (b"tick\r\n", b"one\r\n", b"bye\r\n")), "ticks, answers and farewells")
    serving.end()


@case(each={"255 by default": (254, [], []), "of a server that edits": (299, ["--line", "300"], []),
            "of a client that edits": (299, ["--local", "--line", "400"], ["--line", "300"])})
def a_line_has_as_many_bytes_as_it_may(world, most, at_server, at_client):
    serving = Serving(world, *at_server)
    user = User(world, serving.port, *at_client, edits="client" if "--local" in at_server else "server")
    user.type(b"x" * 350 + b"\r", b"\r\n" + b"x" * most + b"\r\n")
    user.type(b"exit\r", b"bye\r\n")
    user.end()
    serving.end()


@case(each={"with --local": (True, "--local"), "without": (False,)})
def a_client_is_asked_to_edit(world, is_asked, *words):
    serving = Serving(world, *words)
    peer = Peer(world, serving.port, opening=bytes([IAC, WILL, LINEMODE]))
    peer.read_until(bytes([IAC, 250, LINEMODE, 3]))  # The special characters come first.
    peer.send(b"hello\r\n")
    peer.read_until(b"hello\r\n")
    modes = [peer.got[at + 4] for at in range(len(peer.got)) if peer.got.startswith(EDITS, at)]
    expect_same(is_asked, any(mask & 1 for mask in modes), f"whether EDIT is asked for, by {modes}")
    peer.leave()
    serving.end()


@case
def a_client_that_negotiates_nothing_edits_its_lines(world):
    """It is asked for LINEMODE and its window's size only, and its lines reach the job without an echo."""
    serving = Serving(world, "--line-clients")
    peer = Peer(world, serving.port)
    peer.read_until(FOR_LINES)
    peer.send(b"one\r\ntwo\r\n")
    peer.read_until(b"two\r\n")
    peer.send(b"exit\r\n")
    expect_same(b"one\r\ntwo\r\nbye\r\n", peer.read_to_end(), "the answers")
    expect_same((True, 2), (peer.got.startswith(FOR_LINES), len(WORDS.findall(peer.got))), f"the option messages of {peer.got}")
    serving.end()


@case(each={"edited at the server": (), "edited at the client": ("--local",)})
def a_server_for_line_clients_agrees_to_linemode(world, *words):
    serving = Serving(world, "--line-clients", *words)
    user = User(world, serving.port, edits="server")  # The special characters have come, which is so of either side.
    user.type(b"onx\x7fe\r", b"\r\none\r\n")
    user.type(b"exit\r", b"bye\r\n")
    user.end()
    serving.end()


@case(each={key: (key,) for key in ("^M", "^J", "^m", "^j")})
def an_escape_key_ends_no_line(world, key):
    run = world.run("connect", f"--escape={key}", "127.0.0.1:1")
    expect_same((2, True), (run.returncode, f"invalid value '{key}'".encode() in run.stderr), f"the status, and what is printed: {run.stderr}")


@case(each={
    "HOST PORT": ("127.0.0.1", lambda port: ["127.0.0.1", port]), "HOST:PORT": ("127.0.0.1", lambda port: [f"127.0.0.1:{port}"]),
    "a name": ("127.0.0.1", lambda port: [f"localhost:{port}"]), "--port": ("127.0.0.1", lambda port: ["--port", port]),
    "HOST --port": ("127.0.0.1", lambda port: ["127.0.0.1", "-p", port]),
    "[ADDRESS]:PORT": ("::1", lambda port: [f"[::1]:{port}"]), "an address of IPv6": ("::1", lambda port: ["::1", port])})
def a_host_and_a_port_may_be_given_as(world, host, words):
    with socket.socket(socket.AF_INET6 if ":" in host else socket.AF_INET) as probe:
        try:
            probe.bind((host, 0))
        except OSError:
            raise NotTried(f"this machine has no {host}") from None
    serving = Serving(world, "--host", host)
    run = world.run("connect", *words(serving.port), data=b"exit\r")
    expect_same((0, b"", True), (run.returncode, run.stderr, run.stdout.endswith(b"bye\r\n")), "the status, what is printed, and the farewell")
    serving.end()
