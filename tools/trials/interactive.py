"""`tn connect` at a pseudoterminal, with servers that do as they like: what is sent, shown and printed, and how it ends."""
import fcntl
import os
import re
import signal
import socket
import struct
import tempfile
import termios
import threading
import time

from ends import AYT, BRK, DO, DONT, IAC, IP, LINEMODE, NAWS, WILL, WONT, Listener, Serving, filled, mode, size
from sockets import probed_in, sockets_of
from terminal import Terminal, at_terminal, is_there, state_of
from world import case, expect, expect_in_order, expect_same, wait_until

ASKS_SIZE = bytes([IAC, DO, NAWS])
ASKS_LINEMODE = bytes([IAC, DO, LINEMODE])


@case(each={"by ^C": (b"\x03", 130), "by ^backslash": (b"\x1c", 131), "by ^Z": (b"\x1a", None)})
def it_can_be_left_while_it_connects(world, key, status):
    listener, _waiting = filled(world)
    terminal = Terminal(world, "--port", listener.port, shell=status is None)
    terminal.see(f"Trying 127.0.0.1:{listener.port}..".encode())
    program = terminal.program()
    terminal.gets_raw()
    time.sleep(0.3)  # Nothing is to happen before it is connected.
    expect(termios.tcgetattr(terminal.slave)[3] & termios.ISIG, "the terminal takes no signals before it is connected")
    if status is None:
        terminal.type(key, b"stopped")
        expect(terminal.is_set_back(), "the terminal is not set back while it is stopped")
        terminal.type(b"\n")
        wait_until(lambda: state_of(program) not in "TZ", "the program goes on")
    else:
        terminal.type(key)
        terminal.end(status)
        expect(not is_there(program), "the program goes on")


@case
def the_connection_is_reported(world):
    listener, terminal = at_terminal(world)
    terminal.see(f"Trying 127.0.0.1:{listener.port}..\r\n".encode(), b"Connected to 127.0.0.1. Escape character is '^]'.\r\n")
    listener.send(b"a prompt")
    terminal.see(b"a prompt")
    listener.close()
    terminal.end()
    end = b"a prompt" + b" " * 100 + b"\rConnection closed by 127.0.0.1.\r\n"
    expect(terminal.shown.endswith(end), f"wanted {end!r} at the end")
    _, terminal = at_terminal(world, "--escape", "none")
    terminal.see(b"Connected to 127.0.0.1.\r\n")


@case(each={"by Telnet": (bytes([IAC, WILL, 1]), b"\r\n", 0), "by lines": (b"", b"\r\n", 1, "--plain")})
def a_greeting_that_is_answered_at_once_meets_a_terminal_that_is_set(world, opening, line_end, shown, *words):
    for _ in range(20):
        listener = Listener(world)
        terminal = Terminal(world, *words, f"127.0.0.1:{listener.port}")
        listener.accept()
        listener.send(opening + b"login: ")
        wait_until(lambda: b"login: " in terminal.shown, "the greeting is shown", pause=0.001)
        os.write(terminal.master, b"me\r")
        listener.read_until(b"me" + line_end)
        listener.close()
        terminal.end()
        expect_in_order(terminal.shown, b"Trying 127.0.0.1", b"Connected to 127.0.0.1.", b"\r\nlogin: ")
        expect_same(shown, bytes(terminal.shown).count(b"me"), "how often the answer is shown")


@case
def nothing_is_reported_if_it_is_not_wanted(world):
    listener, terminal = at_terminal(world, "--quiet")
    listener.send(b"a prompt")
    terminal.see(b"a prompt")
    terminal.leave()
    expect_same(b"a prompt\r\ntn> q\r\n" + b" " * 100 + b"\r", bytes(terminal.shown), "what is shown with --quiet")
    with tempfile.TemporaryFile() as errors:
        _, terminal = at_terminal(world, errors=errors)
        terminal.leave()
        errors.seek(0)
        expect_same(b"", errors.read(), "what is printed to a file")
        expect(b"Trying" not in terminal.shown, "the connection is reported at the terminal")


@case
def a_silent_server_can_be_left(world):
    listener, terminal = at_terminal(world)
    # Until all is acknowledged another timer runs.
    probed = wait_until(lambda: probed_in(listener.connection.getpeername()[1], listener.port), "a silent server is to be probed")
    expect(10 < probed <= 60, f"wanted a silent server to be probed within a minute, got {probed}")
    terminal.leave()


@case(each={"at once": (b"",), "after a command": (b"\x1db\ry",)})
def a_server_that_reads_nothing_can_be_left(world, before):
    listener = Listener(world, buffer=1024)
    terminal = Terminal(world, "--port", listener.port, "--mode", "char")
    listener.accept()
    terminal.gets_raw()
    for found in sockets_of(terminal.program()):
        found.setsockopt(socket.SOL_SOCKET, socket.SO_SNDBUF, 1024)
    typed = 100_000
    terminal.paste(b"x" * typed + before)
    terminal.leave()
    came = listener.read_rest().count(b"x")
    expect(came < typed, "all was sent")
    terminal.see(f"tn: {typed - came + len(before[3:])} bytes typed were not sent\r\n".encode())


@case
def a_paste_that_is_read_is_sent_whole(world):
    listener, terminal = at_terminal(world)
    typed = 60_000
    reading = threading.Thread(target=listener.read_rest)
    reading.start()
    terminal.paste(b"x" * typed + b"\x1dq\r")
    terminal.end()
    reading.join()
    expect_same(b"x" * typed, listener.got, "what the server got")
    expect(b"not sent" not in terminal.shown, "keys are reported as not sent")


@case
def it_is_asked_for_at_the_terminal(world):
    with tempfile.TemporaryFile() as log:
        listener, terminal = at_terminal(world, screen=log)
        terminal.type(b"\x1d", b"\r\ntn> ")
        terminal.type(b"?\r", b"?\r\nquit, close, q  close")
        terminal.type(b"\x1d\x1d")
        listener.read_until(b"\x1d")
        terminal.leave()
        log.seek(0)
        expect_same(b"\x1d", log.read(), "what the log has")


@case
def it_can_be_stopped_by_a_key(world):
    listener, terminal = at_terminal(world, shell=True)
    listener.send(ASKS_SIZE)
    listener.read_until(size(100, 40))
    terminal.type(b"\x1dz\r", b"stopped")
    expect(terminal.is_set_back(), "the terminal is not set back while it is stopped")
    terminal.resize(50, 132)
    terminal.type(b"\n")
    terminal.gets_raw()
    listener.read_until(size(132, 50))
    terminal.type(b"k\x1dq\r")
    listener.read_until(b"k")
    terminal.see(b"ended with 0")
    expect(terminal.is_set_back(), "the terminal is not set back")


@case
def a_monitor_that_waits_for_brk_is_reached(world):
    listener, terminal = at_terminal(world)
    listener.send(bytes([IAC, WILL, 1, IAC, WILL, 3]) + ASKS_SIZE)
    listener.read_until(size(100, 40))
    terminal.type(b"\x1dsend brk\r")
    listener.read_until(bytes([IAC, BRK]))
    listener.send(b"monitor> ")
    terminal.see(b"\r\nmonitor> ")
    terminal.leave()


def typed_to_ours(world, is_local, *steps, client=(), **settings):
    """What the terminal shows of these steps at `tn serve`: of each its keys are typed, and then its texts are waited for."""
    serving = Serving(world, *["--local"] * is_local)
    terminal = Terminal(world, "--port", serving.port, *client, **settings)
    terminal.gets_raw()
    terminal.see_state(b"lines are edited here, " if is_local else b"echo is made at the other end")
    begun = len(terminal.shown)
    for keys, *texts in steps:
        terminal.type(keys, *texts)
    terminal.leave()
    serving.end()
    return bytes(terminal.shown[begun:])


EDITED_AT = {"the server": (False,), "the client": (True,)}


@case(each=EDITED_AT)
def at_a_served_terminal_brk_and_ip_do_what_the_key_does(world, is_local):
    def lines_by(key):
        shown = typed_to_ours(world, is_local, (b"abc", b"abc"), (key, b"int"), (b"def\r", b"def\r\n", b"abcdef\r\n"))
        prompts = re.compile(rb"\r\ntn> [^\r]*\r\n")
        return [line for line in prompts.sub(b"", shown).replace(b"^C", b"").split(b"\r\n") if line.strip()]
    by_key = lines_by(b"\x03")
    for command in (b"\x1di\r", b"\x1db\r"):
        by_command = lines_by(command)
        expect_same((by_key[-1], 1), (by_command[-1], b"".join(by_command).count(b"int")), f"the last line by {command!r}, and its signals")


@case(each={f"{name}, edited at {end}": (words, *is_local) for end, is_local in EDITED_AT.items()
            for name, words in {"CR LF": ("--return", "crlf"), "LF": ("--return", "lf"), "CR NUL": ()}.items()})
def a_line_ends_by_whatever_return_sends(world, words, is_local):
    shown = typed_to_ours(world, is_local, (b"abc\rd", b"abc\r\n", b"abc\r\n", b"d"), (b"\x7fe\r", b"e\r\n", b"e\r\n"), client=words)
    expect_same(2, shown.count(b"abc\r\n"), "how often the line is shown")


@case
def what_return_sends_is_changed_at_the_terminal(world):
    listener, terminal = at_terminal(world, "--return", "lf")
    terminal.type(b"a\r\x1dreturn crlf\rb\r", b"return crlf\r\nRETURN sends CR LF\r\n")
    terminal.type(b"\x1dreturn crnul\rc\r", b"RETURN sends CR NUL\r\n")
    terminal.type(b"\x1dreturn lf\rd\r\x1dreturn\r\x1dreturn cr\re\r.", b"RETURN sends LF\r\n")
    listener.read_until(b".")
    expect_same(b"a\nb\r\nc\r\0d\ne\n.", listener.got, "what the server got")
    wait_until(lambda: bytes(terminal.shown).count(b"\r\nunknown command") == 2, "each unknown command is reported")
    terminal.leave()


@case(each={"another word": ("--return", "cr"), "no word": ("--return=",)})
def what_return_may_send_is_reported(world, *words):
    run = world.run("connect", *words, "127.0.0.1:1")
    expect_same((2, True), (run.returncode, b"it is none of `crnul`, `crlf` and `lf`" in run.stderr), "the status, and that it is reported")


@case(each=EDITED_AT)
def the_terminals_own_characters_are_taken(world, is_local):
    own = {termios.VERASE: b"\x08", termios.VINTR: b"\x18", termios.VKILL: b"\x03", termios.VEOF: b"\x05"}
    for keys, wanted in ((b"ab\x08c\r", b"\r\nac\r\n"), (b"ab\x18", b"int\r\n"), (b"ab\x03cd\r", b"\r\ncd\r\n"),
                         (b"ab\x7fc\r", b"\r\nac\r\n")):
        shown = typed_to_ours(world, is_local, (keys, wanted), characters=own)
        expect(keys == b"ab\x18" or b"int" not in shown, f"{keys!r} interrupts")
    shown = typed_to_ours(world, is_local, (b"ab\x08c\r", b"\r\nab\x08c\r\n"), client=["--keys", "standard"], characters=own)
    expect(b"\r\nac\r\n" not in shown, "with standard keys the terminal's ERASE erases")


ESCAPED = bytes([IAC, BRK])


@case(each={
    "the escape character twice": (b"a\x1d\x1db.", b"a\x1db."),
    "commands among keys": (b"abc\x1db\rdef\x1di\r\x1da\r\x1d\x1d\x1db\r\x1db\rg.",
                            b"abc" + ESCAPED + b"def" + bytes([IAC, IP, IAC, AYT]) + b"\x1d" + 2 * ESCAPED + b"g."),
    "words": (b"a\x1dsend brk\rb\x1dsend ip\rc\x1dsend ayt\rd\x1dstatus\re\x1dhelp\r.",
              b"a" + ESCAPED + b"b" + bytes([IAC, IP]) + b"c" + bytes([IAC, AYT]) + b"de."),
    "unknown words": (b"a\x1dend brk\rb\x1dlose it\rc\x1dqu\rd.", b"abcd."),
    "no word": (b"a\x1d\rb\x1d\nc\x1dx\x7f\rd\x1dxyz\x15\re\x1dquit\x03f.", b"abcdef."),
    "an edited word": (b"a\x1dsemd\x7f\x7fnd brl\x7fk\rb\x1dnonsense\x15send ip\rc.", b"a" + ESCAPED + b"b" + bytes([IAC, IP]) + b"c."),
    "keys that send more than a byte": (b"a\x1d\x1b[A\x1bOB\x1b[15~\x1b[1;5Cb\x1b[D\rc\x1d\x1b[A\rd.", b"a" + ESCAPED + b"cd."),
    "the escape character behind a word": (b"a\x1db\x1d\rc.", b"a" + ESCAPED + b"c."),
    "a long line": (b"a\x1d" + b"b" * 300 + b"\rc\x1d" + b"b" * 300 + b"\x7f" * 254 + b"\rd.", b"ac" + ESCAPED + b"d."),
    "another escape character": (b"\x1dq\x01b\r.", b"\x1dq" + ESCAPED + b".", {}, "--escape", "^A"),
    "no escape character": (b"\x1dq.", b"\x1dq.", {}, "--escape", "none"),
    "RETURN as CR NUL": (b"a\r\r\n.", b"a\r\0\r\0\n.", {}, "--return", "crnul"),
    "RETURN as CR LF": (b"a\r\r\n\x1d\r.", b"a\r\n\r\n\n.", {}, "--return", "crlf"),
    "RETURN as LF": (b"a\r\r\n.", b"a\n\n\n.", {}, "--return=lf"),
    "own characters": (b"123456\x1d\x1d.", b"\x03\x1c\x1a\x7f\x15\x04\x1d.", {
        termios.VINTR: b"1", termios.VQUIT: b"2", termios.VSUSP: b"3", termios.VERASE: b"4", termios.VKILL: b"5", termios.VEOF: b"6"}),
    "own characters that are taken otherwise": (b"\x1d\x1d#\x1db\r.", b"\x1d\x7f" + ESCAPED + b".", {
        termios.VQUIT: b"\x1d", termios.VERASE: b"#", termios.VKILL: b"\x00", termios.VINTR: b"q"}),
    "own characters that edit a word": (b"a\x1dx#b\rb\x1dxyz@b\rc\x1dxq.", b"a" + ESCAPED + b"b" + ESCAPED + b"c.", {
        termios.VERASE: b"#", termios.VKILL: b"@", termios.VINTR: b"q"}),
    "characters that are never taken": (b"a\r\n\xffx\x00.", b"a\r\0\n\xff\xff\x1c\x00.", {
        termios.VERASE: b"\r", termios.VKILL: b"\n", termios.VINTR: b"\xff", termios.VEOF: b"\x00", termios.VQUIT: b"x", termios.VSUSP: b"x"})})
def what_is_typed_is_sent_of(world, keys, wanted, characters=None, *words):
    listener, terminal = at_terminal(world, *words, characters=characters)
    terminal.type(keys)
    listener.read_until(b".")
    expect_same(wanted, listener.got, "what the server got")
    if b"lose" in keys:
        wait_until(lambda: bytes(terminal.shown).count(b"\r\nunknown command") == 3, "each unknown command is reported")


@case(each={"keys": (b"exit\r\x1dq\rgone", b"exit\r\0"), "a command": (b"ab\x1di\r\x1dclose\r", b"ab" + bytes([IAC, IP])),
            "a word": (b"ab\x1dquit\r", b"ab")})
def what_is_typed_before_it_leaves_is_sent(world, keys, wanted):
    listener, terminal = at_terminal(world)
    terminal.type(keys)
    terminal.end()
    expect(b"not sent" not in terminal.shown, "keys are reported as not sent")
    expect_same(wanted, listener.read_rest(), "what the server got")


@case
def a_line_to_the_client_is_shown_as_it_is_edited(world):
    _, terminal = at_terminal(world)
    terminal.type(b"\x1dstap\x7ftus", b"\r\ntn> stap\x08 \x08tus")
    terminal.type(b"\x15", 6 * b"\x08 \x08")
    terminal.type(b"\x7f\x1b[A?", b"\x07?")
    terminal.type(b"\x1d\r", b"\x07\r\nquit, close, q ")
    terminal.leave()


@case
def the_state_has_the_terminals_own_characters(world):
    _, terminal = at_terminal(world, characters={termios.VINTR: b"1", termios.VERASE: b"4"})
    terminal.see_state(b"your own keys: intr 1, erase 4\r\n")


@case
def help_is_shown_and_not_sent(world):
    listener, terminal = at_terminal(world)
    listener.send(b"login: ")
    terminal.see(b"login: ")
    terminal.type(b"\x1d?\r")
    terminal.see(b"login: \r\ntn> ?\r\nquit, close, q  close")
    for word in (b"again", b"status", b"suspend", b"log FILE", b"log off", b"send brk", b"send ip", b"send ayt", b"return crlf", b"help"):
        terminal.see(b"\r\n" + word)
    terminal.type(b"k\r")
    listener.read_until(b"k\r")
    expect(b"?" not in listener.got and b"\x1d" not in listener.got, "what is for the client is sent")
    terminal.leave()


@case
def one_byte_is_no_bytes(world):
    listener, terminal = at_terminal(world)
    listener.send(b"x")
    terminal.see_state(b"\r\n1 byte came, 0 went\r\n")
    listener.send(b"x")
    terminal.see_state(b"\r\n2 bytes came, 0 went\r\n")
    terminal.leave()


@case(each={
    "without LINEMODE": (b"", b"nobody edits lines", b"echo is made here"),
    "a MODE with EDIT": (ASKS_LINEMODE + mode(3), b"lines are edited here", b"echo is made here"),
    "a MODE without EDIT": (ASKS_LINEMODE + mode(3) + mode(2), b"lines are edited at the other end", b"echo is made here"),
    "a MODE without LINEMODE": (mode(1), b"nobody edits lines", b"echo is made here"),
    "LINEMODE that ended": (ASKS_LINEMODE + mode(1) + bytes([IAC, DONT, LINEMODE]), b"nobody edits lines"),
    "a MODE that acknowledges": (ASKS_LINEMODE + mode(5), b"lines are edited at the other end"),
    "ECHO": (bytes([IAC, WILL, 1]), b"connected to 127.0.0.1 port ", b"edited at the other end", b"echo is made at the other end",
             b"100 by 40", b"14 bytes came"),
    "ECHO that ended": (bytes([IAC, WILL, 1, IAC, WONT, 1]), b"nobody edits lines", b"echo is made here")})
def the_state_says_what_is_agreed_on_by(world, words, *texts):
    listener, terminal = at_terminal(world)
    listener.send(words + b"hello")
    terminal.see(b"hello")
    listener.settle()
    terminal.type(b"\x1ds\r", *texts)
    terminal.leave()


def waiting_sizes(terminal):
    """How many sizes wait in the pipe of the launcher, each a line of 12 bytes."""
    pipe = os.open(f"/proc/{terminal.launcher()}/fd/3", os.O_RDONLY | os.O_NONBLOCK)
    waiting = struct.unpack("i", fcntl.ioctl(pipe, termios.FIONREAD, bytes(4)))[0]
    os.close(pipe)
    return waiting // 12


@case
def another_size_is_sent(world):
    listener, terminal = at_terminal(world)
    listener.send(ASKS_SIZE)
    listener.read_until(size(100, 40))
    for rows, columns in ((50, 132), (24, 80)):
        terminal.resize(rows, columns)
        listener.read_until(size(columns, rows))
    program = terminal.program()
    os.kill(program, signal.SIGSTOP)
    for count, rows in enumerate((30, 31, 32)):
        terminal.resize(rows, 90)
        wait_until(lambda: waiting_sizes(terminal) > count, "the launcher sends each size to a stopped program")
    os.kill(program, signal.SIGCONT)
    listener.read_until(size(90, 32))
    terminal.see_state(b"window 90 by 32")
    terminal.leave()


@case(each={"--width": (("--width", "77"), (77, 40), (77, 50)), "--height": (("--height", "33"), (100, 33), (132, 33))})
def a_size_by_hand_wins(world, words, before, after):
    listener, terminal = at_terminal(world, *words)
    listener.send(ASKS_SIZE)
    listener.read_until(size(*before))
    terminal.resize(50, 132)
    listener.read_until(size(*after))
    terminal.leave()


@case
def a_dead_screen_ends_it(world):
    reading, writing = os.pipe()
    listener, terminal = at_terminal(world, screen=writing)
    os.close(writing)
    os.close(reading)
    listener.send(b"text for a screen that is gone\r\n")
    terminal.end()
    expect(b"tn: " not in terminal.shown, "a screen that is gone is reported")
    with open("/dev/full", "wb") as full:
        listener, terminal = at_terminal(world, screen=full)
        listener.send(b"text for a screen that is full\r\n")
        terminal.end(3)
        terminal.see(b"\rtn: session\r\ntn: the screen takes no more\r\n")


@case
def a_broken_connection_ends_it(world):
    for keys in (b"", b"abc"):
        listener, terminal = at_terminal(world)
        terminal.type(keys)
        listener.read_until(keys)
        listener.reset()
        terminal.end(3)
        terminal.see(b"\rtn: session\r\ntn: the connection broke\r\n")
        expect(b"sending failed" not in terminal.shown, "a connection that broke is reported twice")


@case
def a_write_that_fails_ends_it(world):
    _listener, terminal = at_terminal(world)
    for found in sockets_of(terminal.program()):
        if found.family == socket.AF_INET:
            found.shutdown(socket.SHUT_WR)
    time.sleep(0.5)  # Nothing is to happen before a key is typed, since the server has not closed.
    expect(terminal.process.poll() is None, "it ends before a key is typed, though the server has not closed")
    terminal.type(b"x")
    terminal.end(3)
    terminal.see(b"tn: session\r\ntn: sending failed: Broken pipe")


def by_server(listener, _):
    listener.close()


def by_hang_up(_, terminal):
    terminal.hang_up()


def by_keys(_, terminal):
    terminal.type(b"\x1dq\r")


def by_kill(_, terminal):
    os.kill(terminal.launcher(), signal.SIGKILL)


@case(each={"by keys": (by_keys, False), "by the server": (by_server, False), "by a hang-up": (by_hang_up, False),
            "by a kill": (by_kill, True)})
def nothing_is_left_at_any_end(world, end, shell):
    folder = world.path("temporary")
    os.mkdir(folder)
    listener, terminal = at_terminal(world, folder=folder, shell=shell)
    program = terminal.program()
    end(listener, terminal)
    wait_until(lambda: not is_there(program) and not os.listdir(folder), "no process and no file is left")


@case(each={"with a quote": ("it's", True), "that is not there": ("none", False)})
def any_folder_for_temporary_files_will_do(world, name, is_made):
    if is_made:
        os.mkdir(world.path(name))
    listener, terminal = at_terminal(world, folder=world.path(name))
    listener.send(ASKS_SIZE)
    listener.read_until(size(100, 40))
    terminal.leave()


@case(each={f"{number.name} of {send.__name__}": (number, send)
            for number in (signal.SIGTSTP, signal.SIGSTOP) for send in (os.kill, os.killpg)})
def after_a_stop_it_goes_on(world, number, send):
    listener, terminal = at_terminal(world, shell=True)
    listener.send(ASKS_SIZE)
    listener.read_until(size(100, 40))
    send(terminal.launcher(), number)
    terminal.see(b"stopped")
    if number == signal.SIGTSTP:
        expect(terminal.is_set_back(), "the terminal is not set back while it is stopped")
    termios.tcsetattr(terminal.slave, termios.TCSANOW, terminal.before)
    terminal.resize(50, 132)
    terminal.type(b"\n")
    terminal.gets_raw()
    # A program that was not stopped itself may wait for the key that the shell took, and sends no size before the next.
    terminal.type(b"\x03k")
    listener.read_until(b"\x03k", size(132, 50))
    terminal.type(b"\x1dq\r", b"ended with 0")
    expect(terminal.is_set_back(), "the terminal is not set back after a stop")


@case(each={number.name: (number,) for number in (signal.SIGHUP, signal.SIGINT, signal.SIGQUIT, signal.SIGTERM)})
def the_status_of_a_signal_is_128_and_its_number(world, number):
    _, terminal = at_terminal(world)
    program = terminal.program()
    os.kill(terminal.launcher(), number)
    terminal.end(128 + number)
    expect(not is_there(program), "the program goes on")


@case
def the_status_of_a_killed_program_is_137(world):
    _, terminal = at_terminal(world)
    os.kill(terminal.program(), signal.SIGKILL)
    terminal.end(128 + signal.SIGKILL)


@case(each={"by itself": (os.kill,), "with its group": (os.killpg,)})
def a_killed_launcher_ends_the_program(world, send):
    _, terminal = at_terminal(world, shell=True)
    program = terminal.program()
    send(terminal.launcher(), signal.SIGKILL)
    terminal.see(b"ended with 137")
    wait_until(lambda: not is_there(program), "the program ends")
    wait_until(terminal.is_set_back, "the terminal is set back")


@case
def what_was_not_sent_of_a_line_that_the_client_edits_is_reported(world):
    listener, terminal = at_terminal(world)
    listener.send(ASKS_LINEMODE + mode(1) + b"hello")
    terminal.see(b"hello")
    terminal.type(b"abc", b"abc")
    listener.connection.shutdown(socket.SHUT_WR)
    terminal.end()
    terminal.see(b"tn: closed by the other end; 3 bytes typed were not sent\r\n")
