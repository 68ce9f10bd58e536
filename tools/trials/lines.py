"""Line mode of `tn connect` at a terminal: lines are edited there while the server takes whole lines (RFC 854)."""
import os
import re
import socket
import time

from screens import Screen
from services import Service, answering, start_redis, strict_mail
from terminal import Terminal
from world import case, expect, expect_same, wait_until

IAC, DONT, DO, WONT, WILL, IP, BRK = 255, 254, 253, 252, 251, 244, 243
ECHO, NO_GO_AHEAD, LINEMODE = 1, 3, 34


def at_service(world, talk, *words, flags=(), **settings):
    """A service, and a client at a terminal with UTF-8 that has connected to it."""
    service = Service(world, talk)
    terminal = Terminal(world, *words, f"127.0.0.1:{service.port}", flags=["iutf8", *flags], **settings)
    terminal.see(b"Connected to")
    return service, terminal


def reading(service, connection):
    """Reads all, and says nothing until it is to go on."""
    connection.setsockopt(socket.IPPROTO_TCP, socket.TCP_NODELAY, 1)
    service.connection = connection
    service.read_all(connection)


def say(service, data):
    wait_until(lambda: hasattr(service, "connection"), "the service has its connection")
    service.connection.sendall(data)


@case
def a_line_is_edited_and_goes_with_cr_lf(world):
    service, terminal = at_service(world, answering)
    terminal.type(b"abX\x7fc", b"abX\b \bc")
    expect_same(b"", bytes(service.got), "what the service got before RETURN")
    terminal.type(b"\r", b"\r\ngot abc\r\n")
    expect_same(b"abc\r\n", bytes(service.got), "what the service got")
    terminal.type(b"wrong\x15right\r", b"got right\r\n")
    expect_same(1, bytes(terminal.shown).count(b"abX\b \bc\r\ngot abc\r\n"), "how often the line was shown")
    terminal.leave()


@case
def characters_and_words_are_erased_whole(world):
    service, terminal = at_service(world, reading)
    for keys, line, shown in ((b"h\xc3\xa9\x7fi\r", b"hi", "hé\b \bi\r\n".encode()), (b"one two\x17three\r", b"one three", b"one two\b \b\b \b\b \bthree\r\n"),
                              (b"a\x12b\r", b"ab", b"a^R\r\nab\r\n"), (b"a\x01\x7fb\r", b"ab", b"a^A\b \b\b \bb\r\n"),
                              ("世界\x7f人\r".encode(), "世人".encode(), "世界\b \b\b \b人\r\n".encode())):
        terminal.type(keys, shown)
        service.wait_for(line + b"\r\n")
    terminal.leave()


@case(each={"WERASE and REPRINT": (["werase", "^X", "rprnt", "^Y"], b"a b\x18c\x19d\x17\r", b"a cd\x17", b"a b\b \bc^Y\r\na cd^W\r\n"),
            "no IUTF8": (["-iutf8"], b"\xc3\xa9\x7f\r", b"\xc3", b"\xc3\xa9\b \b\r\n"),
            "no ECHOCTL": (["-echoctl"], b"a\x01\x7fb\r", b"ab", b"a\x01\b \bab\r\n"),
            "no IXON": (["-ixon"], b"a\x13b\x11\r", b"a\x13b\x11", b"a^Sb^Q\r\n"),
            "no WERASE": (["werase", "undef"], b"a\x17\r", b"a\x17", b"a^W\r\n"),
            "--keys standard": ([], b"a b\x17\x13\xc3\xa9\x7f\r", b"a b\x17\x13\xc3", b"a b^W^S\xc3\xa9\b \b\r\n", "--keys", "standard"),
            "--no-history": ([], b"a\r\x1b[Ab\r", b"b", b"a\r\n\ab\r\n", "--no-history")})
def lines_are_edited_as_the_terminal_is_set(world, flags, keys, line, shown, *words):
    service, terminal = at_service(world, reading, *words, flags=flags)
    terminal.type(keys, shown)
    service.wait_for(line + b"\r\n")
    expect(bytes(service.got).split(b"\r\n")[-2] == line, f"the service got {bytes(service.got)!r}")
    terminal.leave()


@case(each={"^S and ^Q": (b"\x13", b"\x11"), "other characters": (b"\x01", b"\x02", "stop", "^A", "start", "^B"),
            "a signal after ^S": (b"\x13", b"\x03")})
def the_screen_stops_and_goes_on(world, stop, start, *flags):
    service, terminal = at_service(world, reading, flags=flags)
    terminal.type(b"a", b"a")
    os.write(terminal.master, stop + b"b\rc")
    service.wait_for(b"ab\r\n")
    say(service, b"news\r\n")
    time.sleep(0.3)  # Nothing is to be shown.
    expect(terminal.shown.endswith(b"a"), "something is shown at a screen that is stopped")
    terminal.type(start, b"ab\r\n", b"news\r\n")
    terminal.leave()


@case
def lines_that_were_typed_come_back(world):
    service, terminal = at_service(world, reading)
    for line in (b"first", b"second"):
        terminal.type(line + b"\r", line + b"\r\n")
    terminal.type(b"hal\x1b[A", b"hal\b \b\b \b\b \bsecond")
    terminal.type(b"\x1bOA", b"\b \b" * 6 + b"first")
    terminal.type(b"\x1b[A", b"\a")
    terminal.type(b"\x1b[B\x1b[B", b"\b \b" * 6 + b"hal")
    terminal.type(b"f\r", b"f\r\n")
    terminal.type(b"\x1b[A\x1b[A!\r", b"second!\r\n")
    service.wait_for(b"first\r\nsecond\r\nhalf\r\nsecond!\r\n")
    terminal.leave()


@case
def left_and_right_move_within_the_line(world):
    service, terminal = at_service(world, reading)
    terminal.type(b"helo", b"helo")
    terminal.type(b"\x1b[D", b"\b \bo\b")
    terminal.type(b"l", b"\x1b[Jlo\b")
    terminal.type(b"\x1bOC!", b"\x1b[Jo!")
    terminal.type(b"\x1b[C", b"\a")
    terminal.type(b"\r", b"\r\n")
    service.wait_for(b"hello!\r\n")
    for keys, line in ((b"a\xc3\xa9\x1b[D\x1b[Db\r", b"ba\xc3\xa9"), (b"abc\x1b[D\x1b[D\x7fd\r", b"dbc"), (b"one two\x1b[D\x17x\r", b"one xo"),
                       (b"abc\x1b[D\x15d\r", b"d"), (b"ac\x1b[Db\x1b[A\x1b[B!\r", b"abc!"), (b"ab\x1b[D\x12c\r", b"acb"), (b"ac\x1b[Db\x04", b"abc"),
                       (b"\x1b[Dlost\x1b[D\x03a\r", b"a")):
        before = len(service.got)
        os.write(terminal.master, keys)
        wait_until(lambda: service.got[before:] in (line + b"\r\n", line), f"the service gets {line!r}")
    terminal.leave()


@case
def a_line_that_is_full_takes_nothing_in_its_midst(world):
    service, terminal = at_service(world, reading, "--line", "255", columns=10_000)
    terminal.paste(b"x" * 250 + b"\x1b[D\x1b[D" + b"y" * 10)
    terminal.see(b"\a" * 6)
    os.write(terminal.master, b"\r")
    service.wait_for(b"\r\n")
    expect_same(b"x" * 248 + b"yyyyxx\r\n", bytes(service.got), "what the service got")
    terminal.leave()


@case
def a_line_is_edited_in_its_midst_over_several_rows(world):
    service, terminal = at_service(world, reading, columns=10)
    begin = len(terminal.shown)
    terminal.type(b"0123456789abcdefghijkl" + b"\x1b[D" * 16 + b"X", b"X")
    say(service, b"news\r\n")
    terminal.see(b"news\r\n012345X")
    terminal.type(b"\x7fYZ\r", b"\r\n")
    service.wait_for(b"012345YZ6789abcdefghijkl\r\n")
    terminal.catch_up()
    rows = Screen(10, terminal.shown[begin:].decode()).rows()
    expect_same(["news", "012345YZ6789abcdefghijkl"], [row for row, _ in rows], "the rows that are shown")
    terminal.leave()


@case
def a_password_does_not_come_back(world):
    service, terminal = at_service(world, reading)
    terminal.type(b"name\r", b"name\r\n")
    say(service, bytes([IAC, WILL, ECHO]) + b"Password: ")
    terminal.see(b"Password: ")
    os.write(terminal.master, b"secret\r")
    service.wait_for(b"secret\r\n")
    say(service, bytes([IAC, WONT, ECHO]) + b"\r\nthanks\r\n")
    terminal.see(b"thanks\r\n")
    terminal.type(b"\x1b[A", b"name")
    expect(b"secret" not in terminal.shown, "the password is shown")
    terminal.leave()


@case(wants=["redis-server"])
def redis_answers_a_line(world):
    terminal = Terminal(world, f"127.0.0.1:{start_redis(world)}")
    terminal.see(b"Connected to")
    terminal.type(b"pix\x7fng\r", b"+PONG\r\n")
    terminal.leave()


@case
def a_strict_mail_server_takes_lines(world):
    service, terminal = at_service(world, strict_mail)
    terminal.see(b"220 here\r\n")
    terminal.type(b"EHLO me\r", b"250 ok\r\n")
    terminal.type(b"QUIT\r", b"221 bye\r\n")
    terminal.end()
    expect_same(b"EHLO me\r\nQUIT\r\n", service.end(), "what the service got")


@case
def a_password_is_not_shown(world):
    def asks(service, connection):
        connection.sendall(b"Name: ")
        lines = (line for piece in service.pieces(connection, b"\r\n") for line in piece)
        name = next(lines)
        connection.sendall(bytes([IAC, WILL, ECHO]) + b"Password: ")
        service.words = next(lines)
        connection.sendall(bytes([IAC, WONT, ECHO]) + b"\r\nwelcome " + name + b"\r\n")
        service.read_all(connection)

    service, terminal = at_service(world, asks)
    terminal.see(b"Name: ")
    terminal.type(b"ann\r", b"Password: ")
    terminal.type(b"secrex\x7ft\r", b"welcome ann\r\n")
    expect_same(bytes([IAC, DO, ECHO]) + b"secret", service.words, "what the service got")
    expect(b"secre" not in terminal.shown, "the password was shown")
    terminal.type(b"look\r", b"look\r\n")
    terminal.leave()


@case(each={"suppresses GO AHEAD": (bytes([IAC, WILL, NO_GO_AHEAD]), bytes([IAC, DO, NO_GO_AHEAD])),
            "asks for LINEMODE": (bytes([IAC, DO, LINEMODE]), bytes([IAC, WILL, LINEMODE]))})
def a_half_line_goes_once_as_keys_if_the_server(world, asks, answers):
    service, terminal = at_service(world, reading)
    terminal.type(b"ab", b"ab")
    say(service, asks)
    service.wait_for(b"ab")
    expect(bytes(service.got).startswith(answers), f"wanted {answers!r} first, got {bytes(service.got)!r}")
    terminal.see(b"ab\b \b\b \b")
    os.write(terminal.master, b"c")
    service.wait_for(b"abc")
    expect_same(1, bytes(service.got).count(b"ab"), "how often the half line went")
    os.write(terminal.master, b"\r")
    service.wait_for(b"abc\r\0")
    terminal.leave()


@case
def output_leaves_the_half_line_below_it(world):
    service, terminal = at_service(world, reading)
    terminal.type("aé\t".encode()[:3], "aé".encode())
    say(service, b"news\r\n")
    terminal.see("aé\b \b\b \bnews\r\naé".encode())
    terminal.type(b"\x1d", b"\r\ntn> ")
    say(service, b"more\r\n")
    terminal.see(b"tn> more\r\n")
    terminal.type(b"s\r", b"lines are edited here in line mode, echo is made here\r\n", b" went\r\n", "aé".encode())
    terminal.type(b"\r", b"\r\n")
    service.wait_for("aé\r\n".encode())
    terminal.leave()


@case
def a_line_feed_goes_to_the_left_edge_unless_the_server_echoes(world):
    service, terminal = at_service(world, reading)
    say(service, b"a\nb\n\nc\r\nd\r")
    say(service, b"\n")
    terminal.see(b"a\r\nb\r\n\r\nc\r\nd\r\n")
    say(service, b"x" * 95 + b"\n")
    terminal.see(b"x" * 95 + b"\r\n")
    terminal.type(b"abcdefghij\x15", b"abcdefghij")
    say(service, bytes([IAC, WILL, ECHO]) + b"e\nf")
    terminal.see(b"e\nf")
    terminal.leave()


@case
def a_half_line_of_several_rows_is_taken_off(world):
    service, terminal = at_service(world, reading, columns=40)
    say(service, b"> ")
    terminal.see(b"> ")
    terminal.type(b"x" * 90, b"x" * 38 + b" \r" + b"x" * 40 + b" \r" + b"x" * 12)
    say(service, b"news\r\n")
    terminal.see(b"\x1b[A\x1b[A\r\x1b[C\x1b[C\x1b[Jnews\r\n" + b"x" * 40)
    terminal.leave()


@case
def special_characters_act_at_the_client(world):
    service, terminal = at_service(world, reading)
    terminal.type(b"dropped\x03", b"^C\r\n")
    terminal.type(b"half\x04", b"half")
    service.wait_for(b"half")
    for key, data in ((b"\x03", bytes([IAC, IP])), (b"\x1c", bytes([IAC, BRK])), (b"\x1a", b"\x1a"), (b"\x04", b"\x04")):
        os.write(terminal.master, key)
        service.wait_for(data)
    expect_same(b"half" + bytes([IAC, IP, IAC, BRK]) + b"\x1a\x04", bytes(service.got), "what the service got")
    terminal.leave()


@case(each={"by default": (b"\r\n",), "--return crlf": (b"\r\n", "--return", "crlf"), "--return crnul": (b"\r\0", "--return=crnul"),
            "--return lf": (b"\n", "--return", "lf")})
def a_line_ends_with_what_return_sends(world, end, *words):
    service, terminal = at_service(world, reading, *words)
    os.write(terminal.master, b"a\r\r")
    service.wait_for(b"a" + end + end)
    terminal.type(b"\x1dreturn lf\r", b"RETURN sends LF\r\n")
    os.write(terminal.master, b"b\r")
    service.wait_for(b"b\n")
    expect_same(b"a" + end + end + b"b\n", bytes(service.got), "what the service got")
    terminal.leave()


@case
def keys_go_at_once_in_char_mode(world):
    service, terminal = at_service(world, reading, "--mode", "char")
    os.write(terminal.master, b"ab")
    service.wait_for(b"ab")
    os.write(terminal.master, b"\x7f\r")
    service.wait_for(b"ab\x7f\r\0")
    terminal.see_state(b"nobody edits lines, and each key is sent at once")
    terminal.leave()


@case
def line_mode_ends_and_begins_at_the_terminal(world):
    service, terminal = at_service(world, reading)
    terminal.type(b"ab", b"ab")
    terminal.type(b"\x1dmode char\r", b"each key is sent at once while LINEMODE is off\r\n")
    service.wait_for(b"ab")
    os.write(terminal.master, b"c")
    service.wait_for(b"abc")
    terminal.type(b"\x1dmode auto\r", b"lines are edited here while the other end takes whole lines\r\n")
    terminal.type(b"de", b"de")
    expect_same(b"abc", bytes(service.got), "what the service got before RETURN")
    os.write(terminal.master, b"\r")
    service.wait_for(b"abcde\r\n")
    terminal.type(b"\x1dmode line\r", b"unknown command")
    terminal.leave()


@case
def a_long_line_is_refused_at_its_end(world):
    service, terminal = at_service(world, reading, columns=10_000)
    terminal.paste(b"x" * 5000)
    terminal.see(b"x" * 4094 + b"\a")
    os.write(terminal.master, b"\r")
    service.wait_for(b"\r\n")
    expect_same(b"x" * 4094 + b"\r\n", bytes(service.got), "what the service got")
    terminal.leave()


@case
def a_short_limit_is_that_of_line_mode(world):
    service, terminal = at_service(world, reading, "--line", "300")
    terminal.paste(b"x" * 400 + b"\r")
    service.wait_for(b"\r\n")
    expect_same(b"x" * 299 + b"\r\n", bytes(service.got), "what the service got")
    terminal.leave()


@case
def a_pasted_text_goes_line_by_line(world):
    service, terminal = at_service(world, answering)
    lines = [b"line %d" % number for number in range(2_000)]
    terminal.paste(b"".join(line + b"\r" for line in lines))
    terminal.see(b"got line 1999\r\n")
    expect_same(b"".join(line + b"\r\n" for line in lines), bytes(service.got), "what the service got")
    expect_same(lines, re.findall(rb"(?<!got )(line \d+)\r\n", bytes(terminal.shown)), "the lines that were shown")
    terminal.leave()


@case
def a_log_has_the_lines_that_were_typed(world):
    path = world.path("log")
    service, terminal = at_service(world, answering, "--log", path)
    terminal.type(b"ab\r", b"got ab\r\n")
    terminal.leave()
    with open(path, "rb") as file:
        expect(file.read().startswith(b"ab\r\ngot ab\n"), "the log begins otherwise")


@case
def a_half_line_is_counted_if_it_never_went(world):
    service, terminal = at_service(world, reading)
    terminal.type(b"abc", b"abc")
    os.write(terminal.master, b"\x1dq\r")
    terminal.see(b"3 bytes typed were not sent")
    terminal.end()


@case(each={"another word": (b"'--mode <HOW>': it is neither `auto` nor `char`", "--mode", "line"),
            "--plain": (b"'--plain' excludes '--mode'", "--plain", "--mode", "char")})
def a_mode_is_refused_with(world, message, *words):
    run = world.run("connect", *words, "127.0.0.1:1")
    expect_same((2, True), (run.returncode, message in run.stderr), f"the status, and what is printed: {run.stderr}")
