"""Lines that LINEMODE has `tn connect` edit at a terminal (RFC 1184, section 2.2, EDIT)."""
import os

from ends import DO, IAC, IP, LINEMODE, SB, SE, WILL, Serving
from lines import reading, say
from services import Service
from terminal import Terminal
from world import case, expect, expect_same

# Functions of LINEMODE, and their modes.
MODE, FORWARD_MASK, SLC, EDIT, TRAPSIG, ACK = 1, 2, 3, 1, 2, 4

# Special characters: end of file, and erase a character; and that one has this value.
SLC_EC, SLC_VALUE = 10, 2

EOF, ERASES = bytes([IAC, 236]), bytes([IAC, 247])

ECHO = 1


def linemode(*bytes_of):
    return bytes([IAC, SB, LINEMODE, *bytes_of, IAC, SE])


def begin(service, mask=EDIT | TRAPSIG):
    """Has the client edit, and waits until it has acknowledged that."""
    if bytes([IAC, WILL, LINEMODE]) not in service.got:
        say(service, bytes([IAC, DO, LINEMODE]))
        service.wait_for(bytes([IAC, WILL, LINEMODE]))
    say(service, linemode(MODE, mask))
    service.wait_for(linemode(MODE, mask | ACK))


def at_editor(world, *words, mask=EDIT | TRAPSIG, flags=(), before=b"", **settings):
    """A server that has the client edit, and a client at a terminal with UTF-8 that does."""
    service = Service(world, reading)
    terminal = Terminal(world, *words, f"127.0.0.1:{service.port}", flags=["iutf8", *flags], **settings)
    terminal.see(b"Connected to")
    if before:
        say(service, bytes([IAC, DO, LINEMODE]))
        service.wait_for(bytes([IAC, WILL, LINEMODE]))
        os.write(terminal.master, before)
        service.wait_for(before)
    begin(service, mask)
    wait_for_state(terminal)
    return service, terminal


def wait_for_state(terminal):
    """The client has noted what it has agreed on."""
    terminal.see_state(b"lines are edited here, ")


def came(service):
    """What came after all that LINEMODE has to say."""
    return bytes(service.got).rpartition(bytes([IAC, SE]))[2]


@case
def a_line_goes_once_it_ends(world):
    service, terminal = at_editor(world)
    terminal.type(b"abX\x7fc", b"abX\b \bc")
    expect_same(b"", came(service), "what the server got before RETURN")
    terminal.type(b"\r", b"\r\n")
    service.wait_for(b"abc\r\n")
    terminal.type(b"wrong\x15right\r", b"right\r\n")
    service.wait_for(b"right\r\n")
    expect_same(b"abc\r\nright\r\n", came(service), "what the server got")
    expect_same(1, bytes(terminal.shown).count(b"right\r\n"), "how often the line is shown")
    terminal.leave()


@case
def characters_and_words_are_erased_whole(world):
    service, terminal = at_editor(world)
    for keys, line, shown in ((b"h\xc3\xa9\x7fi\r", b"hi", "hé\b \bi\r\n".encode()), (b"one two\x17three\r", b"one three", b"one two\b \b\b \b\b \bthree\r\n"),
                              (b"a\x12b\r", b"ab", b"a^R\r\nab\r\n"), (b"a\x01\x7fb\r", b"ab", b"a^A\b \b\b \bb\r\n"),
                              ("世界\x7f人\r".encode(), "世人".encode(), "世界\b \b\b \b人\r\n".encode())):
        terminal.type(keys, shown)
        service.wait_for(line + b"\r\n")
    terminal.leave()


@case
def earlier_lines_come_back(world):
    service, terminal = at_editor(world)
    terminal.type(b"first\r", b"first\r\n")
    terminal.type(b"hal\x1b[A", b"hal\b \b\b \b\b \bfirst")
    terminal.type(b"!\r", b"!\r\n")
    service.wait_for(b"first\r\nfirst!\r\n")
    terminal.leave()


@case(each={"an interrupt": (b"\x03", bytes([IAC, IP])), "a stop": (b"\x1a", bytes([IAC, 237]))})
def a_signal_goes_at_once_and_leaves_the_line(world, key, command):
    service, terminal = at_editor(world)
    terminal.type(b"ab", b"ab")
    os.write(terminal.master, key)
    service.wait_for(command)
    terminal.type(b"c\r", b"c\r\n")
    service.wait_for(b"abc\r\n")
    expect_same(command + b"abc\r\n", came(service), "what the server got")
    terminal.leave()


@case
def end_of_file_sends_the_line_before_it(world):
    service, terminal = at_editor(world)
    terminal.type(b"ab", b"ab")
    os.write(terminal.master, b"\x04")
    service.wait_for(b"ab" + EOF)
    os.write(terminal.master, b"\x04")
    service.wait_for(b"ab" + EOF + EOF)
    terminal.leave()


@case
def a_password_is_not_shown(world):
    service, terminal = at_editor(world)
    say(service, bytes([IAC, WILL, ECHO]) + b"Password: ")
    terminal.see(b"Password: ")
    os.write(terminal.master, b"secrex\x7ft\r")
    service.wait_for(b"secret\r\n")
    expect(b"secre" not in terminal.shown, "the password is shown")
    terminal.leave()


@case
def a_byte_of_a_forward_mask_sends_the_line_before_its_end(world):
    service, terminal = at_editor(world)
    # Of each byte of the mask the lowest bit comes last (RFC 1184, section 2.3): here the one of TAB.
    say(service, linemode(DO, FORWARD_MASK, 0, 0x40))
    service.wait_for(linemode(WILL, FORWARD_MASK))
    os.write(terminal.master, b"ab\t")
    service.wait_for(b"ab\t")
    os.write(terminal.master, b"c\r")
    service.wait_for(b"c\r\n")
    terminal.leave()


@case
def other_special_characters_edit_at_the_client_end(world):
    service, terminal = at_editor(world)
    say(service, linemode(SLC, SLC_EC, SLC_VALUE, 8))
    service.wait_for(bytes([IAC, SB, LINEMODE, SLC]))
    os.write(terminal.master, b"a\x17bX\x08c\r")
    service.wait_for(b"a\x17bc\r\n")
    terminal.leave()


@case
def a_half_line_goes_as_keys_if_the_server_edits_from_then_on(world):
    service, terminal = at_editor(world)
    terminal.type(b"ab", b"ab")
    begin(service, TRAPSIG)
    service.wait_for(b"ab")
    os.write(terminal.master, b"c\r")
    service.wait_for(b"abc\r\0")
    expect_same(b"abc\r\0", came(service), "what the server got")
    terminal.leave()


@case
def a_line_that_began_at_the_server_ends_there(world):
    service, terminal = at_editor(world, before=b"ab")
    os.write(terminal.master, b"\x7fc\r")
    service.wait_for(ERASES + b"c\r\n")
    terminal.type(b"one two\x17three\r", b"one two\b \b\b \b\b \bthree\r\n")
    service.wait_for(b"one three\r\n")
    terminal.leave()


@case
def a_long_line_is_refused_at_its_end(world):
    service, terminal = at_editor(world, columns=10_000)
    terminal.paste(b"x" * 300)
    terminal.see(b"x" * 254 + b"\a")
    os.write(terminal.master, b"\r")
    service.wait_for(b"\r\n")
    expect_same(b"x" * 254 + b"\r\n", came(service), "what the server got")
    terminal.leave()


@case
def output_leaves_the_half_line_below_it(world):
    service, terminal = at_editor(world)
    terminal.type("aé".encode(), "aé".encode())
    say(service, b"news\r\n")
    terminal.see("aé\b \b\b \bnews\r\naé".encode())
    terminal.type(b"\r", b"\r\n")
    service.wait_for("aé\r\n".encode())
    terminal.leave()


@case(each={"no TRAPSIG": ("--mode", "auto"), "--keys standard": ("--keys", "standard")})
def keys_that_a_plain_terminal_lacks_join_the_line_with(world, *words):
    service, terminal = at_editor(world, *words, mask=EDIT if "--mode" in words else EDIT | TRAPSIG)
    os.write(terminal.master, b"a\x17b\r")
    service.wait_for(b"a\x17b\r\n")
    terminal.leave()


@case
def a_job_of_a_server_of_ours_reads_the_line(world):
    serving = Serving(world, "--local", "--count", "1")
    terminal = Terminal(world, f"127.0.0.1:{serving.port}", flags=["iutf8"])
    terminal.see(b"Connected to")
    wait_for_state(terminal)
    terminal.type(b"one two\x17h\xc3\xa9\x7fi\r", "one two\b \b\b \b\b \bhé\b \bi\r\none hi\r\n".encode())
    terminal.leave()
    serving.end()


@case
def a_pasted_text_goes_line_by_line(world):
    service, terminal = at_editor(world)
    lines = [b"line %d" % number for number in range(500)]
    terminal.paste(b"".join(line + b"\r" for line in lines))
    service.wait_for(b"line 499\r\n")
    expect_same(b"".join(line + b"\r\n" for line in lines), came(service), "what the server got")
    terminal.see(b"line 499\r\n")
    expect_same(1, bytes(terminal.shown).count(b"line 250\r\n"), "how often a line is shown")
    terminal.leave()
