#!/usr/bin/env python3
"""test_tn.py: both ends joined by tn.py, and what it refuses.

    LIBTN=out/libtn.so.2 examples/python/test_tn.py
"""
import ctypes

import tn

called = set()


class Heard:
    """The library, which writes down what is called."""

    def __init__(self, library):
        self.library = library

    def __getattr__(self, name):
        called.add(name)
        return getattr(self.library, name)


def refusal(call, *arguments):
    try:
        call(*arguments)
    except tn.Refused as refused:
        return refused.code
    return tn.OK


def deliver(server, client):
    for _ in range(4):
        server.write(b"")
        client.feed(server.read())
        server.feed(client.read())


def looks(server, client):
    """What both ends tell of themselves, once lines are edited at the client."""
    assert server.size() == (80, 24) and server.asked() == server.mode() == tn.MODE_EDIT | tn.MODE_TRAPSIG
    assert server.char(tn.CHAR_KILL) == client.char(tn.CHAR_KILL) == 21 and not server.failed() and not client.failed()
    assert client.option(True, 34) == tn.OPTION_YES and server.half() == client.half() == b""
    assert client.ahead() == 0 and client.counts() == (0, 0)
    assert server.changes() == tn.CHANGED_SIZE | tn.CHANGED_MODE | tn.CHANGED_OPTION and server.changes() == 0
    server.set_mask(b"\x01")
    server.set_mask(None)
    server.set_echo(False)
    client.resize(90, 30)
    client.propose(tn.CHAR_KILL, 24)
    deliver(server, client)
    assert server.changes() == tn.CHANGED_SIZE | tn.CHANGED_OPTION | tn.CHANGED_CHAR  # the server echoes nothing in the client's place
    assert server.size() == (90, 30) and server.char(tn.CHAR_KILL) == 24 and client.pending() == client.screen_pending() == 0
    client.send(tn.COMMAND_BRK)
    deliver(server, client)
    assert server.changes() == tn.CHANGED_BREAK and server.take() == (tn.INT, None)


def floods(server):
    """Entries beyond those that may wait are kept; output is sent without a copy."""
    server.feed(memoryview(b"\n" * 5000 + b"\x03x\r\0"))
    assert server.signal_waiting() == tn.INT and server.waiting(0) == (tn.TEXT, b"\n") and server.waiting(5001) == (tn.TEXT, b"x\n")
    assert server.waiting(5002) == (tn.NONE, None) and [server.take()[1] for _ in range(5000)] == [b"\n"] * 5000
    assert server.take() == (tn.INT, None) and server.take() == (tn.TEXT, b"x\n") and server.take() == (tn.NONE, None)
    server.forget()
    assert server.write_some(bytearray(b"ab\n")) == 3 and server.pull() == 3
    assert server.pending() > 3 and server.read().endswith(b"ab\r\n")
    server.write(b"cd")
    assert server.send_to(lambda view: len(bytes(view)) - 1) == 1 and server.read() == b"d" and server.send_to(len) == 0
    assert refusal(server.feed_at_once, b"\n" * 1025) == tn.TOO_FAR_AHEAD and refusal(server.feed, b"a") == tn.FAILED


def owns(server, client):
    """Options of one's own at both ends: messages and subnegotiations wait at the other end, and other options are refused as before."""
    server.own(201, 70)
    client.own(201)
    assert refusal(server.own, 31) == tn.RESERVED and refusal(client.say_own, 70, 253) == tn.NOT_OWNED
    deliver(server, client)
    assert refusal(client.own, 70) == tn.TOO_LATE and server.own_items() == []
    client.say_own(201, 253)
    client.say_own_sub(201, b"Core.Hello \xff")
    client.keys(b"ls\r")
    server.feed(client.read() + tn.option(253, 24))
    assert [(it.kind, it.code, it.option, text) for it, text in server.own_items()] == [
        (tn.WORD, 253, 201, b""), (tn.SUBNEGOTIATION, 0, 201, b"Core.Hello \xff")]
    assert server.read().endswith(tn.option(252, 24)) and server.option(True, 201) == tn.OPTION_NO
    server.say_own(201, 251)
    server.say_own_sub(201, b"Core.Goodbye")
    client.feed(server.read())
    assert [(it.kind, text) for it, text in client.own_items()] == [(tn.WORD, b""), (tn.SUBNEGOTIATION, b"Core.Goodbye")]
    server.feed(tn.option(253, 201) * 64)
    assert refusal(server.feed_at_once, b"x") == tn.ITEMS_WAIT and server.take() == (tn.TEXT, b"ls\n")
    server.feed(tn.option(254, 201) * 200)
    client.feed(tn.option(251, 201) * 64)
    client.feed(tn.option(252, 201))
    assert [it.code for it, _ in server.own_items()] == [253] * 64 + [254] * 200
    assert [it.code for it, _ in client.own_items()] == [251] * 64 + [252]
    assert refusal(server.say_own, 70, 250) == tn.NO_COMMAND and refusal(server.say_own_sub, 70, bytes(513)) == tn.TOO_LONG


def main():
    tn._library = Heard(tn._library)
    with tn.Server() as server, tn.Client(80, 24) as client:
        deliver(server, client)
        assert server.wish(True)
        deliver(server, client)
        assert client.mode() == tn.MODE_EDIT | tn.MODE_TRAPSIG and server.option(False, 34) == tn.OPTION_YES
        client.keys(b"helo\x7flo\r")
        deliver(server, client)
        assert server.take() == (tn.TEXT, b"hello\n") and server.take() == (tn.NONE, None)
        server.write(b"x" * 10000 + b"\n")
        deliver(server, client)
        assert client.screen().endswith(b"x" * 10000 + b"\r\n")
        assert refusal(server.set_char, tn.CHAR_INTR, 10) == tn.RESERVED
        client.new_line()
        deliver(server, client)
        assert server.take() == (tn.TEXT, b"\n")
        client.keys(b"held")
        client.send(tn.COMMAND_IP)
        assert refusal(client.send, 245) == tn.NO_COMMAND and client.read() == tn.command(tn.COMMAND_IP)
        server.feed(tn.command(tn.COMMAND_IP))
        assert server.take() == (tn.INT, None)
    with tn.Server() as server, tn.Client(80, 24) as client:
        server.wish(True)
        deliver(server, client)
        looks(server, client)
    with tn.Server() as server:
        floods(server)
    with tn.Server() as server, tn.Client(80, 24) as client:
        owns(server, client)
    with tn.Server(lines=True) as server:
        server.feed(b"ls\r\n")
        assert server.read() == b"\xff\xfd\x22\xff\xfd\x1f" and server.take() == (tn.TEXT, b"ls\n")
    assert str(tn.Refused("tn_line_key", tn.MEMORY)) == "tn_line_key: out of memory (code 1)"
    assert refusal(server.read) == tn.NOT_STARTED and refusal(tn.Line, None, 1) == tn.NO_LIMIT
    with tn.Line(tn.Flags(isig=False)) as line:
        assert [line.key(key)[0] for key in b"a\x03\x7f"] == [tn.KEPT, tn.KEPT, tn.ERASED] and line.half() == b"a"
        assert line.key(13) == (tn.TEXT, b"a\n") and line.echo() == b"\r\n" and line.char(tn.CHAR_EOL) == tn.NO_CHAR
        line.set_flags(tn.Flags())
        line.set_char(tn.CHAR_EOL, 7)
        assert line.char(tn.CHAR_EOL) == 7
        try:
            line.key("a")
        except ctypes.ArgumentError:
            pass
        else:
            raise AssertionError("a key of another type")
    with tn.Decoder() as decoder:
        found = [(item.kind, item.option, parameters) for item, parameters in decoder.items(b"\xff\xfa\x1f\x00\x50\xff\xf0")]
        assert found == [(tn.SUBNEGOTIATION, 31, b"\x00\x50")]
        decoder.feed(b"text\r\n")
        assert [decoder.take_run(3) for _ in range(3)] == [b"tex", b"t", b""] and [it.kind for it, _ in decoder.items(b"")] == [tn.NEWLINE]
        stream = tn.data(b"a\xff\n") + tn.command(241) + tn.option(251, 24) + tn.subnegotiation(24, b"\x00\xffx")
        kinds = [(item.kind, item.code, parameters) for item, parameters in decoder.items(stream)]
        assert kinds == [(tn.BYTE, 97, b""), (tn.BYTE, 255, b""), (tn.NEWLINE, 0, b""), (tn.COMMAND, 241, b""), (tn.WORD, 251, b""),
                         (tn.SUBNEGOTIATION, 0, b"\x00\xffx")]
    assert refusal(tn.command, 240) == tn.NO_COMMAND and tn.version() == 10200
    assert not {f"tn_{name}" for name in tn.CALLS} - called, {f"tn_{name}" for name in tn.CALLS} - called
    print("tn.py: lines, a decoder and both ends, each call of them")


main()
