"""tn: libtn for Python by ctypes: lines, decoders, and both ends of a Telnet connection with LINEMODE.

    import tn
    with tn.Server() as server:
        server.feed(b"helo\\x7flo\\r\\0")
        print(server.take())        # (tn.TEXT, b'hello\\n')
        connection.sendall(server.read())

Each call of tn.h has a method or a function. Bytes are given as bytes, bytearray or memoryview. A call that is refused raises tn.Refused,
whose code is one of tn.h. The library is libtn.so.2, or the one that LIBTN names.
"""
import collections
import ctypes
import os
from ctypes import POINTER, addressof, byref, c_bool, c_char_p, c_size_t, c_uint8, c_uint16, c_uint32, c_void_p

OK, MEMORY, FAILED, NOT_STARTED, STARTED, OTHER_KIND, NO_LIMIT, TOO_FAR_AHEAD, CLOSED, NO_FUNCTION, NOT_SETTABLE, RESERVED, TAKEN, \
    NOT_ON, TOO_LONG, NO_COMMAND, NOT_OWNED, TOO_LATE, ITEMS_WAIT = range(19)
NONE, TEXT, EOF, INT, QUIT, TSTP, KEPT, ERASED, ERASED_AHEAD, KILLED, DROPPED = range(11)
NO_ITEM, BYTE, NEWLINE, COMMAND, WORD, SUBNEGOTIATION = range(6)
CHAR_INTR, CHAR_QUIT, CHAR_EOF, CHAR_SUSP, CHAR_ERASE, CHAR_KILL, CHAR_EOL, CHAR_EOL2 = 3, 7, 8, 9, 10, 11, 17, 18
COMMAND_NOP, COMMAND_BRK, COMMAND_IP, COMMAND_AYT = 241, 243, 244, 246
CHANGED_SIZE, CHANGED_MODE, CHANGED_OPTION, CHANGED_CHAR, CHANGED_BREAK = 1, 2, 4, 8, 16
NO_CHAR = 256
MODE_EDIT, MODE_TRAPSIG = 1, 2
OPTION_NO, OPTION_YES, OPTION_WANT_NO, OPTION_WANT_NO_THEN_YES, OPTION_WANT_YES, OPTION_WANT_YES_THEN_NO = range(6)


class Handle(ctypes.Structure):
    _fields_ = [("private", c_void_p)]


class Flags(ctypes.Structure):
    """A terminal's flags; those of tn.h's TN_STANDARD_FLAGS if none are named."""

    _fields_ = [(name, c_bool) for name in
                ("icrnl", "inlcr", "igncr", "isig", "echo", "echoe", "echok", "echonl", "tostop", "opost", "onlcr")]

    def __init__(self, **flags):
        standard = {name: True for name in ("icrnl", "isig", "echo", "echoe", "echok", "opost", "onlcr")}
        super().__init__(**{**standard, **flags})


class Item(ctypes.Structure):
    _fields_ = [("kind", c_uint32), ("code", c_uint8), ("option", c_uint8), ("length", c_size_t)]


class Refused(Exception):
    """A call was refused; `code` is one of tn.h, and str() names the call and the code's text."""

    def __init__(self, call, code):
        super().__init__(f"{call}: {code_text(code)} (code {code})")
        self.code = code


HANDLE, BYTES, BUFFER = POINTER(Handle), (c_void_p, c_size_t), (POINTER(c_uint8), c_size_t, POINTER(c_size_t))

# The parameters of each call after its handle.
CALLS = {
    "line_start": (POINTER(Flags), c_uint16),
    "line_key": (c_uint8, POINTER(c_uint32)),
    "line_text": BUFFER,
    "line_half": BUFFER,
    "line_echo": BUFFER,
    "line_set_flags": (POINTER(Flags),),
    "line_set_char": (c_uint8, c_uint16),
    "line_char": (c_uint8, POINTER(c_uint16)),
    "decoder_start": (),
    "decoder_feed": BYTES,
    "decoder_take": (POINTER(Item),),
    "decoder_take_run": BUFFER,
    "decoder_parameters": BUFFER,
    "put_byte": (c_uint8, *BUFFER),
    "put_newline": BUFFER,
    "put_command": (c_uint8, *BUFFER),
    "put_option": (c_uint8, c_uint8, *BUFFER),
    "put_sub": (c_uint8, *BYTES, *BUFFER),
    "server_start": (POINTER(Flags), c_uint16),
    "server_start_lines": (POINTER(Flags), c_uint16),
    "server_feed": BYTES,
    "server_feed_some": (*BYTES, POINTER(c_size_t)),
    "server_pending": (POINTER(c_size_t),),
    "server_read": BUFFER,
    "server_peek": (POINTER(POINTER(c_uint8)), POINTER(c_size_t)),
    "server_sent": (c_size_t,),
    "server_take": (POINTER(c_uint32),),
    "server_text": BUFFER,
    "server_forget": (),
    "server_write": (*BYTES, POINTER(c_size_t)),
    "server_pull": (c_size_t, POINTER(c_size_t)),
    "server_say": (*BYTES, POINTER(c_size_t)),
    "server_wish": (c_bool, POINTER(c_bool)),
    "server_set_char": (c_uint8, c_uint16),
    "server_set_echo": (c_bool,),
    "server_set_mask": BYTES,
    "server_clear_mask": (),
    "server_waiting": (c_size_t, POINTER(c_uint32)),
    "server_waiting_text": (c_size_t, *BUFFER),
    "server_signal_waiting": (POINTER(c_uint32),),
    "server_changes": (POINTER(c_uint32),),
    "server_size": (POINTER(c_uint16), POINTER(c_uint16)),
    "server_mode": (POINTER(c_uint8),),
    "server_asked": (POINTER(c_uint8),),
    "server_half": BUFFER,
    "server_char": (c_uint8, POINTER(c_uint16)),
    "server_option": (c_bool, c_uint8, POINTER(c_uint32)),
    "server_failed": (POINTER(c_bool),),
    "server_own": (c_uint8,),
    "server_take_own": (POINTER(Item),),
    "server_own_parameters": BUFFER,
    "server_say_own": (c_uint8, c_uint8),
    "server_say_own_sub": (c_uint8, *BYTES),
    "client_start": (c_uint16, c_uint16, c_uint16),
    "client_key": (c_uint8,),
    "client_new_line": (),
    "client_feed": BYTES,
    "client_pending": (POINTER(c_size_t),),
    "client_read": BUFFER,
    "client_screen_pending": (POINTER(c_size_t),),
    "client_screen": BUFFER,
    "client_resize": (c_uint16, c_uint16),
    "client_propose": (c_uint8, c_uint16),
    "client_send": (c_uint32,),
    "client_mode": (POINTER(c_uint8),),
    "client_half": BUFFER,
    "client_ahead": (POINTER(c_uint16),),
    "client_counts": (POINTER(c_uint16), POINTER(c_uint16)),
    "client_char": (c_uint8, POINTER(c_uint16)),
    "client_option": (c_bool, c_uint8, POINTER(c_uint32)),
    "client_failed": (POINTER(c_bool),),
    "client_own": (c_uint8,),
    "client_take_own": (POINTER(Item),),
    "client_own_parameters": BUFFER,
    "client_say_own": (c_uint8, c_uint8),
    "client_say_own_sub": (c_uint8, *BYTES),
}

_library = ctypes.CDLL(os.environ.get("LIBTN", "libtn.so.2"))
for _name, _parameters in CALLS.items():
    getattr(_library, "tn_" + _name).argtypes = _parameters if _name.startswith("put_") else (HANDLE, *_parameters)
    getattr(_library, "tn_" + _name).restype = c_uint32
for _kind in ("line", "decoder", "server", "client"):
    getattr(_library, f"tn_{_kind}_free").argtypes = (HANDLE,)
    getattr(_library, f"tn_{_kind}_free").restype = None


_library.tn_version.argtypes = ()
_library.tn_version.restype = c_uint32
_library.tn_code_text.argtypes = (c_uint32,)
_library.tn_code_text.restype = c_char_p


def code_text(code):
    """Returns a short English text for a code."""
    return _library.tn_code_text(code).decode()


def version():
    """Returns the library's version: 10,000 times its first number, plus 100 times its second, plus its third."""
    return _library.tn_version()


def _given(data):
    """Returns the argument for BYTES; bytes are lent as they are, and others are copied."""
    data = data if isinstance(data, bytes) else bytes(data)
    return data, len(data)


def _spelled(name, size, *arguments):
    buf, length = (c_uint8 * size)(), c_size_t()
    code = getattr(_library, "tn_put_" + name)(*arguments, buf, size, byref(length))
    if code != OK:
        raise Refused("tn_put_" + name, code)
    return bytes(buf[: length.value])


def data(text):
    """Bytes of data as a decoder reads them back, each line feed as the end of a line."""
    return b"".join(_spelled("newline", 2) if byte == 10 else _spelled("byte", 2, byte) for byte in text)


def command(byte):
    return _spelled("command", 2, byte)


def option(word, number):
    return _spelled("option", 3, word, number)


def subnegotiation(number, parameters):
    return _spelled("sub", 2 * len(parameters) + 6, number, *_given(parameters))


class _Held:
    """The parts that all four share. A handle is never copied: it lives and moves with its object."""

    kind = ""

    def __init__(self, *arguments, call="start"):
        self._handle = Handle()
        self._call(call, *arguments)

    def __enter__(self):
        return self

    def __exit__(self, *_):
        self.free()

    def free(self):
        """Frees all that is held; any other call is refused from then on."""
        getattr(_library, f"tn_{self.kind}_free")(byref(self._handle))

    __del__ = free

    def _call(self, name, *arguments):
        code = getattr(_library, f"tn_{self.kind}_{name}")(byref(self._handle), *arguments)
        if code != OK:
            raise Refused(f"tn_{self.kind}_{name}", code)

    def _value(self, name, made, *arguments):
        """Returns the value that a call gives through its last pointer, of this type."""
        value = made()
        self._call(name, *arguments, byref(value))
        return value.value

    def _bytes(self, name, size, *arguments):
        """Returns the bytes that a call moves or copies to a buffer of this size."""
        buf, count = (c_uint8 * max(size, 1))(), c_size_t()
        self._call(name, *arguments, buf, size, byref(count))
        return bytes(memoryview(buf)[: count.value])


class _Edited(_Held):
    """The parts that a line and both ends share."""

    def half(self):
        """Returns the bytes of the half-typed line that are held."""
        return self._bytes("half", self._limit)

    def char(self, function):
        """Returns a special character, or NO_CHAR."""
        return self._value("char", c_uint16, function)


class Line(_Edited):
    """Keys to entries."""

    kind = "line"

    def __init__(self, flags=None, limit=255):
        super().__init__(byref(flags or Flags()), limit)
        self._limit = limit

    def key(self, key):
        """Types a key. Returns its effect, and the text that it gave, if any."""
        effect = self._value("key", c_uint32, key)
        return effect, self._bytes("text", self._limit) if effect == TEXT else None

    def echo(self):
        """Returns the bytes that a terminal shows of the last key."""
        return self._bytes("echo", 6)

    def set_flags(self, flags):
        self._call("set_flags", byref(flags))

    def set_char(self, function, value=NO_CHAR):
        self._call("set_char", function, value)


class Decoder(_Held):
    """A stream to items."""

    kind = "decoder"

    def items(self, piece):
        """Each item that the piece completes, with its parameters."""
        self._call("feed", *_given(piece))
        while True:
            item = Item()
            self._call("take", byref(item))
            if item.kind == NO_ITEM:
                return
            yield item, self._bytes("parameters", item.length)

    def feed(self, piece):
        """Reads a piece, cut anywhere: its items wait for take_run and items."""
        self._call("feed", *_given(piece))

    def take_run(self, most=4096):
        """Returns the bytes of data that come first, as many as came together and at most this number."""
        return self._bytes("take_run", most)


class _End(_Edited):
    """The parts that both ends share."""

    def __init__(self, *arguments, call="start"):
        super().__init__(*arguments, call=call)
        self._items = []  # items of owned options that were taken, to make room for others

    def feed(self, piece):
        """Takes bytes that came, cut anywhere."""
        self._feed("feed", *_given(piece))

    def pending(self):
        """Returns the number of bytes that wait to be sent."""
        return self._value("pending", c_size_t)

    def read(self):
        """Returns all bytes that wait to be sent."""
        return self._bytes("read", self.pending())

    def option(self, ours, option):
        """Returns the state of an option, at our side or at theirs."""
        return self._value("option", c_uint32, ours, option)

    def mode(self):
        """Returns the mode in force."""
        return self._value("mode", c_uint8)

    def failed(self):
        return self._value("failed", c_bool)

    def own(self, *options):
        """Owns options, before anything is fed: the end no longer refuses them, and their items wait for own_items."""
        for option in options:
            self._call("own", option)

    def _take_items(self):
        while True:
            item = Item()
            self._call("take_own", byref(item))
            if item.kind == NO_ITEM:
                return
            self._items.append((item, self._bytes("own_parameters", item.length)))

    def own_items(self):
        """Takes the items of owned options that wait, and returns a list of them, each with its parameters."""
        self._take_items()
        items, self._items = self._items, []
        return items

    def _feed(self, name, *arguments):
        """Makes a call that feeds; the items of owned options that wait are taken first if there are too many of them."""
        try:
            return self._call(name, *arguments)
        except Refused as refused:
            if refused.code != ITEMS_WAIT:
                raise
            self._take_items()
            return self._call(name, *arguments)

    def say_own(self, option, word):
        """Sends an option message of an owned option; `word` is 251 WILL to 254 DONT."""
        self._call("say_own", option, word)

    def say_own_sub(self, option, parameters):
        """Sends a subnegotiation of an owned option."""
        self._call("say_own_sub", option, *_given(parameters))


class Server(_End):
    """A server end, with its terminal. With `lines` it opens for clients that edit lines themselves."""

    kind = "server"

    def __init__(self, flags=None, limit=255, lines=False):
        super().__init__(byref(flags or Flags()), limit, call="start_lines" if lines else "start")
        self._limit = limit
        self._taken = collections.deque()  # entries that were taken, to make room for others

    def feed(self, piece):
        """Takes bytes that came, cut anywhere and as many as there are: entries beyond those that may wait are kept in this object."""
        data, length = _given(piece)
        at = ctypes.cast(c_char_p(data), c_void_p).value
        count = c_size_t()
        while True:
            self._feed("feed_some", at, length, byref(count))
            taken = count.value
            at, length = at + taken, length - taken
            if not length:
                return
            if not taken:
                self._taken.extend(self._take() for _ in range(512))

    def feed_at_once(self, piece):
        """Takes bytes that came: the end fails if they make more entries than may wait."""
        self._call("feed", *_given(piece))

    def _take(self):
        kind = self._value("take", c_uint32)
        return kind, self._bytes("text", self._limit) if kind == TEXT else None

    def take(self):
        """Takes the first entry. Returns its kind, and its text, if it is one; NONE if no entry waits."""
        return self._taken.popleft() if self._taken else self._take()

    def waiting(self, index):
        """Returns the kind and the text of an entry that waits, by its place from 0 on; it stays. NONE after the last."""
        if index < len(self._taken):
            return self._taken[index]
        index -= len(self._taken)
        kind = self._value("waiting", c_uint32, index)
        return kind, self._bytes("waiting_text", self._limit, index) if kind == TEXT else None

    def signal_waiting(self):
        """Returns the first signal among the entries that wait, or NONE."""
        taken = (kind for kind, _ in self._taken if kind in (INT, QUIT, TSTP))
        return next(taken, None) or self._value("signal_waiting", c_uint32)

    def forget(self):
        """Writes zeros over the text that was taken last, as far as the library holds it."""
        self._call("forget")

    def write(self, output):
        """Writes all of it to the screen, and spells the screen, the echo too, even if nothing is written."""
        data, length = _given(output)
        at = ctypes.cast(c_char_p(data), c_void_p).value
        while True:
            done = self._value("say", c_size_t, at, length)
            at, length = at + done, length - done
            if not length:
                return

    def write_some(self, output):
        """Writes to the screen, and spells nothing of it. Returns how many bytes found room."""
        return self._value("write", c_size_t, *_given(output))

    def pull(self, most=4096):
        """Spells the first symbols of the screen, and returns how many."""
        return self._value("pull", c_size_t, most)

    def send_to(self, send):
        """Sends the bytes that wait, without a copy, and returns how many bytes went: `send` is given a memoryview and returns
        that number, as socket.send does. It keeps no part of the memoryview, and calls nothing of this end."""
        at, count = POINTER(c_uint8)(), c_size_t()
        self._call("peek", byref(at), byref(count))
        if not count.value:
            return 0
        with memoryview((c_uint8 * count.value).from_address(addressof(at.contents))) as view:
            done = send(view)
        self._call("sent", done)
        return done

    def wish(self, at_client):
        """Requests that the client, or the server, edit lines, and returns whether a MODE waits to be sent for it."""
        return self._value("wish", c_bool, at_client)

    def set_echo(self, on):
        """Sets or clears the terminal's flag ECHO."""
        self._call("set_echo", on)

    def set_char(self, function, value=NO_CHAR):
        """Changes a special character."""
        self._call("set_char", function, value)

    def set_mask(self, octets):
        """Asks the client to send the bytes that it holds at each character of this mask, or by None at none any more."""
        if octets is None:
            self._call("clear_mask")
        else:
            self._call("set_mask", *_given(octets))

    def changes(self):
        """Returns the sum of the CHANGED_ of all that differs from the last such call, or from the start."""
        return self._value("changes", c_uint32)

    def size(self):
        """Returns the window's width and height in characters; 0 is unspecified."""
        width, height = c_uint16(), c_uint16()
        self._call("size", byref(width), byref(height))
        return width.value, height.value

    def asked(self):
        """Returns the mode that the client was asked for last."""
        return self._value("asked", c_uint8)


class Client(_End):
    """A client end."""

    kind = "client"

    def __init__(self, width=0, height=0, limit=255):
        super().__init__(width, height, limit)
        self._limit = limit

    def keys(self, keys):
        """Types keys, one after another."""
        for key in keys:
            self._call("key", key)

    def new_line(self):
        """Types the key LF, which goes to the server as CR LF."""
        self._call("new_line")

    def screen(self):
        """Returns all bytes that wait to be shown."""
        return self._bytes("screen", self.screen_pending())

    def screen_pending(self):
        """Returns the number of bytes that wait to be shown."""
        return self._value("screen_pending", c_size_t)

    def resize(self, width, height):
        """Takes a new size of the window, in characters."""
        self._call("resize", width, height)

    def propose(self, function, value=NO_CHAR):
        """Proposes a special character to the server."""
        self._call("propose", function, value)

    def ahead(self):
        """Returns the number of bytes of the half-typed line that were sent before those that are held."""
        return self._value("ahead", c_uint16)

    def counts(self):
        """Returns the length of a half-typed line that the server edits, if its ISIG is set and if it is clear."""
        trapped, plain = c_uint16(), c_uint16()
        self._call("counts", byref(trapped), byref(plain))
        return trapped.value, plain.value

    def send(self, command):
        """Sends a command, before the bytes of a line that are held, which stay as they are."""
        self._call("send", command)
