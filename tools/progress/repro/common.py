"""What the programs of this folder share."""
import glob
import os
import socket
import sys
import time

sys.path.insert(0, os.path.join(os.path.dirname(os.path.realpath(__file__)), "..", "..", "lib"))
import basics

free_port = basics.free_port


def words_of(head, **numbers):
    """The words of the command line: a program, and numbers that have these values where they are not given."""
    words = basics.Words(head)
    words.add_argument("program", metavar="PROGRAM")
    for name, value in numbers.items():
        words.add_argument(name, type=type(value), nargs="?", default=value)
    asked = vars(words.parse_args())
    return basics.checked_program(asked["program"]), *(asked[name] for name in numbers)


def narrow_listener():
    """A listener whose connections take little that nobody reads."""
    listener = socket.socket()
    listener.setsockopt(socket.SOL_SOCKET, socket.SO_RCVBUF, 4096)
    listener.bind(("127.0.0.1", 0))
    listener.listen()
    return listener


def places(process):
    """Where the threads of a process wait in the kernel."""
    found = []
    for path in glob.glob(f"/proc/{process.pid}/task/*/wchan"):
        try:
            with open(path) as place:
                found.append(place.read().strip())
        except OSError:
            pass
    return ", ".join(sorted(found))


def queued(port, peer):
    """The bytes that both ends of a connection on this machine hold on their way from `port` to `peer`."""
    held = 0
    with open("/proc/net/tcp") as table:
        for line in table.readlines()[1:]:
            words = line.split()
            ours, theirs = (int(words[at].split(":")[1], 16) for at in (1, 2))
            to_send, to_read = (int(count, 16) for count in words[4].split(":"))
            if (ours, theirs) == (port, peer):
                held += to_send
            elif (ours, theirs) == (peer, port):
                held += to_read
    return held


def settle(port, peer):
    """Waits until what a connection holds towards the server does not change for 2 s. Returns how many bytes it holds."""
    held, since = queued(peer, port), time.time()
    while time.time() - since < 2:
        time.sleep(0.2)
        now = queued(peer, port)
        if now != held:
            held, since = now, time.time()
    return held


def fill(stream, piece, most):
    """Sends pieces until `most` bytes went, or nothing goes for 3 s. Returns how many bytes went."""
    stream.settimeout(3)
    sent = 0
    try:
        while sent < most:
            sent += stream.send(piece)
    except TimeoutError:
        pass
    return sent


def drain(stream):
    """Reads to the end."""
    while True:
        try:
            if not stream.recv(65536):
                return
        except TimeoutError:
            pass
        except OSError:
            return


def end(is_well):
    """Ends with status 0 where all is well, and 1 where the fault is there, whatever threads still do."""
    sys.stdout.flush()
    os._exit(0 if is_well else 1)
