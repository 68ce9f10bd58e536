"""The sockets of a process, as the system knows them."""
import contextlib
import ctypes
import errno
import os
import shutil
import socket
import subprocess

from world import NotTried

KEEPALIVE = "02"

# The flag of `unshare` for a network of one's own.
NEW_NETWORK = 0x40000000

# The system call that shares a descriptor of another process (Linux 5.6).
PIDFD_GETFD = 438


def shared(process, descriptor):
    """A copy of this descriptor of another process."""
    copied = ctypes.CDLL(None, use_errno=True).syscall(PIDFD_GETFD, process, descriptor, 0)
    if copied < 0:
        if ctypes.get_errno() in (errno.EPERM, errno.ENOSYS):
            raise NotTried("this machine does not share the sockets of a process")
        raise OSError(ctypes.get_errno(), f"descriptor {descriptor} cannot be shared")
    return copied


def sockets_of(number):
    """The sockets of the process with this number, which are shared with it; one that it closes just now is left out."""
    process = os.pidfd_open(number)
    sockets = []
    for name in os.listdir(f"/proc/{number}/fd"):
        with contextlib.suppress(OSError):
            if os.readlink(f"/proc/{number}/fd/{name}").startswith("socket:"):
                sockets.append(socket.socket(fileno=shared(process, int(name))))
    os.close(process)
    return sockets


def row_of(here, there):
    """What the system says of the connection from this port of the machine to that one."""
    with open("/proc/net/tcp", encoding="ascii") as file:
        for fields in map(str.split, file):
            if fields[1].endswith(f":{here:04X}") and fields[2].endswith(f":{there:04X}"):
                return fields
    return None


def probed_in(here, there):
    """In how many seconds keepalive probes the peer of this connection; None if it does not."""
    row = row_of(here, there)
    timer, ticks = row[5].split(":") if row else ("", "")
    return int(ticks, 16) / os.sysconf("SC_CLK_TCK") if timer == KEEPALIVE else None


def unread(here, there):
    """How many bytes have come at this end of a connection that nobody has read."""
    row = row_of(here, there)
    return int(row[4].split(":")[1], 16) if row else 0


def enter_own_network(*addresses):
    """From now on this process, and what it starts, have a network of their own, whose loopback has these addresses of IPv6 too."""
    if not shutil.which("ip") or ctypes.CDLL(None, use_errno=True).unshare(NEW_NETWORK) < 0:
        raise NotTried("this machine gives a process no network of its own")
    for words in ["link set lo up", *(f"-6 address add {it}/128 dev lo" for it in addresses)]:
        if subprocess.run(["ip", *words.split()], check=False, capture_output=True).returncode != 0:
            raise NotTried(f"this machine has no `ip {words}`")
