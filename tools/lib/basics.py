"""What the tools in Python share."""
import argparse
import os
import re
import socket
import subprocess
import sys
import time

TOP = os.path.dirname(os.path.dirname(os.path.dirname(os.path.realpath(__file__))))
PROGRAM = os.path.join(TOP, "crates", "tn", "out", "tn")
LISTENS = "0A"


def give_up(text):
    """Ends the tool with status 2."""
    print(f"{os.path.basename(sys.argv[0])}: {text}", file=sys.stderr)
    sys.exit(2)


class Words(argparse.ArgumentParser):
    """The words of a command line: help is the comment at the head of the tool, and a word that it does not know ends it with status 2."""

    def __init__(self, head):
        super().__init__()
        self.head = head

    def format_help(self):
        return self.head.strip() + "\n"

    def error(self, message):
        give_up(f"{message}; --help says what it takes")


def is_tn(program):
    """Whether this program is a `tn` that runs here."""
    try:
        run = subprocess.run([program, "local"], input=b"a\r", capture_output=True, timeout=20)
    except (OSError, subprocess.TimeoutExpired):
        return False
    return run.stdout == b"text 610a\n"


def checked_program(path=PROGRAM):
    """The path of a built `tn`; ends the tool where there is none."""
    if not os.path.exists(path):
        give_up(f"there is no program {path}: ./tn builds it, or name another one")
    if not is_tn(path):
        give_up(f"{path} is no tn that runs here")
    return os.path.realpath(path)


def free_port():
    with socket.socket() as free:
        free.bind(("127.0.0.1", 0))
        return free.getsockname()[1]


def is_listened_to(port):
    wanted = f":{port:04X}"
    for table in ("/proc/net/tcp", "/proc/net/tcp6"):
        if os.path.exists(table):
            with open(table, encoding="ascii") as file:
                rows = [line.split() for line in file]
            if any(row[1].endswith(wanted) and row[3] == LISTENS for row in rows):
                return True
    return False


def wait_for_port(port, process=None, seconds=60):
    """Waits until somebody listens to a port; ends the tool where nobody does in time, or the process that is to do it has ended."""
    deadline = time.monotonic() + seconds
    while not is_listened_to(port):
        if time.monotonic() > deadline or (process is not None and process.poll() is not None):
            give_up(f"nothing listens on port {port}")
        time.sleep(0.02)


def timed_runs():
    """The first line of docs/first-run.txt, and the run of each crate: its name, when it began and ended, in minutes, and its processors."""
    with open(os.path.join(TOP, "docs", "first-run.txt"), encoding="utf-8") as file:
        head = file.readline().strip()
        rows = re.findall(r"^(\w+): ([0-9.]+) to ([0-9.]+) minutes, by (\d+)$", file.read(), re.M)
    return head, [(name, float(began), float(ended), int(jobs)) for name, began, ended, jobs in rows]
