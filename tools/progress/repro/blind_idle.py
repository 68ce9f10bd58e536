#!/usr/bin/env python3
"""A client that has sent lines, reads nothing and is silent: does `tn serve --idle 2` let it go?

    blind_idle.py PROGRAM [SECONDS]

The client sends lines until nothing more goes. The server has room for one session (--limit 1). Status 0 where another client gets a
session within SECONDS (12), 1 where all that try are told `full`.
"""
import socket
import subprocess
import time

from common import end, fill, free_port, places, settle, words_of


def gets_session(port):
    with socket.create_connection(("127.0.0.1", port)) as client:
        client.settimeout(3)
        try:
            return not client.recv(100).startswith(b"full")
        except TimeoutError:
            return False


def main():
    program, limit = words_of(__doc__, limit=12.0)
    port = free_port()
    server = subprocess.Popen([program, "serve", "--port", str(port), "--limit", "1", "--count", "1000", "--idle", "2"],
                              stderr=subprocess.DEVNULL)
    try:
        time.sleep(0.7)
        client = socket.create_connection(("127.0.0.1", port))
        sent = fill(client, (b"x" * 60 + b"\r\0") * 100, 100_000_000)
        held = settle(port, client.getsockname()[1])
        print(f"the client sent {sent} bytes, of which {held} are not read, and read none", flush=True)
        began, is_well = time.time(), False
        while not is_well and time.time() - began < limit:
            time.sleep(1)
            is_well = gets_session(port)
        print(f"{time.time() - began:.0f} s later the session "
              + ("has ended" if is_well else f"still runs; its threads wait in {places(server)}"))
    finally:
        server.kill()
    end(is_well)


main()
