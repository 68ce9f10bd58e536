#!/usr/bin/env python3
"""probe.py HOST PORT: prints what a Telnet server asks for in its first two seconds, by tn.py.

    LIBTN=out/libtn.so.2 examples/python/probe.py 127.0.0.1 23
"""
import socket
import sys
import time

import tn

VERBS = {251: "offers", 252: "refuses", 253: "asks for", 254: "forbids"}
OPTIONS = {1: "ECHO", 3: "SUPPRESS-GO-AHEAD", 24: "TERMINAL-TYPE", 31: "NAWS", 34: "LINEMODE"}


def line_of(item, parameters):
    option = OPTIONS.get(item.option, f"option {item.option}")
    if item.kind == tn.WORD:
        return f"{VERBS[item.code]} {option}"
    if item.kind == tn.SUBNEGOTIATION:
        return f"says on {option}: {parameters.hex(' ')}"
    if item.kind == tn.COMMAND:
        return f"command {item.code}"
    return None


def main():
    if len(sys.argv) != 3:
        sys.exit("probe.py HOST PORT")
    host, port = sys.argv[1], int(sys.argv[2])
    stop = time.monotonic() + 2
    with tn.Decoder() as decoder, socket.create_connection((host, port)) as connection:
        while (left := stop - time.monotonic()) > 0:
            connection.settimeout(left)
            try:
                piece = connection.recv(4096)
            except OSError:  # nothing came in time, or the server is gone
                break
            if not piece:
                break
            for item, parameters in decoder.items(piece):
                if line := line_of(item, parameters):
                    print(line, flush=True)


main()
