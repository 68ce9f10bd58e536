#!/usr/bin/env python3
"""A client whose thread that reads the network finds no memory: does `tn connect` end, though nobody types?

    no_memory.py PROGRAM [SECONDS]

The program runs with fail_malloc.c, which cc builds, loaded before its C library. The server says a word, and then the memory for
the client's next piece is refused. Status 0 where the client ends within SECONDS (10) after the server has closed, 1 where it does
not, 2 where no memory was refused: PROGRAM has to use malloc of a C library that is loaded.
"""
import os
import socket
import subprocess
import sys
import tempfile
import time

from common import end, words_of


def main():
    program, limit = words_of(__doc__, limit=10.0)
    listener = socket.create_server(("127.0.0.1", 0))
    with tempfile.TemporaryDirectory() as folder:
        shim, trigger, told = (os.path.join(folder, name) for name in ("fail_malloc.so", "now", "failed"))
        source = os.path.join(os.path.dirname(os.path.abspath(__file__)), "fail_malloc.c")
        subprocess.run(["cc", "-shared", "-fPIC", "-O2", "-o", shim, source, "-ldl"], check=True)
        client = subprocess.Popen([program, "connect", "--port", str(listener.getsockname()[1])], stdin=subprocess.PIPE,
                                  stdout=subprocess.DEVNULL, stderr=subprocess.DEVNULL,
                                  env={**os.environ, "LD_PRELOAD": shim, "FAIL_IF": trigger, "FAILED": told})
        try:
            server, _ = listener.accept()
            server.sendall(b"hello\r\n")
            time.sleep(0.5)
            open(trigger, "w").close()
            server.sendall(b"more\r\n")
            time.sleep(1)
            server.close()
            began = time.time()
            try:
                client.wait(limit)
                is_well = True
            except subprocess.TimeoutExpired:
                is_well = False
            if not os.path.exists(told):
                print("no memory was refused", file=sys.stderr)
                sys.exit(2)
            print(f"{time.time() - began:.1f} s after the server had closed the client "
                  + ("has ended" if is_well else "still runs"))
        finally:
            client.kill()
    end(is_well)


main()
