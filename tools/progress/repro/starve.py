#!/usr/bin/env python3
"""How often is a key passed by the flood of its own service?

    starve.py PROGRAM [KEYS [READ_SIZE PAUSE_MS [MOST]]]

A service of `tn serve --to` writes lines without end. Its user reads READ_SIZE bytes every PAUSE_MS (65536 and 0: as fast as it
can), types KEYS keys (50), one after another, and waits for the echo of each among the flood. What both sockets held before the
key is not counted: the rest passed it in the session, which has credits for 32 mails of 1,024 bytes. Status 0 where no key is passed
by more than MOST mails (48), 1 where one is. It wants a quiet machine: where processors are busy, the thread that reads is late.
"""
import socket
import statistics
import subprocess
import threading
import time

from common import end, free_port, queued, words_of

MAIL = 1024


def main():
    program, keys, size, pause, most = words_of(__doc__, keys=50, size=65_536, pause=0.0, most=48)
    listener, port = socket.create_server(("127.0.0.1", 0)), free_port()
    to = "127.0.0.1:%d" % listener.getsockname()[1]
    server = subprocess.Popen([program, "serve", "--port", str(port), "--to", to], stderr=subprocess.DEVNULL)
    try:
        time.sleep(0.7)
        user = socket.socket()
        user.setsockopt(socket.SOL_SOCKET, socket.SO_RCVBUF, 8192)
        user.connect(("127.0.0.1", port))
        service, _ = listener.accept()

        def flood():
            try:
                while True:
                    service.sendall(b"." * (MAIL - 1) + b"\n")
            except OSError:
                pass

        threading.Thread(target=flood, daemon=True).start()
        user.setsockopt(socket.IPPROTO_TCP, socket.TCP_NODELAY, 1)
        user.sendall(b"\xff\xfd\x01\xff\xfd\x03")  # it lets the server echo, and say no GA
        began = time.time()
        while time.time() - began < 2:
            user.recv(size)
            time.sleep(pause / 1000)
        passed, waits = [], []
        for _ in range(keys):
            held = queued(port, user.getsockname()[1])
            user.sendall(b"K\x7f")
            began, seen = time.time(), 0
            while True:
                piece = user.recv(size)
                if not piece:
                    raise SystemExit("the session ended")
                place = piece.find(b"K")
                if place >= 0:
                    break
                seen += len(piece)
                time.sleep(pause / 1000)
            passed.append(max(0, seen + place - held) // MAIL)
            waits.append(time.time() - began)
    finally:
        server.kill()
    starves = max(passed) > most
    print(f"{keys} keys, each passed by so many mails: least {min(passed)}, median {statistics.median(passed):.0f}, "
          f"most {max(passed)}; seconds: median {statistics.median(waits):.2f}, most {max(waits):.2f}"
          + (f": more than {most} passed one" if starves else ""))
    end(not starves)


main()
