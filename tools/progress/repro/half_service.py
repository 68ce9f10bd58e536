#!/usr/bin/env python3
"""A line service that reads nothing and ends what it says: is the user hung up?

    half_service.py PROGRAM [MEGABYTES [SECONDS]]

A user of `tn serve --to` pastes MEGABYTES (5) of lines, or as many as go, stays, and reads. Then the service ends what it says,
and still reads nothing. Status 0 where the user's connection ends within SECONDS (12), 1 where it does not.
"""
import socket
import subprocess
import threading
import time

from common import drain, end, fill, free_port, narrow_listener, queued, settle, words_of


def main():
    program, megabytes, limit = words_of(__doc__, megabytes=5.0, limit=12.0)
    listener, port = narrow_listener(), free_port()
    to = "127.0.0.1:%d" % listener.getsockname()[1]
    server = subprocess.Popen([program, "serve", "--port", str(port), "--to", to], stderr=subprocess.DEVNULL)
    try:
        time.sleep(0.7)
        user = socket.create_connection(("127.0.0.1", port))
        service, _ = listener.accept()
        hung_up = threading.Event()

        def read_all():
            drain(user)
            hung_up.set()

        threading.Thread(target=read_all, daemon=True).start()
        sent = fill(user, (b"y" * 200 + b"\r\0") * 10, megabytes * 1_000_000)
        held = settle(port, user.getsockname()[1])
        same = 0
        while same < 10:  # a segment that Linux takes off its fast path lets the gateway's send buffer grow, as the last one would
            before = held
            service.send(b".", socket.MSG_OOB)
            time.sleep(0.2)
            held = queued(user.getsockname()[1], port)
            same = same + 1 if held == before else 0
        print(f"the user sent {sent} bytes, of which {held} are not read", flush=True)
        began = time.time()
        service.shutdown(socket.SHUT_WR)
        is_well = hung_up.wait(limit)
        print(f"the service ended what it says: {time.time() - began:.1f} s later the user "
              + ("was hung up" if is_well else "is not hung up"))
    finally:
        server.kill()
    end(is_well)


main()
