#!/usr/bin/env python3
"""A line service that reads nothing, and a user who has pasted lines and leaves: does the session end?

    hung_service.py PROGRAM [MEGABYTES [SECONDS]]

A user of `tn serve --to --idle 3` pastes MEGABYTES (5) of lines, or as many as go, and closes. The service stays and reads nothing. What
the user sent fills the connection, so that its end is not seen. Status 0 where the session ends within SECONDS (12), 1 where it does not.
"""
import socket
import subprocess
import threading
import time

from common import drain, end, fill, free_port, narrow_listener, places, settle, words_of


def main():
    program, megabytes, limit = words_of(__doc__, megabytes=5.0, limit=12.0)
    listener, port = narrow_listener(), free_port()
    to = "127.0.0.1:%d" % listener.getsockname()[1]
    server = subprocess.Popen([program, "serve", "--port", str(port), "--to", to, "--idle", "3", "--verbose"], stderr=subprocess.PIPE,
                              text=True)
    try:
        ended = threading.Event()

        def watch():
            for line in server.stderr:
                if "session 0 " in line and " ended: " in line:
                    ended.set()

        threading.Thread(target=watch, daemon=True).start()
        time.sleep(0.7)
        user = socket.create_connection(("127.0.0.1", port))
        service, _ = listener.accept()

        threading.Thread(target=drain, args=(user,), daemon=True).start()
        sent = fill(user, (b"y" * 200 + b"\r\0") * 10, megabytes * 1_000_000)
        held = settle(port, user.getsockname()[1])
        print(f"the user sent {sent} bytes, of which {held} are not read", flush=True)
        began = time.time()
        user.shutdown(socket.SHUT_RDWR)
        user.close()
        is_well = ended.wait(limit)
        print(f"the user closed: {time.time() - began:.1f} s later the session "
              + ("has ended" if is_well else f"still runs; its threads wait in {places(server)}"))
        service.close()
    finally:
        server.kill()
    end(is_well)


main()
