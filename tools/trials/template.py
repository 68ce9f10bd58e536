"""A service of one's own, which tools/new-service makes in a copy of the repository."""
import os
import re
import shutil
import subprocess

import basics
from ends import DO, IAC, IP, NAWS, NO_GO_AHEAD, Peer, SB, SE, WILL
from world import case, expect, expect_in_order, expect_same, free_port, wait_until

# How many seconds a program may take to be built.
BUILDING = 1_200


def copied(world):
    top = world.path("copy")
    shutil.copytree(basics.TOP, top, ignore=shutil.ignore_patterns("out", ".git", "__pycache__"))
    return top


def made(top, name):
    """What tools/new-service of the copy says and changes."""
    run = subprocess.run([f"{top}/tools/new-service", name], capture_output=True, text=True, check=False)
    return run.returncode, run.stdout + run.stderr


def lists_of(top):
    texts = []
    for path in ("crates.txt", "crates/README.md"):
        with open(f"{top}/{path}", encoding="utf-8") as file:
            texts.append(file.read())
    return texts


@case(each={"taken": ("tn_serve", "there is a crate tn_serve already"), "of the kit": ("log", "there is a crate log already"),
            "not one": ("My-service", "My-service is no name of a crate")})
def a_name_that_no_service_can_have_is_refused(world, name, why):
    top = copied(world)
    before = lists_of(top), sorted(os.listdir(f"{top}/crates"))
    status, said = made(top, name)
    expect_same(2, status, "the status of tools/new-service")
    expect(said.startswith(f"new-service: {why}"), f"it says {said!r}")
    expect_same(before, (lists_of(top), sorted(os.listdir(f"{top}/crates"))), "the crates")


@case(long=True, seconds=BUILDING + 300, wants=["rt"])
def a_service_from_the_template_answers(world):
    top = copied(world)
    before = lists_of(top)
    expect_same((0, ""), made(top, "my_service"), "what tools/new-service returns")
    for old, new in zip(before, lists_of(top)):
        last = re.search(".*tn_example_service.*\n", old)[0]
        expect_same(old + last.replace("tn_example_service", "my_service"), new, "the list of crates")
    subprocess.run([f"{top}/tools/build-unproved", "-c", "my_service"], check=True, timeout=BUILDING)
    program = f"{top}/crates/my_service/out/unproved/my_service"
    usage = subprocess.run([program], capture_output=True, check=False)
    expect_same((2, b"usage: my_service PORT\n"), (usage.returncode, usage.stdout), "a run without a port")
    port = free_port()
    world.start(program, port)
    wait_until(lambda: basics.is_listened_to(port), "the service listens")
    for name in (b"ada", b"grace"):
        peer = Peer(world, port, name=f"the peer {name.decode()} got").is_served()
        peer.read_until(b"name?\r\n")
        peer.send(name + b"\r\nsecret\r\n\4")
        expect_in_order(peer.read_to_end(), b"name?\r\npassword: \r\nhello, " + name + b"\r\n", b"bye\r\n")
    hides_a_password_and_knows_the_window(world, port)


def hides_a_password_and_knows_the_window(world, port):
    agreed = NO_GO_AHEAD + bytes([IAC, DO, 1, IAC, WILL, NAWS, IAC, SB, NAWS, 0, 100, 0, 30, IAC, SE])
    peer = Peer(world, port, opening=agreed, name="the peer with an echo got")
    peer.is_served().read_until(b"name?\r\n")
    peer.send(b"ada\r\n")
    peer.read_until(b"ada\r\npassword: ")
    peer.send(b"secret\r\n")
    peer.read_until(b"password: \r\nhello, ada\r\n")
    peer.send(b"shown" + bytes([IAC, IP]))
    peer.read_until(b"hello, ada\r\nshown", b"\r\n100 columns, 30 lines\r\nname?\r\n")
    peer.send(b"\25\4")
    expect(b"secret" not in peer.read_to_end(), "the password is not echoed")
