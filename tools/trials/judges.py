"""What tools of their own judge: the packages, each call for memory refused in turn, and the library for C."""
import html
import os
import re
import subprocess

import basics
from world import Failed, NotTried, case, expect, expect_same


def judged(tool, *words, tries=1):
    """The tool finds nothing wrong, at one of so many tries."""
    for _ in range(tries):
        run = subprocess.run([os.path.join(basics.TOP, "tools", tool), *words], stdout=subprocess.PIPE, stderr=subprocess.STDOUT, text=True,
                             check=False)
        if run.returncode == 2:
            raise NotTried(run.stdout.strip().rpartition("\n")[2])
        if run.returncode == 0:
            return
    raise Failed(run.stdout)


@case(long=True, seconds=1_800)
def the_packages_are_as_the_pages_say(world):
    # The prover's own record of what it proved is another than that of tools/prove, so tools/release/try-package gets --unproved.
    # A session in it may take too long on a machine that is busy just then, so it has a second try.
    judged("release/try-package", "--unproved", "-p", world.program, tries=2)


@case(seconds=300)
def each_call_for_memory_may_be_refused(world):
    judged("gate/refuse-each", world.program)


LADDER = """0.000 < IAC DO LINEMODE
0.001 > IAC WILL LINEMODE
0.002 < IAC SB LINEMODE MODE EDIT
0.003 > IAC SB LINEMODE MODE EDIT ACK
0.004 < IAC DONT LINEMODE
0.005 > IAC WONT LINEMODE
0.006 > data "a"
0.007 > data "b"
"""


@case
def a_ladder_draws_editing_until_linemode_ends(world):
    run = subprocess.run([os.path.join(basics.TOP, "libexec/ladder")], input=LADDER, capture_output=True, text=True, check=True)
    bands = [(int(x), int(stop)) for x, stop in re.findall(r'd="M(\d+) \d+V(\d+)" class="edits"', run.stdout)]
    foot = int(re.search(r'd="M170 34V(\d+)"', run.stdout)[1])
    expect_same(2, len(bands), "how many ends edit, or take bytes as edited")
    expect(all(stop < foot - 50 for _, stop in bands), f"the bands {bands} go on to the foot at {foot}")


@case
def a_drawn_session_rests_on_its_last_frame(world):
    judged("release/pictures", "-n", "session", world.program)
    with open(os.path.join(basics.TOP, "docs/pictures/session.svg"), encoding="utf-8") as file:
        drawn = file.read()
    marks = [(kind.split(), html.unescape(text)) for kind, text in re.findall(r'<text [^>]*class="([^"]*)"[^>]*>([^<]*)</text>', drawn)]
    still = [text for kind, text in marks if "code" in kind and ("f" not in kind or "z" in kind)][4:]
    expect_same(["hello", "hello", '> data "hello"', "> newline", '< data "hello"', "< newline"], still, "what is seen without motion")
    expect('> data "h"' in [text for _, text in marks], "wanted a key that goes by itself")
    expect("@media (prefers-reduced-motion: reduce) {\n.f { animation: none }" in drawn, "wanted no motion if none is wanted")


@case(long=True, seconds=1_800)
def the_library_for_c_works(world):
    if not os.path.exists(os.path.join(basics.TOP, "out", "libtn.a")):
        raise NotTried("there is no library in out/: tools/c/build builds it")
    judged("c/check", world.program)
