"""Much that is pasted into sessions: every line is answered, once and in order."""
from ends import NO_GO_AHEAD, Peer, Relay, Serving, User
from world import case, expect, expect_same

LONG = {"long": True, "seconds": 3_600}


def keys(count):
    return b"".join(b"line %07d\r" % n for n in range(count)) + b"exit\r"


def line(n):
    return b"line %07d\r\n" % n


def echo_of(count):
    return b"".join(map(line, range(count))) + b"exit\r\n"


def expect_whole_answers(screen, count):
    """The screen has each answer, in order, and then the job's farewell, between the echo of the keys: an answer is never cut, and comes
    after its own echo."""
    echo = echo_of(count)
    size = len(line(0))
    at = echoed = 0
    for n in range(count):
        answer = line(n)
        at_least = max(0, size * (n + 1) - echoed)
        found = screen.find(answer, at + at_least)
        expect(found >= 0 and screen[at:found] == echo[echoed:echoed + found - at],
               f"the answer to line {n} is missing, or the echo before it is not whole")
        echoed += found - at
        at = found + size
    expect_same(echo[echoed:] + b"bye\r\n", screen[at:], "the end")


def expect_cut_answers(screen, count):
    """The same if an answer may be cut by echo: the screen is some weaving of the two."""
    echo = echo_of(count)
    answers = b"".join(map(line, range(count))) + b"bye\r\n"
    expect_same(len(echo) + len(answers), len(screen), "the length of the screen")
    echoed = {0}
    for at, byte in enumerate(screen):
        later = {here + 1 for here in echoed if here < len(echo) and echo[here] == byte}
        later |= {here for here in echoed if at - here < len(answers) and answers[at - here] == byte}
        echoed = later
        expect(echoed, f"byte {at} is neither echo nor answer")


def pasted(world, port, count, edits):
    """The screen of a user who pastes so many lines once it is agreed who edits."""
    user = User(world, port, edits=edits)
    user.type(keys(count))
    return user.end()


@case(**LONG, each={"60,000": (60_000,)})
@case(each={"2,000": (2_000,)})
def a_peer_that_reads_late_gets_each_answer(world, count):
    serving = Serving(world)
    peer = Peer(world, serving.port, opening=NO_GO_AHEAD)
    peer.send(keys(count).replace(b"\r", b"\r\0"))
    expect_same(b"".join(map(line, range(count))) + b"bye\r\n", peer.read_to_end(), "what the peer got")
    serving.end()


@case(**LONG, each={"1,000,000": (1_000_000,)})
@case(each={"2,000": (2_000,)})
def each_line_of_a_paste_is_answered_by_a_server_that_edits(world, count):
    serving = Serving(world)
    expect_whole_answers(pasted(world, serving.port, count, "server"), count)
    serving.end()


@case(**LONG, each={"100,000": (100_000,)})
@case(each={"2,000": (2_000,)})
def each_line_of_a_paste_is_answered_if_the_client_edits(world, count):
    serving = Serving(world, "--local")
    expect_cut_answers(pasted(world, serving.port, count, "client"), count)
    serving.end()


@case(**LONG, each={"3,571,428": (3_571_428,)})
@case(each={"2,000": (2_000,)})
def each_line_is_answered_through_small_buffers(world, count):
    serving = Serving(world)
    expect_whole_answers(pasted(world, Relay(serving.port, buffers=4_096).port, count, "server"), count)
    serving.end()
