"""Which address and which port `tn connect` reaches: families, addresses of this machine, addresses in turn, ports by name, and hosts
of the user's own file.

Files of this machine, as /etc/hosts, are put in place of by a namespace of mounts of its own (`unshare`)."""
import os
import re
import select
import shlex
import socket
import subprocess
import termios
import threading
import time

import basics
from ends import DO, IAC, NAWS, Listener, filled, size
from terminal import Terminal
from world import PATIENCE, NotTried, case, expect, expect_same, wait_until

# The files that a name of a host, and one of a service, are looked up in.
HOSTS, SERVICES = "/etc/hosts", "/etc/services"


def with_files(world, files):
    """The words before a command that sees these texts in place of files of this machine."""
    binds = []
    for path, text in files.items():
        own = world.path(os.path.basename(path))
        with open(own, "w", encoding="utf-8") as file:
            file.write(text)
        binds.append(f"mount --bind {shlex.quote(own)} {path}")
    before = ["unshare", "--map-root-user", "--mount", "bash", "-c", f'{" && ".join(binds)} && exec "$@"', "bash"]
    if subprocess.run([*before, "true"], capture_output=True, check=False).returncode != 0:
        raise NotTried("it can make no namespaces here")
    return before


def run_with(world, files, *words):
    """Runs `tn connect` to its end, where these files are others."""
    command = [*with_files(world, files), world.program, "connect", *map(str, words)]
    return subprocess.run(command, input=b"", capture_output=True, check=False, timeout=2 * PATIENCE)


def outcome(run):
    return run.returncode, run.stdout, run.stderr


class Answering:
    """A server at an address that shows a text to each client, with the client's address, and hangs up."""

    def __init__(self, address, port=0):
        family = socket.AF_INET6 if ":" in address else socket.AF_INET
        self.socket = socket.socket(family)
        if family == socket.AF_INET6:
            self.socket.setsockopt(socket.IPPROTO_IPV6, socket.IPV6_V6ONLY, 1)
        self.address = address
        self.socket.bind((address, port))
        self.socket.listen(5)
        self.port = self.socket.getsockname()[1]

    def answer(self):
        """Serves one client, that has come or comes."""
        connection, peer = self.socket.accept()
        connection.sendall(f"{peer[0]} at {self.address}\r\n".encode())
        connection.close()

    def came(self):
        return select.select([self.socket], [], [], 0)[0] != []


def talk(world, server, *words, before=()):
    """A client that is served by this server: its status and what it shows and prints."""
    process = subprocess.Popen([*before, world.program, "connect", *map(str, words)], stdin=subprocess.DEVNULL,
                               stdout=subprocess.PIPE, stderr=subprocess.PIPE)
    server.socket.settimeout(PATIENCE)
    server.answer()
    shown, printed = process.communicate(timeout=PATIENCE)
    return process.returncode, shown, printed


@case(each={"by Telnet": (), "by lines": ("--plain",)})
def a_connection_comes_from_the_address_that_is_asked_for(world, *words):
    server = Answering("127.0.0.1")
    expect_same((0, b"127.0.0.7 at 127.0.0.1\r\n", b""), talk(world, server, *words, "--bind", "127.0.0.7", "127.0.0.1", server.port),
                "the status, what is shown, and what is printed")


@case
def an_address_that_is_none_of_this_machine_is_reported(world):
    server = Answering("127.0.0.1")
    run = world.run("connect", "--bind", "192.0.2.1", f"127.0.0.1:{server.port}", timeout=PATIENCE)
    expect_same((1, b"", f"tn: network\ntn: 127.0.0.1:{server.port} from 192.0.2.1: Cannot assign requested address (os error 99)\n".encode()),
                outcome(run), "the status, what is shown, and what is printed")


@case(each={"-4 -6": (("-4", "-6"), b"'-4' and '-6' exclude each other"),
            "no address": (("--bind", "here"), b"invalid value 'here' for '--bind <ADDRESS>': it is no address of IPv4 or IPv6")})
def words_that_choose_no_address_are_refused(world, words, why):
    run = world.run("connect", *words, "127.0.0.1", timeout=PATIENCE)
    expect_same((2, b"tn: usage\nerror: " + why + b"\n\nFor more information, try '--help'.\n"), (run.returncode, run.stderr),
                "the status, and what is printed")


@case(wants=("unshare",), each={"-4": ("-4", "127.0.0.1"), "--ipv4": ("--ipv4", "127.0.0.1"), "-6": ("-6", "::1"), "--ipv6": ("--ipv6", "::1"),
                                "--bind": ("--bind=127.0.0.1", "127.0.0.1"), "--bind of IPv6": ("--bind=::1", "::1")})
def only_addresses_of_the_family_are_tried(world, option, address):
    try:
        servers = [Answering("127.0.0.1")]
        servers.append(Answering("::1", servers[0].port))
    except OSError as error:
        raise NotTried(f"no server at both addresses: {error}") from None
    before = with_files(world, {HOSTS: "127.0.0.1 twofold\n::1 twofold\n"})
    wanted, other = sorted(servers, key=lambda server: server.address != address)
    expect_same((0, f"{address} at {address}\r\n".encode(), b""), talk(world, wanted, option, "twofold", wanted.port, before=before),
                "the status, what is shown, and what is printed")
    expect(not other.came(), f"{other.address} was asked too")


@case
def a_host_without_an_address_of_the_family_is_reported(world):
    run = world.run("connect", "-6", "127.0.0.1", timeout=PATIENCE)
    expect_same((1, b"", b"tn: network\ntn: 127.0.0.1: it has no address of the family that is asked for\n"), outcome(run),
                "the status, what is shown, and what is printed")


@case(wants=("unshare",), each={"by Telnet": (), "by lines": ("--plain",), "from an address": ("--bind", "127.0.0.9")})
def the_next_address_is_tried_after_two_seconds(world, *words):
    listener, _waiting = filled(world)
    server = Answering("127.0.0.2", listener.port)
    before = with_files(world, {HOSTS: "127.0.0.1 twofold\n127.0.0.2 twofold\n"})
    begun = time.monotonic()
    status, shown, printed = talk(world, server, *words, "twofold", server.port, before=before)
    took = time.monotonic() - begun
    expect_same((0, b" at 127.0.0.2\r\n", b""), (status, shown[shown.find(b" "):], printed), "the status, what is shown, and what is printed")
    expect(2 <= took < PATIENCE, f"it took {took} s")


@case(wants=("unshare",), each={"its name": ("pikvalde",), "another name": ("other",), "by lines": ("pikvalde", "--plain")})
def a_port_is_found_by_the_name_of_its_service(world, name, *words):
    server = Answering("127.0.0.1")
    services = f"# pikvalde 1/tcp\nothers 2/tcp\npikvalde\t3/udp\npikvalde\t{server.port}/tcp  more other # comment\npikvalde 4/tcp\n"
    status, shown, printed = talk(world, server, *words, "127.0.0.1", name, before=with_files(world, {SERVICES: services}))
    expect_same((0, b"127.0.0.1 at 127.0.0.1\r\n", b""), (status, shown, printed), "the status, what is shown, and what is printed")


@case(wants=("unshare",), each={"by Telnet": (), "by lines": ("--plain",)})
def a_service_that_is_not_known_is_reported(world, *words):
    run = run_with(world, {SERVICES: "pikvalde 7/udp\n#pikvalde 7/tcp\n"}, *words, "127.0.0.1", "pikvalde")
    expect_same((1, b"", b"tn: network\ntn: pikvalde: /etc/services has no TCP service of this name\n"), outcome(run),
                "the status, what is shown, and what is printed")


@case(each={"two ports": (("127.0.0.1:7", "smtp"), b"more than one port is given\n\nUsage: tn connect [OPTIONS] [HOST] [PORT]"),
            "no port": (("127.0.0.1", "7x"), b"invalid value '7x' for '[PORT]': it is no port of 1 to 65535, and no name of a service")})
def words_that_name_no_port_are_refused(world, words, why):
    run = world.run("connect", *words, timeout=PATIENCE)
    expect_same((2, b"tn: usage\nerror: " + why + b"\n\nFor more information, try '--help'.\n"), (run.returncode, run.stderr),
                "the status, and what is printed")


def hosts_file(world, text, folder="home/.config"):
    """The environment of a user who has this file of hosts."""
    path = world.path(f"{folder}/tn/hosts")
    os.makedirs(os.path.dirname(path))
    with open(path, "w", encoding="utf-8") as file:
        file.write(text)
    return {"HOME": world.path("home"), "XDG_CONFIG_HOME": world.path("settings") if folder == "settings" else ""}, path


def named(world, text, *words, folder="home/.config"):
    """A run of `tn connect` by a user who has this file, in which PORT is that of a server: its status, what is shown and printed."""
    server = Answering("127.0.0.1")
    variables, _ = hosts_file(world, text.replace("PORT", str(server.port)), folder)
    words = [str(word).replace("PORT", str(server.port)) for word in words]
    process = subprocess.Popen([world.program, "connect", *words], stdin=subprocess.DEVNULL, stdout=subprocess.PIPE, stderr=subprocess.PIPE,
                               env={**os.environ, **variables})
    threading.Thread(target=server.answer, daemon=True).start()
    shown, printed = process.communicate(timeout=2 * PATIENCE)
    return process.returncode, shown, printed


@case(each={"in HOME": ('[router1]\nhost = "127.0.0.1"\nport = PORT\n', "router1"),
            "in XDG_CONFIG_HOME": ('[router1]\nhost = "127.0.0.1"\nport = PORT\n', "router1", "settings"),
            "by the name of the host": ("# one\n[a]\nport = 1\n\n[localhost]\nport = PORT\nipv4 = true\n", "localhost"),
            "behind another": ('[router10]\nport = 1\n[router1]\nport = PORT\nhost = "127.0.0.1"\n', "router1"),
            "with signs": ('["router 1"]\nport = PORT\nhost = "127.0.0.1"\n', "router 1"),
            "in one line": ('router1 = { host = "127.0.0.1", port = PORT }\n', "router1"),
            "with options": ('[router1]\nhost = "127.0.0.1"\nport = PORT\nreturn = "crlf"\nescape = "^A"\nkeys = "own"\nline = 300\nwidth = 9\n'
                             'timeout = 7\nq = 0\nw = 30\nquiet = true\nipv6 = false\n', "router1")})
def a_host_of_the_file_stands_for_what_it_says(world, text, name, folder="home/.config"):
    expect_same((0, b"127.0.0.1 at 127.0.0.1\r\n", b""), named(world, text, name, folder=folder), "the status, what is shown, and what is printed")


@case
def options_of_the_file_have_their_effect(world):
    trace, log = world.path("trace"), world.path("log")
    text = f'[router1]\nhost = "127.0.0.1"\nport = PORT\ntrace = "{trace}"\nlog = "{log}"\nbind = "127.0.0.7"\n'
    expect_same((0, b"127.0.0.7 at 127.0.0.1\r\n", b""), named(world, text, "router1"), "the status, what is shown, and what is printed")
    for path in (trace, log):
        expect(os.path.getsize(path) > 0, f"{path} is empty")


@case(each={"PORT": ("router1", "PORT"), "--port": ("--port", "PORT", "router1"), "--port=": ("router1", "--port=PORT"), "-p": ("-pPORT", "router1"),
            "letters": ("-4p", "PORT", "router1"), "within HOST": ("router1:PORT",), "behind a dash": ("-4", "--", "router1", "PORT"),
            "other options": ("--trace=/dev/null", "--log", "/dev/null", "-q", "0", "--quiet", "router1", "PORT", "-w9")})
def a_word_of_the_user_wins_over_the_file(world, *words):
    text = '[router1]\nhost = "127.0.0.1"\nport = 1\nlog = "/no/such/folder/x"\n'
    words = words if "--log" in words else (*words[:1], "--log=/dev/null", *words[1:]) if words[0] == "router1" else ("--log=/dev/null", *words)
    expect_same((0, b"127.0.0.1 at 127.0.0.1\r\n", b""), named(world, text, *words), "the status, what is shown, and what is printed")


@case(each={"-4": ("ipv6 = true", "-4"), "--plain": ('escape = "^A"\nwidth = 7', "--plain"), "--return": ("plain = true\nlf = true", "--return", "crlf"),
            "--cr": ("lf = true\nplain = true", "--cr")})
def what_the_user_excludes_of_the_file_is_left_out(world, lines, *words):
    text = f'[router1]\nhost = "127.0.0.1"\nport = PORT\n{lines}\n'
    expect_same((0, b"127.0.0.1 at 127.0.0.1\r\n", b""), named(world, text, *words, "router1"), "the status, what is shown, and what is printed")


@case
def each_option_without_a_value_may_stand_before_a_host_of_the_file(world):
    listed = world.run("connect", "--help").stdout.decode()
    flags = [flag for flag in re.findall(r"^ +(?:-\w, )?(--[\w-]+)(?: *$|  )", listed, re.M) if flag != "--help"]
    expect({"--ipv4", "--quiet", "--plain"} <= set(flags), f"the help lists {flags}")
    variables, _ = hosts_file(world, '[router1]\nhost = "192.0.2.7"\n')
    for flag in flags:
        run = world.run("connect", "--expand", flag, "router1", env={**os.environ, **variables})
        expect_same((0, f"connect\0{flag}\x00192.0.2.7\0".encode()), (run.returncode, run.stdout), f"the status, and the words with {flag}")


ROUTER = '[router0]\nretrun = 1\n\n[router1]\nhost = "127.0.0.1"\n'


@case(each={"no option": (ROUTER + 'retrun = "crlf"\n', 6, b"unexpected argument '--retrun' found"),
            "a value": (ROUTER + 'plain = false\nreturn = "crfl"\n', 7,
                        b"invalid value 'crfl' for '--return <BYTES>': it is none of `crnul`, `crlf` and `lf`"),
            "a port": (ROUTER + "port = 70000\n", 6, b"invalid value '70000' for '[PORT]': it is no port of 1 to 65535, and no name of a service"),
            "a port in the host": ('[router1]\nhost = "127.0.0.1:7"\n', 2, b"more than one port is given"),
            "no text": (ROUTER + "keys = [1]\n", 6, b"a value is a text, a whole number, true or false"),
            "options that exclude each other": (ROUTER + "lf = true\ncr = true\nplain = true\n", 6,
                                                b"'--lf' and '--cr' exclude each other, and need '--plain'"),
            "no table": ("[router0]\nport = 7\n[more]\n[[router1]]\nport = 7\n", 4, b"a host is a table, as [router1]"),
            "a table that is no TOML": (ROUTER + "port = 7\nport = \n[other]\nport = 7\n", 7, None),
            "no TOML": ("Host router1\n  Port 7\n", 1, None)})
def a_mistake_in_the_file_is_reported_with_its_line(world, text, line, why):
    variables, path = hosts_file(world, text)
    for words in ((), ("--expand",)):
        run = world.run("connect", *words, "router1", env={**os.environ, **variables}, timeout=PATIENCE)
        begin = f"tn: usage\ntn: {path}: line {line}: ".encode()
        expect_same((2, b"", begin + (why or run.stderr[len(begin):-1]) + b"\n"), outcome(run), "the status, what is shown, and what is printed")


@case(each={"a table's": ('[other]\nretrun = 7\nport = "x y"\n[router1]\nport = PORT\nhost = "127.0.0.1"\n', "router1", b""),
            "a table's that is no TOML": ('[other]\nport = \nx\n[router1]\nport = PORT\nhost = "127.0.0.1"\n[more]\n]\n', "router1", b""),
            "the whole, for an address": ("Host router1\n  Port 7\n", "127.0.0.1", b"")})
def a_mistake_that_is_not_the_hosts_stops_nothing(world, text, name, printed):
    words = (name,) if name == "router1" else (name, "PORT")
    expect_same((0, b"127.0.0.1 at 127.0.0.1\r\n", printed), named(world, text, *words), "the status, what is shown, and what is printed")


@case(each={"no HOME": ({},), "an empty one": ({"HOME": ""},), "a relative one": ({"HOME": "home", "XDG_CONFIG_HOME": "home/.config"},)})
def without_a_file_words_stand_for_themselves(world, variables):
    hosts_file(world, '[router1]\nhost = "192.0.2.7"\n')
    bare = {name: value for name, value in os.environ.items() if name not in ("HOME", "XDG_CONFIG_HOME")}
    run = world.run("connect", "--expand", "router1", env={**bare, **variables}, cwd=world.folder)
    expect_same((0, b"connect\0router1\0", b""), outcome(run), "the status, what is shown, and what is printed")


def at_terminal_by(world, lines, *words):
    """A server, and a client at a terminal that has connected to it by a host of the file."""
    listener = Listener(world)
    variables, _ = hosts_file(world, f'[router1]\nhost = "127.0.0.1"\nport = {listener.port}\n{lines}\n')
    terminal = Terminal(world, *words, "router1", **variables)
    listener.accept()
    terminal.gets_raw()
    return listener, terminal


@case
def a_terminal_is_set_as_the_file_says(world):
    listener, terminal = at_terminal_by(world, "plain = true\nlf = true")
    terminal.see(b"Connected to 127.0.0.1")
    terminal.type(b"ab\x7fc\r", b"c\r\n")
    listener.read_until(b"ac\n")
    wait_until(lambda: termios.tcgetattr(terminal.slave)[3] & termios.ISIG, "the terminal takes ^Z")
    terminal.type(b"\x03")
    terminal.end(130)


@case(each={"of the file": ((), 77), "of the user": (("--width=66",), 66)})
def a_terminal_has_the_width_of_the_file_unless_the_user_gives_one(world, words, width):
    listener, terminal = at_terminal_by(world, 'width = 77\nquiet = true\nreturn = "crlf"', *words)
    listener.send(bytes([IAC, DO, NAWS]))
    listener.read_until(size(width, 40))
    terminal.type(b"x\r")
    listener.read_until(b"x\r\n")
    terminal.leave()
    expect(b"Connected" not in terminal.shown, "the connection is reported")


@case
def a_mistake_in_the_file_ends_it_at_a_terminal(world):
    variables, path = hosts_file(world, "[router1]\nretrun = 7\n")
    terminal = Terminal(world, "router1", **variables)
    terminal.end(2)
    terminal.see(f"{path}: line 2: unexpected argument '--retrun' found".encode())


@case
def hosts_of_the_file_are_completed(world):
    variables, _ = hosts_file(world, '[router1]\nhost = "a"\n ["router 2"]\n[other.x]\n[routes]\n# [router9]\n')
    script = f"{basics.TOP}/share/completions/tn.bash"
    program = f'. {script}; COMP_WORDS=(tn connect "$1"); COMP_CWORD=2; _tn; printf "%s\\n" "${{COMPREPLY[@]}}"'
    for word, wanted in (("rout", {"router1", "routes"}), ("router1", {"router1"})):
        run = subprocess.run(["bash", "-c", program, "bash", word], env={**os.environ, **variables}, capture_output=True, text=True, check=False)
        expect_same((wanted, ""), (set(run.stdout.split("\n")[:-1]) & {"router1", "router", "routes", "router9", "other.x"}, run.stderr),
                    f"what {word} is completed to, and what is printed")
