"""Sessions with other makers' clients, servers and services, and through tunnels, as docs/INTEROP.md lists them.

What other makers' ends agree on is not seen from here: keys are typed once nothing has been shown for a second.
"""
import contextlib
import os
import re
import shutil
import socket
import subprocess

import basics
from ends import Peer, Relay, Serving, User
from services import Service, instrument, listened, start_redis, start_ser2net, start_smtpd, strict_mail
from terminal import Console, Terminal
from world import NotTried, case, expect, expect_in_order, expect_same, free_port, status_of, wait_until, within

TYPED = [b"helo\x7flo\r", b"\x03", b"exit\r"]


def cleaned(screen):
    """What a screen is left with: no carriage returns, and what was erased is gone."""
    text, before = bytes(screen).replace(b"\r", b"").replace(b"\0", b""), None
    while before != text:
        before, text = text, re.sub(rb"[^\x08]\x08 \x08", b"", text)
    return text


def with_port(words, port):
    return [word.replace("PORT", str(port)) for word in words.split(" ")]


# The name of a row is of a client and of who edits; what is typed, what has to be shown in this order, and the words.
CLIENTS = {
    "telnet-remote": (TYPED, "hello|int|bye|Connection closed", "telnet 127.0.0.1 PORT"),
    "telnet-local": (TYPED, "hello|^Cint|bye|Connection closed", "telnet 127.0.0.1 PORT"),
    "telnet-status-local": ([b"\x1dstatus\r", b"\r", b"exit\r"],
                            "Operating with LINEMODE option|Local line editing|Local catching of signals|bye", "telnet 127.0.0.1 PORT"),
    "plink-remote": (TYPED, "hello|int|bye", "plink -telnet -P PORT 127.0.0.1"),
    "plink-local": (TYPED, "hello|int|bye", "plink -telnet -P PORT 127.0.0.1"),
    "busybox-remote": (TYPED, "Entering character mode|hello|int|bye", "busybox telnet 127.0.0.1 PORT"),
    "busybox-local": (TYPED, "Entering character mode|hello|int|bye", "busybox telnet 127.0.0.1 PORT"),
    "libtelnet-remote": (TYPED, "hello|int|bye", "telnet-client 127.0.0.1 PORT"),
    "libtelnet-local": (TYPED, "hello|int|bye", "telnet-client 127.0.0.1 PORT"),
    "netkit-remote": (TYPED, "hello|hello|int|bye", "telnet-ssl -z nossl 127.0.0.1 PORT"),
    "netkit-local": (TYPED, "hello|hello|^Cint|bye", "telnet-ssl -z nossl 127.0.0.1 PORT")}


def require(words):
    lacking = [word for word in words if not shutil.which(word)]
    if lacking:
        raise NotTried(f"this machine lacks {' '.join(lacking)}")


@case(each={name: (name, *row) for name, row in CLIENTS.items()})
def our_server_has_a_client(world, name, typed, wanted, words):
    require([words.split()[0]])
    serving = Serving(world, *["--local"] * name.endswith("-local"))
    relay = Relay(serving.port)
    console = Console(world, *with_port(words, relay.port))
    for keys in typed:
        relay.settle()
        console.collected.wait_quiet()
        console.type(keys)
    console.collected.wait_for(b"bye")
    serving.end()
    status_of(console.process, words)
    console.catch_up()
    expect_in_order(cleaned(console.shown), *wanted.encode().split(b"|"))


CONSERVER = """config * {{ sslrequired no; }}
default full {{ rw *; }}
access * {{ trusted 127.0.0.1; }}
console ours {{ master localhost; type exec; exec {command}; include full; }}
"""


@case(each={"conserver-remote": (), "conserver-local": ("--local",)})
def our_client_gives_conserver_a_console(world, *words):
    require(["conserver", "console"])
    serving = Serving(world, *words)
    port, settings = free_port(), world.path("conserver.cf")
    command = f"{world.launcher} {world.program} connect --escape none 127.0.0.1 {serving.port}"
    with open(settings, "w", encoding="ascii") as file:
        file.write(CONSERVER.format(command=command))
    world.start("conserver", "-C", settings, "-p", port, "-M", "127.0.0.1", "-n", "-L", world.path("log"), stdout=subprocess.DEVNULL,
                stderr=subprocess.DEVNULL)
    listened(port)
    console = Console(world, "console", "-M", "localhost", "-p", port, "-l", "ann", "ours")
    for keys in TYPED:
        console.collected.wait_quiet()
        console.type(keys)
    console.collected.wait_for(b"bye")
    serving.end()
    expect_in_order(cleaned(console.shown), b"hello", b"int", b"bye")
    console.type(b"\x05c.")
    status_of(console.process, "console")


PERL = """my $t = Net::Telnet->new(Host => "127.0.0.1", Port => $ARGV[0], Timeout => 40);
$t->print("hello"); $t->print("exit"); $t->errmode("return");
while (defined(my $line = $t->getline)) { print $line }"""
PYTHON = """import sys, telnetlib
t = telnetlib.Telnet("127.0.0.1", int(sys.argv[1]), 40)
t.write(b"hello\\r\\n"); print(t.read_until(b"hello\\r\\n", 40).decode())
t.write(b"exit\\r\\n"); print(t.read_all().decode())"""
LINES = r'(printf "helo\177lo\r\n"; sleep 1; printf "exit\r\n"; sleep 2) | socat -t 5 - "TCP:127.0.0.1:$0"'


@case(each={f"{name}-{side}": (words, text, side) for side in ("remote", "local") for name, (words, text) in {
    "perl": ("perl -MNet::Telnet -e", PERL), "python": ("python3 -W ignore -c", PYTHON), "socat": ("bash -c", LINES)}.items()})
def our_server_has_a_program(world, words, text, side):
    if "socat" in text:
        require(["socat"])
    if "perl" in words and subprocess.run(["perl", "-MNet::Telnet", "-e", "1"], capture_output=True, check=False).returncode:
        raise NotTried("this machine lacks Net::Telnet of perl")
    serving = Serving(world, *["--local"] * (side == "local"))
    run = subprocess.run([*words.split(), text, str(serving.port)], capture_output=True, check=False)
    expect_in_order(cleaned(run.stdout), b"hello", b"bye")
    serving.end()


# The opening words of a router's console (IOS: WILL ECHO, WILL SUPPRESS-GO-AHEAD, DO TERMINAL-TYPE, DO NAWS), byte by byte; then
# what the client sent, in hexadecimal.
ROUTER = r"""printf '\377\373\001\377\373\003\377\375\030\377\375\037\r\n\r\nUser Access Verification\r\n\r\nUsername: '
printf 'sent %s\r\n' "$(timeout 60 head -c 28 | od -An -v -tx1 | tr -d '\n')"
"""
SENT = "Username: sent  ff fd 01 ff fd 03 ff fc 18 ff fb 1f ff fa 1f 00 50 00 18 ff f0 61 64 6d 69 6e 0d 00"
LISTEN = "socat TCP-LISTEN:PORT,reuseaddr"
HELLO = [b"helo\x7flo\r", b"\x04"]
SERVERS = {
    "telnetd": ("/usr/sbin/telnetd", HELLO, "hello|hello", f"{LISTEN} EXEC:/usr/sbin/telnetd\u00a0-h\u00a0-E\u00a0/bin/cat,nofork"),
    "telnetd-interrupt": ("/usr/sbin/telnetd", [b"hi\r", b"a", b"\x03", b"\x04"], "hi|hi|a",
                          f"{LISTEN} EXEC:/usr/sbin/telnetd\u00a0-h\u00a0-E\u00a0/bin/cat,nofork"),
    "netkit-telnetd": ("/usr/sbin/in.telnetd", HELLO, "hello|hello",
                       f"{LISTEN} EXEC:/usr/sbin/in.telnetd\u00a0-z\u00a0nossl\u00a0-h\u00a0-L\u00a0FOLDER/login,nofork"),
    "busybox-telnetd": ("busybox", HELLO, "hello|hello", "busybox telnetd -F -p PORT -l /bin/cat"),
    "procserv": ("procServ", [*HELLO, b"\x11"], "Welcome to procServ|hello|hello", "procServ -f -q -L - --noautorestart PORT /bin/cat"),
    "cisco": ("od", [b"admin\r"], f"User Access Verification|{SENT}", f"{LISTEN} SYSTEM:bash\u00a0FOLDER/router"),
    "chatd": ("telnet-chatd", [b"ann\r", b"hi\r"], "Enter name:", "telnet-chatd PORT")}


@case(each=SERVERS)
def our_client_has_a_server(world, command, typed, wanted, words):
    require([command, words.split()[0]])
    for name, text in (("login", "#!/bin/sh\nexec /bin/cat\n"), ("router", ROUTER)):
        with open(world.path(name), "w", encoding="ascii", opener=lambda path, flags: os.open(path, flags, 0o755)) as file:
            file.write(text)
    port = free_port()
    words = [word.replace("\u00a0", " ").replace("FOLDER", world.folder) for word in with_port(words, port)]
    world.start(*words, stdout=subprocess.DEVNULL, stderr=subprocess.DEVNULL)
    user = User(world, listened(port))
    wait_until(lambda: user.screen.bytes, "the server says something")
    with contextlib.suppress(BrokenPipeError):  # Once it has ended it takes no more.
        for keys in typed:
            user.screen.wait_quiet()
            before = len(user.screen.bytes)
            user.type(keys)
            within(5, lambda: len(user.screen.bytes) > before or user.screen.has_ended)
        user.screen.wait_quiet()
    expect_in_order(cleaned(user.end(printed=None)), *wanted.encode().split(b"|"))


@case
def a_server_that_ends_lines_at_cr_lf_is_answered(world):
    require(["telnet-chatd"])
    port = free_port()
    world.start("telnet-chatd", str(port), stdout=subprocess.DEVNULL, stderr=subprocess.DEVNULL)
    terminal = Terminal(world, "--return", "crlf", f"127.0.0.1:{listened(port)}")
    terminal.see(b"Enter name:")
    terminal.type(b"ann\r", b"Welcome, ann!")
    terminal.leave()


def start_nc(world):
    """nc, which says a line, and what it writes."""
    port = free_port()
    with open(world.path("said"), "w", encoding="ascii") as said:
        said.write("from nc\n")
    world.start("sh", "-c", f"for _ in 1 2; do nc.openbsd -l 127.0.0.1 {port} <{world.path('said')} >>{world.path('written')}; done")
    return port


def constant(start):
    """A service that takes any connection: each is at its one port."""
    def started(world):
        port = start(world)
        return lambda: listened(port)
    return started


def stand_in(talk):
    """A service that takes one connection: each has a port of its own."""
    return lambda world: lambda: Service(world, talk).port


MAIL = ([b"HELO there\n", b"QUIT\n"], [(b"220 ", b"HELO three\x7f\x7fre\r"), (b"250 ", b"QUIT\r")], "220 |250 |221 ")
SERVICES = {
    "plain-redis": (["redis-server"], constant(start_redis), [], [b"PING\n"],
                    [(b"Connected", b"PNG\r"), (b"-ERR", b"PINNG\x7f\x7fG\r"), (b"+PONG", b"half\x03"), (b"^C", b"\x04")], "+PONG"),
    "plain-smtpd": (["smtpd"], constant(start_smtpd), [], *MAIL),
    "plain-mail": ([], stand_in(strict_mail), [], *MAIL),
    "plain-instrument": ([], stand_in(instrument), ["--lf"], [b"*IDN?\n"],
                         [(b"Connected", b"*IDDN\x7f\x7fN?\r"), (b"MAKER", b"\x04")], "MAKER,MODEL"),
    "plain-ser2net": (["ser2net"], constant(start_ser2net), ["--cr"], [b"hello\n"],
                      [(b"Connected", b"helo\x7flo\r"), (b"hello", b"half\x03"), (b"^C", b"\x04")], "hello"),
    "plain-nc": (["nc.openbsd"], constant(start_nc), [], [b"a\nb\rc\r\nhalf"],
                 [(b"from nc", b"helo\x7flo\r"), (b"lo", b"half\x03"), (b"^C", b"\x04")], "from nc")}


@case(each=SERVICES)
def our_plain_client_has_a_service(world, commands, start, options, piped, typed, wanted):
    require(commands)
    next_port = start(world)
    user = User(world, next_port(), "--plain", *options)
    for keys in piped:
        if len(piped) > 1:
            user.screen.wait_quiet()
        user.type(keys)
    user.screen.wait_quiet()
    expect_in_order(user.end(), *wanted.encode().split(b"|"))
    terminal = Terminal(world, "--plain", *options, f"127.0.0.1:{next_port()}")
    for text, keys in typed:
        terminal.see(text)
        terminal.collected.wait_quiet(0.5)
        terminal.type(keys)
    terminal.end()
    expect_in_order(cleaned(terminal.shown), *wanted.encode().split(b"|"))
    if commands == ["nc.openbsd"]:
        wait_until(lambda: open(world.path("written"), "rb").read() == b"a\r\nb\r\nc\r\nhalfhello\r\n", "nc writes what went")


@case(each={"edited at the server": (), "edited at the client": ("--local",)})
def our_server_gives_ser2nets_console(world, *words):
    """The console's own terminal echoes what it gets, and takes the signals."""
    require(["ser2net"])
    serving = Serving(world, "--to", f"127.0.0.1:{start_ser2net(world)}", "--cr", "--signals", "send", *words)
    user = User(world, serving.port, edits="client" if words else "server")
    user.type(b"helo\x7flo\r", b"hello\r\nhello\r\n")
    user.type(b"\x03")
    user.end()
    serving.end()


HAPROXY = """defaults
    mode tcp
    timeout connect 2s
    timeout client 1h
    timeout server 1h
listen telnet
    bind 127.0.0.1:{port}
    balance leastconn
    option redispatch 1
    retries 3
    server one 127.0.0.1:{one} send-proxy
    server two 127.0.0.1:{two} send-proxy
"""


@case
def haproxy_leads_to_another_server(world):
    """Two servers behind one port: once one is killed, nobody at the other notices, and new clients go there."""
    require(["haproxy"])
    one, two = (Serving(world, "--proxy", "--forever", "--limit", "64") for _ in range(2))
    port = free_port()
    with open(world.path("haproxy.cfg"), "w", encoding="ascii") as file:
        file.write(HAPROXY.format(port=port, one=one.port, two=two.port))
    world.start("haproxy", "-q", "-db", "-f", world.path("haproxy.cfg"), stdout=subprocess.DEVNULL, stderr=subprocess.DEVNULL)
    listened(port)
    peers = [Peer(world, port).is_served() for _ in range(40)]
    one.process.kill()
    left = [peer for peer in peers if not has_ended(peer)]
    expect(15 <= len(left) <= 25, f"wanted about half of 40 sessions to go on, and {len(left)} do")
    left += [Peer(world, port).is_served() for _ in range(20)]
    for peer in left:
        peer.send(b"hello\r\n")
        peer.read_until(b"hello\r\n\xff\xf9")


def has_ended(peer):
    """Whether its session has ended with a server that was killed: nothing comes of a line."""
    try:
        peer.send(b"still\r\n")
        return not peer.read_while(lambda: b"still\r\n\xff\xf9" not in peer.got)
    except ConnectionError:
        return True


def make_certificate(world, name, signing=None):
    """A certificate of this name for two days, signed by an authority, or by itself as one: its key in NAME.key, both in NAME.pem."""
    with open(world.path("openssl.cnf"), "w", encoding="ascii") as settings:
        settings.write("[req]\ndistinguished_name=name\n[name]\n")
    signed = ["-addext", "basicConstraints=critical,CA:TRUE"]
    if signing:
        signed = ["-addext", "basicConstraints=critical,CA:FALSE", "-addext", f"subjectAltName=DNS:{name}",
                  "-CA", world.path(f"{signing}.crt"), "-CAkey", world.path(f"{signing}.key")]
    subprocess.run(["openssl", "req", "-x509", "-config", world.path("openssl.cnf"), "-subj", f"/CN={name}", "-days", "2", *signed,
                    "-newkey", "ec", "-pkeyopt", "ec_paramgen_curve:P-256", "-nodes", "-keyout", world.path(f"{name}.key"),
                    "-out", world.path(f"{name}.crt")], check=True, capture_output=True)
    with open(world.path(f"{name}.pem"), "wb") as both:
        for end in ("key", "crt"):
            with open(world.path(f"{name}.{end}"), "rb") as part:
                both.write(part.read())


def make_certificates(world):
    """What both ends of a tunnel are known by; `other` is an authority that nobody here trusts."""
    for name, signing in (("ours", None), ("other", None), ("localhost", "ours"), ("user", "ours")):
        make_certificate(world, name, signing)


def write(world, name, *lines):
    with open(world.path(name), "w", encoding="ascii") as file:
        file.write("\n".join(lines) + "\n")
    return world.path(name)


class Stunnel:
    """stunnel at both ends of a tunnel."""
    wants = ["openssl", "stunnel"]
    words, also = [], []

    def __init__(self, world, port, outer):
        self.world, self.outer = world, outer
        make_certificates(world)
        world.start("stunnel", write(world, "in.conf", "foreground = yes", "pid =", "[tn]", f"accept = 127.0.0.1:{outer}",
                                     f"connect = 127.0.0.1:{port}", f"cert = {world.path('localhost.pem')}",
                                     f"CAfile = {world.path('ours.crt')}", "verifyChain = yes", *self.also))

    def enter(self, inner, who):
        certificate = [] if who == "stranger" else [f"cert = {self.world.path('user.pem')}"]
        trusted = self.world.path("other.crt" if who == "misled" else "ours.crt")
        return self.world.start("stunnel", write(self.world, f"{who}.conf", "foreground = yes", "pid =", "[tn]", "client = yes",
                                                 f"accept = 127.0.0.1:{inner}", f"connect = 127.0.0.1:{self.outer}", *certificate,
                                                 f"CAfile = {trusted}", "verifyChain = yes", "checkHost = localhost"))


class StunnelProxy(Stunnel):
    """stunnel at both ends, which names the user's address to the server."""
    words, also = ["--proxy"], ["protocol = proxy"]


class Socat:
    """socat at both ends of a tunnel."""
    wants = ["openssl", "socat"]
    words = []

    def __init__(self, world, port, outer):
        self.world, self.outer = world, outer
        make_certificates(world)
        world.start("socat", f"OPENSSL-LISTEN:{outer},bind=127.0.0.1,reuseaddr,fork,cert={world.path('localhost.pem')},"
                             f"cafile={world.path('ours.crt')},verify=1", f"TCP:127.0.0.1:{port}")

    def enter(self, inner, who):
        shown = "" if who == "stranger" else f",cert={self.world.path('user.pem')}"
        trusted = self.world.path("other.crt" if who == "misled" else "ours.crt")
        return self.world.start("socat", f"TCP-LISTEN:{inner},bind=127.0.0.1,reuseaddr,fork",
                                f"OPENSSL:localhost:{self.outer},pf=ip4,cafile={trusted},verify=1{shown}")


class Ssh:
    """ssh at the user, and sshd at the server; `other` is a key that nobody here trusts."""
    wants = ["ssh", "ssh-keygen", "/usr/sbin/sshd"]
    words = []

    def __init__(self, world, port, outer):
        self.world, self.port, self.outer = world, port, outer
        public = {}
        for name in ("host", "user", "other"):
            subprocess.run(["ssh-keygen", "-q", "-t", "ed25519", "-N", "", "-f", world.path(name)], check=True)
            with open(world.path(f"{name}.pub"), encoding="ascii") as file:
                public[name] = file.read().strip()
        write(world, "authorized", f'command="false",restrict,port-forwarding,permitopen="127.0.0.1:{port}" {public["user"]}')
        for name in ("host", "other"):
            write(world, f"knows-{name}", f"[127.0.0.1]:{outer} {public[name]}")
        settings = write(world, "sshd.conf", f"Port {outer}", "ListenAddress 127.0.0.1", f"HostKey {world.path('host')}",
                         f"AuthorizedKeysFile {world.path('authorized')}", "StrictModes no", "UsePAM no", "PidFile none",
                         "PasswordAuthentication no", "KbdInteractiveAuthentication no")
        if os.geteuid() == 0:  # What sshd wants to find if it runs as root.
            os.makedirs("/run/sshd", exist_ok=True)
        world.start("/usr/sbin/sshd", "-D", "-e", "-f", settings)

    def enter(self, inner, who):
        key, knows = ("other" if who == "stranger" else "user"), ("other" if who == "misled" else "host")
        return self.world.start("ssh", "-F", "none", "-N", "-L", f"127.0.0.1:{inner}:127.0.0.1:{self.port}", "-p", self.outer,
                                "-i", self.world.path(key), "-o", "IdentitiesOnly=yes", "-o", "BatchMode=yes",
                                "-o", "StrictHostKeyChecking=yes", "-o", f"UserKnownHostsFile={self.world.path(f'knows-{knows}')}", "127.0.0.1")


def what_comes(port):
    """What a port says first, if it is listened to: a server of ours at once asks for options."""
    with socket.socket() as peer:
        peer.settimeout(5)
        try:
            peer.connect(("127.0.0.1", port))
            return peer.recv(100)
        except OSError:
            return b""


@case(each={"stunnel": (Stunnel,), "stunnel-proxy": (StunnelProxy,), "socat-tls": (Socat,), "ssh": (Ssh,)})
def only_our_user_comes_through_a_tunnel(world, kind):
    require(kind.wants)
    serving = Serving(world, "--local", "--verbose", *kind.words)
    outer = free_port()
    tunnel = kind(world, serving.port, outer)
    listened(outer)
    for who in ("stranger", "misled", "user"):
        inner = free_port()
        process = tunnel.enter(inner, who)
        wait_until(lambda: basics.is_listened_to(inner) or process.poll() is not None, "the user's end of the tunnel listens, or has ended")
        if who != "user":
            expect_same(b"", what_comes(inner), f"what the {who} gets")
    user = User(world, inner, edits="client")
    user.type(b"helo\x7flo\r", b"lo\r\nhello\r\n")
    user.type(b"exit\r", b"bye\r\n")
    user.end()
    expect_in_order(serving.end(None), b"session 0 (serial 1) from 127.0.0.1:", b"ended: done")
