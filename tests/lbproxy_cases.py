"""Cases of lbproxy in tcp mode over servers of its own on the loopback, and of its configuration."""
import collections
import contextlib
import json
import os
import re
import socket
import subprocess
import threading
import time
import urllib.request

from lbproxy_help import COUNTS, PROGRAM, ROOM, Proxy, case, end_cases, expect, fetch, free_port, wait_until

LBSIM = os.environ.get("LBSIM") or os.path.join(os.path.dirname(os.path.realpath(__file__)), "..", "lbsim")


class Backend:
    """Greets each connection with its name and a line feed, and echoes what it reads to the end."""

    def __init__(self, name, port=None):
        self.name, self.port = name, port or free_port()
        self.open = []
        self.start()

    def start(self):
        self.server = socket.socket()
        self.server.setsockopt(socket.SOL_SOCKET, socket.SO_REUSEADDR, 1)
        self.server.bind(("127.0.0.1", self.port))
        self.server.listen(512)
        threading.Thread(target=self.serve, args=(self.server,), daemon=True).start()

    def stop(self):
        self.server.shutdown(socket.SHUT_RDWR)
        self.server.close()

    def serve(self, server):
        while True:
            try:
                peer, _ = server.accept()
            except OSError:
                return
            self.open.append(peer)
            threading.Thread(target=self.echo, args=(peer,), daemon=True).start()

    def echo(self, peer):
        with contextlib.suppress(OSError), peer:
            peer.sendall(self.name.encode() + b"\n")
            while data := peer.recv(65536):
                peer.sendall(data)

    def cut(self):
        for peer in self.open:
            with contextlib.suppress(OSError):
                peer.shutdown(socket.SHUT_RDWR)
                peer.close()

    @property
    def address(self):
        return f"127.0.0.1:{self.port}"


def connect(port, source="127.0.0.1"):
    peer = socket.create_connection(("127.0.0.1", port), 10, (source, 0))
    peer.settimeout(10)
    return peer


def named(port, source="127.0.0.1"):
    """The name of the backend that a new connection reaches, or nothing."""
    with connect(port, source) as peer:
        try:
            return peer.makefile("rb").readline().decode().strip()
        except OSError:
            return ""


# ---- configurations

def checked(text):
    path = os.path.join(ROOM, "checked.toml")
    with open(path, "w", encoding="utf-8") as file:
        file.write(text)
    done = subprocess.run(PROGRAM + [path, "--check"], capture_output=True, text=True, timeout=30, check=False)
    return done.returncode, done.stdout, done.stderr


GOOD = """[[pool]]
name = "p"
backends = ["127.0.0.1:1"]
[[listen]]
address = "127.0.0.1:2"
pool = "p"
"""

FAULTS = [
    ("bad TOML", GOOD + "x = = 1\n", "line 7"),
    ("no pool", '[[listen]]\naddress = "127.0.0.1:2"\npool = "p"\n', "line 1, column 1: top: pool is missing"),
    ("no listener", '[[pool]]\nname = "p"\nbackends = []\n', "line 1, column 1: top: listen is missing"),
    ("unknown section", GOOD + "[checks]\n", "line 7, column 1: top: checks isn't known"),
    ("unknown name", GOOD + 'weight = 1\n', "line 7, column 1: [[listen]] number 1: weight isn't known"),
    ("after blanks", GOOD + '\n# a word\n  \tweight = 1\n', "line 9, column 4: [[listen]] number 1: weight isn't known"),
    ("no line feed", GOOD + 'weight = 1', "line 7, column 1: [[listen]] number 1: weight isn't known"),
    ("name is no text", GOOD.replace('name = "p"', "name = 1"), "line 2, column 1: [[pool]] number 1: name is to be a text"),
    ("no name", GOOD.replace('name = "p"\n', ""), "line 1, column 1: [[pool]] number 1: name is missing"),
    ("same name", '[[pool]]\nname = "p"\nbackends = []\n' + GOOD, "line 5, column 1: [[pool]] number 2: name is the name"),
    ("no backends", GOOD.replace('backends = ["127.0.0.1:1"]\n', ""), "line 1, column 1: [[pool]] number 1: backends is missing"),
    ("two sources", GOOD.replace('name = "p"', 'name = "p"\nfile = "f"'), "line 3, column 1: [[pool]] number 1: file can't be there"),
    ("no backend", GOOD.replace('"127.0.0.1:1"', '"localhost:1"'), "line 3, column 1: [[pool]] number 1: backends has what is no backend"),
    ("backend is a number", GOOD.replace('"127.0.0.1:1"', "1"), "line 3, column 1: [[pool]] number 1: backends has what is no backend"),
    (
        "weight below 0",
        GOOD.replace('"127.0.0.1:1"', '{ address = "127.0.0.1:1", weight = -1 }'),
        "line 3, column 1: [[pool]] number 1, backend number 1: weight is to be a number",
    ),
    (
        "a list of lines",
        GOOD.replace('"127.0.0.1:1"', '\n  "127.0.0.1:1",\n  { address = "127.0.0.1:2", wieght = 3 },\n'),
        "line 3, column 1: [[pool]] number 1, backend number 2: wieght isn't known",
    ),
    ("no address", GOOD.replace("127.0.0.1:2", "somewhere"), "line 5, column 1: [[listen]] number 1: address is to be an address"),
    ("no such pool", GOOD.replace('pool = "p"', 'pool = "q"'), "line 6, column 1: [[listen]] number 1: pool names no pool"),
    ("no selection", GOOD + 'select = "best"\n', "line 7, column 1: [[listen]] number 1: select is to be rr, fnv, ketama, least or random"),
    ("no mode", GOOD + 'mode = "udp"\n', "line 7, column 1: [[listen]] number 1: mode is to be tcp or http"),
    ("uri of tcp", GOOD + 'key = "uri"\n', "line 7, column 1: [[listen]] number 1: key is to be source, and in http mode"),
    ("field of tcp", GOOD + 'mode = "tcp"\nkey = "header:A"\n', "line 8, column 1: [[listen]] number 1: key is to be source"),
    ("no key", GOOD + 'mode = "http"\nkey = "url"\n', "line 8, column 1: [[listen]] number 1: key is to be source"),
    ("no field", GOOD + 'mode = "http"\nkey = "header:"\n', "line 8, column 1: [[listen]] number 1: key is to be source"),
    ("bad field", GOOD + 'mode = "http"\nkey = "header:a b"\n', "line 8, column 1: [[listen]] number 1: key is to be source"),
    ("no time", GOOD + '[check]\nevery = "soon"\n', "line 8, column 1: [check]: every is to be a time"),
    ("time too long", GOOD + '[check]\nevery = "99999999999h"\n', "line 8, column 1: [check]: every is to be a time"),
    ("no check", GOOD + '[check]\nkind = "ping"\n', "line 8, column 1: [check]: kind is to be tcp or http"),
    ("no path", GOOD + '[check]\nkind = "http"\npath = "x"\n', "line 9, column 1: [check]: path is to begin with a slash"),
    ("no flag", GOOD + '[check]\nparallel = "yes"\n', "line 8, column 1: [check]: parallel is to be true or false"),
    ("no number", GOOD + '[limits]\nthreads = "many"\n', "line 8, column 1: [limits]: threads is to be a number from 0 on"),
    ("no page", GOOD + '[status]\n', "line 7, column 1: [status]: listen is missing"),
    ("check is no table", "check = 1\n" + GOOD, "line 1, column 1: top: check is to be a table"),
    ("pool is no list", 'pool = "p"\n', "line 1, column 1: top: pool is to be a list"),
    (
        "a pool's check",
        GOOD.replace('name = "p"', 'name = "p"\ncheck = { kind = "http", rise = -1 }'),
        "line 3, column 1: [[pool]] number 1, check: rise is to be a number from 0 on",
    ),
    (
        "unknown name in a pool's check",
        GOOD.replace("[[listen]]", '[pool.check]\nkind = "tcp"\n  rises = 1\n[[listen]]'),
        "line 6, column 3: [[pool]] number 1, check: rises isn't known",
    ),
    (
        "no time in a second pool's check",
        GOOD + '[[pool]]\nname = "q"\nbackends = []\n[pool.check]\nkind = "http"\ntimeout = "1 s"\n',
        "line 12, column 1: [[pool]] number 2, check: timeout is to be a time",
    ),
    (
        "no path in a pool's check",
        GOOD.replace("[[listen]]", '[pool.check]\npath = "x"\nkind = "http"\n[[listen]]'),
        "line 5, column 1: [[pool]] number 1, check: path is to begin with a slash",
    ),
    (
        "a pool's check is no table",
        GOOD.replace('name = "p"', 'name = "p"\ncheck = "tcp"'),
        "line 3, column 1: [[pool]] number 1: check is to be a table",
    ),
    ("pool is no table", "pool = [1]\n", "line 1, column 1: top: pool is to be a list of tables"),
]


def a_right_configuration_is_ok():
    status, said, _ = checked(GOOD)
    expect(status == 0 and said.strip().endswith("ok"), (status, said))


def http_listeners_are_ok():
    for key in ("source", "uri", "header:X-User", "header:!#$%&'*+-.^_`|~9"):
        status, said, _ = checked(GOOD + f'mode = "http"\nselect = "ketama"\nkey = "{key}"\n')
        expect(status == 0 and said.strip().endswith("ok"), (key, status, said))


def each_fault_is_named():
    for name, text, wanted in FAULTS:
        status, _, said = checked(text)
        expect(status == 2 and wanted in said, f"{name}: status {status}, said {said!r}")


def no_file_and_no_words():
    done = subprocess.run(PROGRAM + ["/there/is/none"], capture_output=True, text=True, timeout=30, check=False)
    expect(done.returncode == 2 and "can't be read" in done.stderr, done.stderr)
    done = subprocess.run(PROGRAM + ["--help"], capture_output=True, text=True, timeout=30, check=False)
    expect(done.returncode == 0 and "--until-eof" in done.stdout, done.stdout)
    done = subprocess.run(PROGRAM, capture_output=True, text=True, timeout=30, check=False)
    expect(done.returncode == 2, done.returncode)


# ---- a proxy over three backends

A, B, C = Backend("a"), Backend("b"), Backend("c")
RR, FNV, KETAMA, LEAST, RANDOM, FILED, EMPTY, PAGE = (free_port() for _ in range(8))
FILE = os.path.join(ROOM, "pool.backends")


def write_pool(text):
    with open(FILE + ".new", "w", encoding="utf-8") as file:
        file.write(text)
    os.rename(FILE + ".new", FILE)


CONFIG = f"""
[check]
every = "200ms"
timeout = "500ms"
[status]
listen = "127.0.0.1:{PAGE}"
[limits]
threads = 2
drain = "2s"
[[pool]]
name = "web"
backends = ["{A.address}", {{ address = "{B.address}", weight = 3 }}, "{C.address}"]
[[pool]]
name = "filed"
file = "{FILE}"
[[pool]]
name = "empty"
backends = []
[[listen]]
address = "127.0.0.1:{RR}"
pool = "web"
[[listen]]
address = "127.0.0.1:{FNV}"
pool = "web"
select = "fnv"
[[listen]]
address = "127.0.0.1:{KETAMA}"
pool = "web"
select = "ketama"
[[listen]]
address = "127.0.0.1:{LEAST}"
pool = "web"
select = "least"
[[listen]]
address = "127.0.0.1:{RANDOM}"
pool = "web"
select = "random"
[[listen]]
address = "127.0.0.1:{FILED}"
pool = "filed"
[[listen]]
address = "127.0.0.1:{EMPTY}"
pool = "empty"
"""


def weights_in_turn():
    counts = collections.Counter(named(RR) for _ in range(500))
    expect(counts == {"a": 100, "b": 300, "c": 100}, counts)


def random_goes_by_weight_and_in_no_turn():
    names = [named(RANDOM) for _ in range(500)]
    counts = collections.Counter(names)
    # (by chance alone each count is within 5 of its deviations in all but one run of a million)
    expect(245 <= counts["b"] <= 355 and 55 <= counts["a"] <= 145 and 55 <= counts["c"] <= 145, counts)
    expect(sum(counts.values()) == counts["a"] + counts["b"] + counts["c"], counts)
    turns = {tuple(names[start:start + 5]) for start in range(0, 500, 5)}
    expect(len(turns) > 10, f"{len(turns)} different turns of five")


def one_client_stays_at_one_backend():
    for port in (FNV, KETAMA):
        for source in ("127.0.0.1", "127.0.0.9", "127.0.1.4"):
            names = {named(port, source) for _ in range(5)}
            expect(len(names) == 1 and names < {"a", "b", "c"}, names)
    spread = {named(KETAMA, f"127.0.0.{number}") for number in range(1, 40)}
    expect(spread == {"a", "b", "c"}, spread)


def ketama_chooses_as_lbsim_does():
    # (200 clients, whose addresses are words of a script, byte for byte)
    sources = [f"127.0.{third}.{last}" for third in (1, 2) for last in range(27, 127) if last != 32] + ["127.0.3.65", "127.0.3.66"]
    backends = f"{A.address}/1 {B.address}/3 {C.address}/1"
    lines = ["registry identity", "gate", "group 0 0 ketama 1", f"update 0 0 {backends}", "ask 0 0 0", "build 0 0 0", "publish 0 0"]
    lines += ["select 0 0 " + socket.inet_aton(source).decode() + " 256" for source in sources]
    script = "".join(line + "\n" for line in lines).encode()
    said = subprocess.run([LBSIM], input=script, capture_output=True, timeout=600, check=True).stdout.decode().splitlines()
    names = {f"backend {backend.address}/{weight}": backend.name for backend, weight in ((A, 1), (B, 3), (C, 1))}
    wanted = [names[line] for line in said[-len(sources):]]
    expect(len(wanted) == 200 and set(wanted) == {"a", "b", "c"}, said[:9])
    expect([named(KETAMA, source) for source in sources] == wanted, "another backend was chosen")


def least_goes_by_live_connections():
    peers = []
    for _ in range(25):
        peer = connect(LEAST)
        peers.append((peer, peer.makefile("rb").readline().decode().strip()))
    counts = collections.Counter(name for _, name in peers)
    for peer, _ in peers:
        peer.close()
    expect(counts == {"a": 5, "b": 15, "c": 5}, counts)


def bytes_both_ways():
    block = os.urandom(3_000_000)
    with connect(RR) as peer:
        reader = peer.makefile("rb")
        reader.readline()
        sender = threading.Thread(target=lambda: (peer.sendall(block), peer.shutdown(socket.SHUT_WR)))
        sender.start()
        expect(reader.read() == block, "what came back differs")
        sender.join()


def a_half_closed_side_goes_on():
    with connect(RR) as peer:
        reader = peer.makefile("rb")
        reader.readline()
        peer.sendall(b"last")
        peer.shutdown(socket.SHUT_WR)
        expect(reader.read() == b"last", "the answer after the end is gone")


def a_slow_reader_holds_the_sender():
    with connect(RR) as peer:
        peer.settimeout(2)
        sent = 0
        with contextlib.suppress(OSError):
            while sent < 200_000_000:
                sent += peer.send(b"x" * 65536)
        expect(sent < 60_000_000, f"{sent} bytes were taken from a client that reads none")


def many_at_once():
    peers = [connect(RR) for _ in range(400)]
    names = collections.Counter(peer.makefile("rb").readline().decode().strip() for peer in peers)
    for peer in peers:
        peer.sendall(b"hello\n")
    answered = sum(peer.makefile("rb").readline() == b"hello\n" for peer in peers)
    for peer in peers:
        peer.close()
    expect(answered == 400 and sum(names.values()) == 400 and set(names) == {"a", "b", "c"}, (answered, names))


def a_stopped_backend_is_passed_over():
    B.stop()
    names = [named(RR) for _ in range(30)]
    expect(set(names) == {"a", "c"}, names)
    wait_until(lambda: not ready(B), "it stays ready")
    B.start()
    wait_until(lambda: ready(B), "it isn't ready again")
    wait_until(lambda: named(RR) == "b", "nothing goes to it again")


def ready(backend):
    shown = json.loads(fetch(PAGE, "/status.json")[1])
    return [b["ready"] for p in shown["pools"] for b in p["backends"] if b["address"].startswith(backend.address + "/")][0]


def a_cut_backend_cuts_the_client():
    with connect(RR) as peer:
        reader = peer.makefile("rb")
        reader.readline()
        for backend in (A, B, C):
            backend.cut()
        try:
            expect(reader.read() == b"", "there is more")
        except ConnectionResetError:
            pass


class Answering(Backend):
    """Answers each request by its path: with status 200 where that is among the good ones, else with 500."""

    def __init__(self, good):
        self.good = good
        super().__init__("answering")

    def echo(self, peer):
        with contextlib.suppress(OSError), peer:
            while head := peer.recv(65536):
                status = 200 if head.split(b" ")[1].decode() in self.good else 500
                peer.sendall(f"HTTP/1.1 {status} Said\r\nContent-Length: 0\r\n\r\n".encode())


def pool_text(name, address, port, check):
    return (
        f'[[pool]]\nname = "{name}"\nbackends = ["{address}"]\n{check}\n'
        f'[[listen]]\naddress = "127.0.0.1:{port}"\npool = "{name}"\n'
    )


def is_served(port):
    with connect(port) as peer:
        with contextlib.suppress(OSError):
            peer.sendall(b"GET /well HTTP/1.1\r\n\r\n")
            return peer.recv(100).startswith(b"HTTP/1.1 200")
    return False


def a_pool_has_a_check_of_its_own():
    server = Answering({"/well"})
    page, *ports = (free_port() for _ in range(5))
    every = 'every = "100ms"\ntimeout = "500ms"\n'
    text = f'[status]\nlisten = "127.0.0.1:{page}"\n[check]\nkind = "http"\npath = "/ill"\n{every}'
    text += pool_text("connected", server.address, ports[0], f"[pool.check]\n{every}")
    text += pool_text("well", server.address, ports[1], f'[pool.check]\nkind = "http"\npath = "/well"\n{every}')
    text += pool_text("other", server.address, ports[2], f'[pool.check]\nkind = "http"\npath = "/other"\n{every}')
    text += pool_text("as-all", server.address, ports[3], "")
    proxy = Proxy(text)

    def states():
        return [pool["backends"][0]["ready"] for pool in json.loads(fetch(page, "/status.json")[1])["pools"]]

    try:
        wait_until(lambda: states() == [True, True, False, False], "it isn't as the checks say")
        time.sleep(0.5)
        expect(states() == [True, True, False, False], states())
        expect([is_served(port) for port in ports] == [True, True, False, False], "another pool serves")
        server.good = {"/well", "/other"}
        wait_until(lambda: states() == [True, True, True, False], "what one pool asks for isn't its own")
        server.good = {"/well", "/ill"}
        wait_until(lambda: states() == [True, True, False, True], "what all others ask for isn't theirs")
        expect([is_served(port) for port in ports] == [True, True, False, True], "another pool serves then")
        server.stop()
        wait_until(lambda: not any(states()), "ready once it is gone")
    finally:
        expect(proxy.end() == 0, "another status")


def no_backend_closes_the_connection():
    expect(named(EMPTY) == "", "somebody answered")
    wait_until(lambda: "pool empty: no ready backend" in PROXY.log(), "it isn't logged")
    shown = json.loads(fetch(PAGE, "/status.json")[1])
    expect(shown["unserved"] >= 1, shown)


def a_file_is_read_again():
    expect(named(FILED) == "a", "the first file isn't used")
    write_pool(f"# two\n!{A.address}\n{C.address}/2\n")
    wait_until(lambda: named(FILED) == "c", "the second file isn't used")
    write_pool("nonsense\n")
    wait_until(lambda: "line 1: no address" in PROXY.log(), "the fault isn't logged")
    expect(named(FILED) == "c", "the wrong file changed the pool")
    shown = json.loads(fetch(PAGE, "/status.json")[1])
    expect("line 1" in [p["fault"] for p in shown["pools"] if p["name"] == "filed"][0], shown)
    time.sleep(2.5)
    expect(PROXY.log().count("line 1: no address") == 1, "the fault is logged again")
    os.remove(FILE)
    wait_until(lambda: "can't be read" in PROXY.log(), "the missing file isn't logged")
    expect(named(FILED) == "c", "the missing file changed the pool")
    write_pool(f"{B.address}\n")
    wait_until(lambda: named(FILED) == "b", "the third file isn't used")


def the_page_shows_the_pools():
    status, body = fetch(PAGE, "/")
    expect(status == 200 and B.address + "/3" in body and "<h2>filed" in body, body)
    status, body = fetch(PAGE, "/metrics")
    line = f'lbproxy_backend_ready{{pool="web",backend="{A.address}/1"}} 1'
    expect(status == 200 and line in body and "# TYPE lbproxy_unserved_total counter" in body, body)
    expect(fetch(PAGE, "/health")[0] == 200, "not healthy")
    expect(fetch(PAGE, "/elsewhere")[0] == 404, "something is elsewhere")


def put(path):
    request = urllib.request.Request(f"http://127.0.0.1:{PAGE}{path}", method="PUT")
    try:
        with urllib.request.urlopen(request, timeout=5) as answer:
            return answer.status
    except urllib.error.HTTPError as error:
        return error.code


def a_flag_is_set_by_put():
    path = f"/pools/web/backends/{B.address}"
    expect(put(path + "/disable") == 200, "not disabled")
    wait_until(lambda: "b" not in {named(RR) for _ in range(12)}, "a disabled backend is selected")
    expect(put(path + "/enable") == 200, "not enabled")
    wait_until(lambda: "b" in {named(RR) for _ in range(12)}, "an enabled backend isn't selected")
    for other in ("/pools/web/backends/127.0.0.1:1/disable", f"/pools/none/backends/{B.address}/disable", path, path + "/stop"):
        expect(put(other) == 404, other)


def log_lines_have_their_time():
    lines = PROXY.log().splitlines()
    expect(lines and all(re.match(r"\d{4}-\d\d-\d\dT\d\d:\d\d:\d\d", line) for line in lines), lines[:3])


def the_end_lets_connections_finish():
    peer = connect(RR)
    reader = peer.makefile("rb")
    reader.readline()
    ender = threading.Thread(target=lambda: ended.append(PROXY.end()))
    ended = []
    ender.start()
    wait_until(lambda: refused(RR), "connections are still taken")
    peer.sendall(b"still\n")
    expect(reader.readline() == b"still\n", "the connection was cut")
    peer.close()
    ender.join(20)
    expect(ended == [0], ended)


def refused(port):
    try:
        connect(port).close()
        return False
    except ConnectionRefusedError:
        return True


def the_end_cuts_what_stays():
    port = free_port()
    proxy = Proxy(
        f'[limits]\ndrain = "500ms"\nthreads = 1\n[[pool]]\nname = "p"\nbackends = ["{A.address}"]\n'
        f'[[listen]]\naddress = "127.0.0.1:{port}"\npool = "p"\n'
    )
    wait_until(lambda: named(port) == "a", "it doesn't run")
    with connect(port) as peer:
        reader = peer.makefile("rb")
        reader.readline()
        expect(proxy.end() == 0, "another status")
        with contextlib.suppress(ConnectionResetError):
            expect(reader.read() == b"", "the connection goes on")


def an_idle_connection_is_closed():
    port = free_port()
    proxy = Proxy(
        f'[limits]\nidle = "500ms"\nmax_connections = 2\n[[pool]]\nname = "p"\nbackends = ["{A.address}"]\n'
        f'[[listen]]\naddress = "127.0.0.1:{port}"\npool = "p"\n'
    )
    wait_until(lambda: named(port) == "a", "it doesn't run")
    first, second, third = connect(port), connect(port), connect(port)
    third.settimeout(0.3)
    begun = time.monotonic()
    try:
        third.recv(10)
        early = True
    except TimeoutError:
        early = False
    expect(not early or time.monotonic() - begun > 0.2, "more connections than the limit were taken")
    third.settimeout(10)
    expect(third.makefile("rb").readline() == b"a\n", "the third never had its turn")
    for peer in (first, second):
        reader = peer.makefile("rb")
        expect(reader.read() == b"a\n", "it was not closed")
    proxy.end()


for work in (a_right_configuration_is_ok, http_listeners_are_ok, each_fault_is_named, no_file_and_no_words):
    case(work)

write_pool(f"{A.address}\n")
PROXY = Proxy(CONFIG)
try:
    wait_until(lambda: fetch(PAGE, "/health")[0] == 200 and named(RR), "the proxy doesn't start", 20)
    for work in (
        weights_in_turn,
        random_goes_by_weight_and_in_no_turn,
        one_client_stays_at_one_backend,
        ketama_chooses_as_lbsim_does,
        least_goes_by_live_connections,
        bytes_both_ways,
        a_half_closed_side_goes_on,
        a_slow_reader_holds_the_sender,
        many_at_once,
        a_stopped_backend_is_passed_over,
        a_cut_backend_cuts_the_client,
        a_pool_has_a_check_of_its_own,
        no_backend_closes_the_connection,
        a_file_is_read_again,
        the_page_shows_the_pools,
        a_flag_is_set_by_put,
        log_lines_have_their_time,
        the_end_lets_connections_finish,
        the_end_cuts_what_stays,
        an_idle_connection_is_closed,
    ):
        case(work)
except AssertionError as error:
    COUNTS["failed"] += 1
    print(f"start: {error}\n{PROXY.log()}")
finally:
    PROXY.process.kill()

end_cases()
