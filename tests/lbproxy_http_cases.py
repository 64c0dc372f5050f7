"""Cases of lbproxy in http mode over servers of its own on the loopback."""
import collections
import contextlib
import json
import os
import resource
import socket
import subprocess
import sys
import threading
import time
import urllib.request

from ambiguous_requests import BODIES, REQUESTS
from lbproxy_help import COUNTS, ROOM, Proxy, case, end_cases, expect, fetch, free_port, wait_until
from lbproxy_http_server import HttpBackend, fields_of, read_chunks

A, B, C, LEAVING, IDLE = (HttpBackend(name) for name in ("a", "b", "c", "leaving", "idle"))
ONE, RR, URI, FIELD, LEAST, EMPTY, DOWN, BOTH, FILED, PAGE = (free_port() for _ in range(10))
FILE = os.path.join(ROOM, "http.backends")
REFUSED = free_port()

CONFIG = f"""
[status]
listen = "127.0.0.1:{PAGE}"
[limits]
threads = 2
drain = "5s"
[[pool]]
name = "one"
backends = ["{A.address}"]
[[pool]]
name = "three"
backends = ["{A.address}", {{ address = "{B.address}", weight = 3 }}, "{C.address}"]
[[pool]]
name = "empty"
backends = []
[[pool]]
name = "down"
backends = ["127.0.0.1:{REFUSED}"]
[[pool]]
name = "both"
backends = ["127.0.0.1:{REFUSED}", "{A.address}"]
[[pool]]
name = "filed"
file = "{FILE}"
"""
for port, pool, words in (
    (ONE, "one", ""),
    (RR, "three", ""),
    (URI, "three", 'select = "ketama"\nkey = "uri"\n'),
    (FIELD, "three", 'select = "fnv"\nkey = "header:X-User"\n'),
    (LEAST, "three", 'select = "least"\n'),
    (EMPTY, "empty", ""),
    (DOWN, "down", ""),
    (BOTH, "both", ""),
    (FILED, "filed", ""),
):
    CONFIG += f'[[listen]]\naddress = "127.0.0.1:{port}"\nmode = "http"\npool = "{pool}"\n{words}'


class Client:
    """A connection to the proxy."""

    def __init__(self, port, source="127.0.0.1"):
        self.peer = socket.create_connection(("127.0.0.1", port), 30, (source, 0))
        self.peer.settimeout(30)
        self.peer.setsockopt(socket.IPPROTO_TCP, socket.TCP_NODELAY, 1)
        self.reader = self.peer.makefile("rb")

    def __enter__(self):
        return self

    def __exit__(self, *_):
        self.reader.close()
        self.peer.close()

    def send(self, data):
        self.peer.sendall(data)

    def answer(self, has_body=True):
        """The status, the fields and the body of the next answer; nothing where the connection has ended."""
        head = b""
        while not head.endswith(b"\r\n\r\n"):
            line = self.reader.readline()
            if not line:
                expect(head == b"", f"a head was cut: {head}")
                return None
            head += line
        status, fields = int(head.split(b" ")[1]), fields_of(head)
        if not has_body or status in (204, 304) or status < 200:
            return status, fields, b""
        if b"transfer-encoding" in fields:
            return status, fields, read_chunks(self.reader)
        if b"content-length" in fields:
            return status, fields, self.reader.read(int(fields[b"content-length"]))
        return status, fields, self.reader.read()

    def ask(self, target, more=b"", method=b"GET", body=b""):
        self.send(method + b" " + target + b" HTTP/1.1\r\nHost: here\r\n" + more + b"\r\n" + body)
        return self.answer(method != b"HEAD")

    def has_ended(self):
        try:
            return self.reader.read(1) == b""
        except ConnectionResetError:
            return True


def ask(port, target, more=b"", method=b"GET", body=b"", source="127.0.0.1"):
    """The answer over a connection of its own."""
    with Client(port, source) as client:
        return client.ask(target, more, method, body)


def connections_of(backend, since):
    return {number for number, _, _ in backend.asked[since:]}


# ---- answers as they are

def a_kept_connection_carries_200_requests():
    since = len(A.asked)
    with Client(ONE) as client:
        for number in range(200):
            status, fields, body = client.ask(b"/n%d" % number)
            expect(status == 200 and body == b"a" and fields[b"via"] == b"1.1 lbproxy", (number, status, fields, body))
    expect([head.split(b" ")[1] for _, head, _ in A.asked[since:]] == [b"/n%d" % n for n in range(200)], "other requests came")
    expect(len(connections_of(A, since)) <= 2, "the backend's connection isn't kept")


def weights_hold_over_600_requests():
    with Client(RR) as client:
        counts = collections.Counter(client.ask(b"/")[2] for _ in range(600))
    expect(counts == {b"a": 120, b"b": 360, b"c": 120}, counts)


def pipelined_requests_are_answered_in_order():
    with Client(ONE) as client:
        block = b"POST /echo HTTP/1.1\r\nHost: h\r\nContent-Length: 3\r\n\r\none"
        block += b"GET /chunks HTTP/1.1\r\nHost: h\r\n\r\n"
        block += b"POST /echo HTTP/1.1\r\nHost: h\r\nTransfer-Encoding: chunked\r\n\r\n3\r\ntwo\r\n0\r\n\r\n"
        block += b"GET /last HTTP/1.1\r\nHost: h\r\n\r\n"
        for piece in (block, None):
            if piece:
                client.send(piece)
            else:
                for byte in block:
                    client.send(bytes([byte]))
            expect(client.answer()[2] == b"one", "the first answer differs")
            expect(client.answer()[2].startswith(b"5;a=b\r\nhello"), "the second answer differs")
            expect(client.answer()[2] == b"3\r\ntwo\r\n0\r\n\r\n", "the third answer differs")
            expect(client.answer()[2] == b"a", "the fourth answer differs")


def bodies_pass_both_ways():
    block = os.urandom(2_000_000)
    with Client(ONE) as client:
        client.send(b"POST /echo HTTP/1.1\r\nHost: h\r\nContent-Length: %d\r\n\r\n" % len(block))
        sender = threading.Thread(target=client.send, args=(block,))
        sender.start()
        expect(client.answer()[2] == block, "a body with its length differs")
        sender.join()
        chunks = b"".join(b"%x\r\n" % len(piece) + piece + b"\r\n" for piece in (block[:1], block[1:70000], block[70000:]))
        client.send(b"POST /echo HTTP/1.1\r\nHost: h\r\nTransfer-Encoding: chunked\r\n\r\n")
        sender = threading.Thread(target=client.send, args=(chunks + b"0\r\nX-Sum: 1\r\n\r\n",))
        sender.start()
        expect(client.answer()[2] == chunks + b"0\r\nX-Sum: 1\r\n\r\n", "a body in chunks differs")
        sender.join()


def answers_without_a_body():
    with Client(ONE) as client:
        status, fields, _ = client.ask(b"/", method=b"HEAD")
        expect(status == 200 and fields[b"content-length"] == b"0", fields)
        status, fields, _ = client.ask(b"/same")
        expect(status == 304 and fields[b"content-length"] == b"77" and fields[b"etag"] == b'"1"', fields)
        status, fields, _ = client.ask(b"/none")
        expect(status == 204 and fields[b"x-kind"] == b"none", fields)
        expect(client.ask(b"/empty")[2] == b"", "there is a body")
        expect(client.ask(b"/")[2] == b"a", "the connection doesn't go on")


def an_answer_up_to_the_end_closes():
    with Client(ONE) as client:
        status, fields, body = client.ask(b"/close")
        expect(status == 200 and body == b"up to the end" and fields[b"connection"] == b"close", (fields, body))


def expectations_and_hints_pass():
    with Client(ONE) as client:
        client.send(b"POST /echo HTTP/1.1\r\nHost: h\r\nContent-Length: 4\r\nExpect: 100-continue\r\n\r\n")
        expect(client.answer()[0] == 100, "no 100")
        client.send(b"body")
        expect(client.answer()[2] == b"body", "the body differs")
        status, fields, _ = client.ask(b"/interim")
        expect(status == 103 and fields[b"link"] == b"</a>", (status, fields))
        expect(client.answer()[2] == b"after hints", "no answer after hints")
        client.send(b"GET /interim HTTP/1.0\r\n\r\n")
        status, fields, body = client.answer()
        expect(status == 200 and body == b"after hints" and fields[b"connection"] == b"close", (status, fields, body))


def the_client_chooses_to_close():
    with Client(ONE) as client:
        status, fields, body = client.ask(b"/", b"Connection: close\r\n")
        expect(status == 200 and body == b"a" and fields[b"connection"] == b"close" and client.has_ended(), fields)
    with Client(ONE) as client:
        client.send(b"GET / HTTP/1.0\r\nConnection: keep-alive\r\n\r\n")
        status, fields, body = client.answer()
        expect(status == 200 and body == b"a" and fields[b"connection"] == b"keep-alive", fields)
        client.send(b"GET / HTTP/1.0\r\n\r\n")
        expect(client.answer()[2] == b"a" and client.has_ended(), "HTTP/1.0 isn't closed")


def fields_of_one_connection_are_removed():
    more = b"Connection: X-Mine, keep-alive\r\nX-Mine: 1\r\nKeep-Alive: 5\r\nProxy-Connection: x\r\nTE: trailers\r\nUpgrade: h2c\r\n"
    more += b"X-Forwarded-For: 10.0.0.1\r\nX-Forwarded-For: 10.0.0.2\r\nX-Other: 2\r\n"
    with Client(ONE, "127.0.0.7") as client:
        head = client.ask(b"/head", more)[2]
        seen = fields_of(head)
        expect(not {b"x-mine", b"keep-alive", b"proxy-connection", b"te", b"upgrade", b"connection"} & set(seen), seen)
        expect(seen[b"x-forwarded-for"] == b"10.0.0.1, 10.0.0.2, 127.0.0.7" and seen[b"x-other"] == b"2", seen)
        expect(seen[b"via"] == b"1.1 lbproxy" and seen[b"host"] == b"here" and head.startswith(b"GET /head HTTP/1.1\r\n"), head)
        status, seen, body = client.ask(b"/hops")
        expect(status == 200 and body == b"hops" and seen[b"x-kept"] == b"2", seen)
        expect(not {b"x-own", b"keep-alive", b"proxy-connection", b"upgrade", b"connection"} & set(seen), seen)
        expect(seen[b"via"] == b"1.0 other, 1.1 lbproxy", seen)


# ---- selection

def the_target_is_a_key():
    with Client(URI) as client:
        chosen = {target: client.ask(b"/%d" % target)[2] for target in range(60)}
        expect(set(chosen.values()) == {b"a", b"b", b"c"}, chosen)
        expect(all(client.ask(b"/%d" % target)[2] == name for target, name in chosen.items()), "a target has two backends")


def a_field_is_a_key():
    with Client(FIELD) as client:
        chosen = {user: client.ask(b"/", b"x-user: u%d\r\n" % user)[2] for user in range(60)}
        expect(set(chosen.values()) == {b"a", b"b", b"c"}, chosen)
        again = {user: ask(FIELD, b"/other", b"X-User: u%d\r\n" % user)[2] for user in range(60)}
        expect(again == chosen, "a user has two backends")
    expect(len({ask(FIELD, b"/%d" % number)[2] for number in range(9)}) == 1, "without the field the address isn't the key")


def least_goes_by_requests_in_progress():
    clients = [Client(LEAST) for _ in range(25)]
    since = {name: len(backend.asked) for name, backend in zip("abc", (A, B, C))}
    for client in clients:
        client.send(b"GET /slow?2 HTTP/1.1\r\nHost: h\r\n\r\n")
        time.sleep(0.01)
    for client in clients:
        expect(client.answer()[2] == b"slow", "no answer")
    counts = {name: len(backend.asked) - since[name] for name, backend in zip("abc", (A, B, C))}
    for client in clients:
        client.__exit__()
    expect(counts == {"a": 5, "b": 15, "c": 5}, counts)


# ---- what is refused

SMUGGLED = b"GET /smuggled HTTP/1.1\r\nHost: h\r\n\r\n"


def ambiguous_requests_are_refused():
    since = len(A.asked)
    expect(len(REQUESTS) >= 50, len(REQUESTS))
    for name, request, wanted in REQUESTS:
        for pieces in ((request,), (request[:7], request[7:] + SMUGGLED)):
            with Client(ONE) as client:
                for piece in pieces:
                    client.send(piece)
                    time.sleep(0.002)
                status, fields, _ = client.answer() or (0, {}, b"")
                expect(status == wanted and fields[b"connection"] == b"close" and client.has_ended(), (name, status, fields))
    expect(len(A.asked) == since, f"a backend got {A.asked[since:]}")


def ambiguous_bodies_are_refused():
    since = len(A.asked)
    for name, body in BODIES:
        with Client(ONE) as client:
            client.send(b"POST /echo HTTP/1.1\r\nHost: h\r\nTransfer-Encoding: chunked\r\n\r\n" + body)
            status, fields, _ = client.answer() or (0, {}, b"")
            expect(status == 400 and fields[b"connection"] == b"close" and client.has_ended(), (name, status, fields))
    expect(len(A.asked) == since, f"a backend got {A.asked[since:]}")


def heads_have_limits():
    with Client(ONE) as client:
        expect(client.ask(b"/head", b"X-Long: " + b"x" * 60000 + b"\r\n")[0] == 200, "60,000 bytes are refused")
    for length, status in ((65536, 200), (65537, 431)):
        head = b"GET / HTTP/1.1\r\nHost: h\r\nX-Long: "
        with Client(ONE) as client:
            client.send(head + b"x" * (length - len(head) - 4) + b"\r\n\r\n")
            expect(client.answer()[0] == status, f"another status for {length} bytes")
    for fields, status in ((100, 200), (101, 431)):
        with Client(ONE) as client:
            client.send(b"GET / HTTP/1.1\r\nHost: h\r\n" + b"A: b\r\n" * (fields - 1) + b"\r\n")
            expect(client.answer()[0] == status, f"another status for {fields} fields")
    with Client(ONE) as client:
        client.send(b"GET / HTTP/1.1\r\nHost: h\r\nX-Long: " + b"x" * 70000 + b"\r\n\r\n")
        expect(client.answer()[0] == 431 and client.has_ended(), "70,000 bytes are taken")
    with Client(ONE) as client:
        client.send(b"GET / HTTP/1.1\r\nHost: h\r\n" + b"A: b\r\n" * 200 + b"\r\n")
        expect(client.answer()[0] == 431, "200 fields are taken")
    for request, status in (
        (b"GET / HTTP/2.0\r\nHost: h\r\n\r\n", 505),
        (b"CONNECT h:1 HTTP/1.1\r\nHost: h:1\r\n\r\n", 501),
        (b"POST / HTTP/1.1\r\nHost: h\r\nTransfer-Encoding: gzip\r\n\r\n", 501),
    ):
        with Client(ONE) as client:
            client.send(request)
            expect(client.answer()[0] == status, request)


def a_bad_chunk_of_a_request_cuts_both():
    since = len(A.asked)
    with Client(ONE) as client:
        client.send(b"POST /echo HTTP/1.1\r\nHost: h\r\nTransfer-Encoding: chunked\r\n\r\n3\r\none\r\n")
        time.sleep(0.1)
        client.send(b"zz\r\nGET /smuggled HTTP/1.1\r\nHost: h\r\n\r\n")
        expect(client.answer()[0] == 400 and client.has_ended(), "it is taken")
    time.sleep(0.1)
    expect(all(b"smuggled" not in head for _, head, _ in A.asked[since:]), "a request was smuggled")


def bad_answers_are_502():
    for kind in (b"line", b"lengths", b"both", b"coding", b"feed", b"switch", b"field"):
        with Client(ONE) as client:
            status, fields, body = client.ask(b"/bad/" + kind)
            expect(status == 502 and body == b"", (kind, status))
            expect(b"connection" not in fields or fields[b"connection"] == b"keep-alive", fields)
            expect(client.ask(b"/")[2] == b"a", f"{kind}: the connection doesn't go on")


def no_backend_is_503():
    for port in (EMPTY, DOWN):
        with Client(port) as client:
            expect([client.ask(b"/")[0] for _ in range(2)] == [503, 503], "another status")
            client.send(b"POST / HTTP/1.1\r\nHost: h\r\nContent-Length: 9\r\n\r\n")
            status, fields, _ = client.answer()
            expect(status == 503 and fields[b"connection"] == b"close" and client.has_ended(), fields)


def a_backend_that_refuses_is_passed_over():
    with Client(BOTH) as client:
        expect([client.ask(b"/")[2] for _ in range(10)] == [b"a"] * 10, "a request failed")


def a_slow_answer_is_504():
    port = free_port()
    proxy = Proxy(
        f'[limits]\nanswer = "1s"\n[[pool]]\nname = "p"\nbackends = ["{A.address}"]\n'
        f'[[listen]]\naddress = "127.0.0.1:{port}"\nmode = "http"\npool = "p"\n'
    )
    try:
        wait_until(lambda: ask(port, b"/")[2] == b"a", "it doesn't run")
        with Client(port) as client:
            begun = time.monotonic()
            status, _, _ = client.ask(b"/slow?3")
            took = time.monotonic() - begun
            expect(status == 504 and 0.9 < took < 2.5, (status, took))
            expect(client.ask(b"/")[2] == b"a", "the connection doesn't go on")
    finally:
        proxy.process.kill()


def idle_connections_are_closed_and_a_slow_head_is_408():
    port = free_port()
    proxy = Proxy(
        f'[limits]\nidle = "500ms"\nmax_connections = 2\n[[pool]]\nname = "p"\nbackends = ["{IDLE.address}"]\n'
        f'[[listen]]\naddress = "127.0.0.1:{port}"\nmode = "http"\npool = "p"\n'
    )
    try:
        wait_until(lambda: ask(port, b"/")[2] == b"idle", "it doesn't run")
        begun = time.monotonic()
        with Client(port) as slow, Client(port) as kept, Client(port) as third:
            expect(kept.ask(b"/")[2] == b"idle" and IDLE.live, "no answer")
            slow.send(b"GET / HTTP/1.1\r\nHost: h")
            third.send(b"GET / HTTP/1.1\r\nHost: h\r\n\r\n")
            expect(slow.answer()[0] == 408 and slow.has_ended() and kept.has_ended(), "a connection goes on")
            took = time.monotonic() - begun
            expect(0.4 < took < 2.5, took)
            expect(third.answer()[2] == b"idle" and time.monotonic() - begun > 0.4, "more connections than the limit were taken")
        wait_until(lambda: not IDLE.live, "the backend's connections are kept for long")
    finally:
        proxy.process.kill()


# ---- connections to backends that die

def a_dead_connection_is_tried_again():
    with Client(ONE) as client:
        expect(client.ask(b"/once")[2] == b"a", "no answer")
        for method in (b"GET", b"HEAD", b"OPTIONS", b"TRACE", b"PUT", b"DELETE"):
            status, _, body = client.ask(b"/once", method=method)
            expect(status == 200 and body == (b"" if method == b"HEAD" else b"a"), f"{method} isn't sent once more")


def a_post_is_sent_once():
    with Client(ONE) as client:
        expect(client.ask(b"/")[2] == b"a", "no answer")
        since = len(A.asked)
        status, _, _ = client.ask(b"/once", b"Content-Length: 1\r\n", b"POST", b"x")
        if status == 200:
            status, _, _ = client.ask(b"/once", b"Content-Length: 1\r\n", b"POST", b"x")
            since += 1
    posts = [head for _, head, _ in A.asked[since:] if head.startswith(b"POST")]
    expect(status == 502 and len(posts) == 1, (status, posts))


def bytes_that_nobody_asked_for_are_dropped():
    with Client(ONE) as client:
        for _ in range(3):
            expect(client.ask(b"/behind")[2] == b"whole" and client.ask(b"/")[2] == b"a", "an answer is another's")


def an_early_answer_passes():
    with Client(ONE) as client:
        client.send(b"POST /early HTTP/1.1\r\nHost: h\r\nContent-Length: 100000\r\n\r\n" + b"x" * 1000)
        status, _, body = client.answer()
        expect(status == 413 and body == b"too much" and client.has_ended(), (status, body))


def a_cut_answer_is_never_whole():
    for target in (b"/cut", b"/cut-chunks"):
        with Client(ONE) as client:
            client.send(b"GET " + target + b" HTTP/1.1\r\nHost: h\r\n\r\n")
            said = b""
            with contextlib.suppress(ConnectionResetError):
                said = client.reader.read()
            body = said.partition(b"\r\n\r\n")[2]
            expect(said.startswith(b"HTTP/1.1 200") and body in (b"a part", b"5\r\nhello\r\n"), said)


def a_killed_backend_cuts_the_client():
    port, listener = free_port(), free_port()
    proxy = Proxy(
        f'[[pool]]\nname = "p"\nbackends = ["127.0.0.1:{port}"]\n'
        f'[[listen]]\naddress = "127.0.0.1:{listener}"\nmode = "http"\npool = "p"\n'
    )
    try:
        wait_until(lambda: Client(listener).__exit__() is None, "no proxy")
        for target in (b"/sized", b"/chunked"):
            kill_in_the_middle(target, port, listener)
    finally:
        proxy.process.kill()


def kill_in_the_middle(target, port, listener):
    here = os.path.dirname(os.path.realpath(__file__))
    words = [sys.executable, os.path.join(here, "lbproxy_http_server.py"), str(port)]
    with subprocess.Popen(words) as server, contextlib.ExitStack() as ends:
        ends.callback(server.kill)
        wait_until(lambda: socket.create_connection(("127.0.0.1", port), 1).close() is None, "no server")
        with Client(listener) as client:
            client.send(b"GET " + target + b" HTTP/1.1\r\nHost: h\r\n\r\n")
            part = client.reader.read(5000)
            server.kill()
            server.wait()
            with contextlib.suppress(ConnectionResetError):
                part += client.reader.read()
            expect(part.startswith(b"HTTP/1.1 200") and part.endswith(b"xxx") and len(part) < 11000, part[:200])


def a_stopped_backend_fails_what_is_in_progress():
    stopped = HttpBackend("stopped")
    port, page, ends = free_port(), free_port(), threading.Event()
    proxy = Proxy(
        f'[check]\nevery = "200ms"\ntimeout = "500ms"\n[status]\nlisten = "127.0.0.1:{page}"\n'
        f'[[pool]]\nname = "p"\nbackends = ["{A.address}", "{stopped.address}"]\n'
        f'[[listen]]\naddress = "127.0.0.1:{port}"\nmode = "http"\npool = "p"\n'
    )
    answers = collections.Counter()

    def load():
        while not ends.is_set():
            with Client(port) as client:
                while not ends.is_set():
                    answer = client.ask(b"/")
                    answers[answer and answer[::2]] += 1
                    if not answer:
                        break

    def is_ready():
        backends = json.loads(fetch(page, "/status.json")[1])["pools"][0]["backends"]
        return [b["ready"] for b in backends if b["address"].startswith(stopped.address + "/")][0]

    loads = [threading.Thread(target=load) for _ in range(8)]
    try:
        wait_until(lambda: ask(port, b"/")[2] == b"stopped", "it doesn't run")
        for each in loads:
            each.start()
        wait_until(lambda: answers[200, b"stopped"] > 50, "no load")
        stopped.stop()
        begun = time.monotonic()
        wait_until(lambda: not is_ready(), "it stays ready")
        took = time.monotonic() - begun
        before = answers[200, b"a"]
        wait_until(lambda: answers[200, b"a"] > before + 50, "no answers any more")
        stopped.start()
        wait_until(is_ready, "it isn't ready again")
        before = answers[200, b"stopped"]
        wait_until(lambda: answers[200, b"stopped"] > before + 50, "nothing goes to it again")
    finally:
        ends.set()
        for each in loads:
            each.join()
        proxy.process.kill()
    failed = answers.total() - answers[200, b"a"] - answers[200, b"stopped"]
    expect(failed <= len(loads) and took < 2.5, (answers, took))


def a_backend_has_a_unix_socket():
    path, port = os.path.join(ROOM, "http.socket"), free_port()
    backend = HttpBackend("unix", path)
    proxy = Proxy(
        f'[[pool]]\nname = "p"\nbackends = ["unix:{path}"]\n[[listen]]\naddress = "127.0.0.1:{port}"\nmode = "http"\npool = "p"\n'
    )
    try:
        wait_until(lambda: ask(port, b"/")[2] == b"unix", "it doesn't run")
        with Client(port) as client:
            expect([client.ask(b"/")[2] for _ in range(20)] == [b"unix"] * 20, "an answer differs")
        expect(len(connections_of(backend, 0)) <= 3, "its connections aren't kept")
    finally:
        proxy.process.kill()


# ---- many, slow, and while things change

def resident(proxy):
    with open(f"/proc/{proxy.process.pid}/status", encoding="utf-8") as file:
        return int([line for line in file if line.startswith("VmRSS")][0].split()[1])


def a_slow_reader_takes_little_memory():
    before = resident(PROXY)
    clients = [Client(ONE) for _ in range(20)]
    for client in clients:
        client.send(b"GET /large?30000000 HTTP/1.1\r\nHost: h\r\n\r\n")
    time.sleep(1)
    grown = resident(PROXY) - before
    first = clients[0].answer()
    for client in clients:
        client.__exit__()
    expect(grown < 8000, f"{grown} KiB more")
    expect(first[2] == (bytes(range(256)) * 117188)[:30000000], "the body differs")


def a_thousand_connections():
    with contextlib.ExitStack() as ends:
        clients = [ends.enter_context(Client(RR)) for _ in range(1000)]
        for _ in range(2):
            for client in clients:
                client.send(b"GET / HTTP/1.1\r\nHost: h\r\n\r\n")
            names = collections.Counter(client.answer()[::2] for client in clients)
            expect(sum(names.values()) == 1000 and set(names) == {(200, b"a"), (200, b"b"), (200, b"c")}, names)
        used = resident(PROXY)
    expect(used < 100_000, f"{used} KiB")


def kept_connections_leave_with_their_backend():
    with Client(FILED) as client:
        expect(client.ask(b"/")[2] == b"leaving" and LEAVING.live, "another backend")
        slow = Client(FILED)
        slow.send(b"GET /slow?0.9 HTTP/1.1\r\nHost: h\r\n\r\n")
        time.sleep(0.1)
        write_pool(f"{B.address}\n")
        wait_until(lambda: client.ask(b"/")[2] == b"b", "the new file isn't used")
        expect(slow.answer()[2] == b"slow", "a request in progress was cut")
        slow.__exit__()
        wait_until(lambda: not LEAVING.live, "its connections stay")


def a_disabled_backend_gets_no_request():
    def put(word):
        path = f"/pools/three/backends/{B.address}/{word}"
        request = urllib.request.Request(f"http://127.0.0.1:{PAGE}{path}", method="PUT")
        with urllib.request.urlopen(request, timeout=5) as answer:
            expect(answer.status == 200, word)

    with Client(RR) as client:
        expect(b"b" in {client.ask(b"/")[2] for _ in range(10)}, "it gets none")
        put("disable")
        wait_until(lambda: b"b" not in {client.ask(b"/")[2] for _ in range(10)}, "it still gets some")
        put("enable")
        wait_until(lambda: b"b" in {client.ask(b"/")[2] for _ in range(10)}, "it gets none again")


def counts_are_shown():
    def shown():
        return json.loads(fetch(PAGE, "/status.json")[1])

    before = shown()
    with Client(ONE) as client:
        for _ in range(10):
            client.ask(b"/")
    after = shown()
    one = [[b for p in s["pools"] if p["name"] == "one" for b in p["backends"]][0] for s in (before, after)]
    expect(after["requests"] - before["requests"] == 10 and after["total"] - before["total"] == 1, (before, after))
    expect(one[1]["requests"] - one[0]["requests"] == 10 and one[1]["total"] - one[0]["total"] <= 1, one)
    expect(one[1]["live"] == 0 and one[1]["received"] - one[0]["received"] >= 10 * 39, one)
    metrics = fetch(PAGE, "/metrics")[1]
    expect("lbproxy_requests_total" in metrics and "lbproxy_backend_requests_total{" in metrics, metrics)
    expect("<th>requests" in fetch(PAGE, "/")[1], "the page has no requests")


def the_end_lets_requests_finish():
    idle, busy = Client(ONE), Client(ONE)
    expect(idle.ask(b"/")[2] == b"a", "no answer")
    busy.send(b"GET /slow?0.8 HTTP/1.1\r\nHost: h\r\n\r\n")
    time.sleep(0.2)
    begun = time.monotonic()
    PROXY.process.stdin.close()
    status, fields, body = busy.answer()
    expect(status == 200 and body == b"slow" and fields[b"connection"] == b"close", (status, fields, body))
    expect(idle.has_ended() and busy.has_ended(), "a connection goes on")
    expect(PROXY.process.wait(10) == 0 and time.monotonic() - begun < 4, "another status, or late")


def write_pool(text):
    with open(FILE + ".new", "w", encoding="utf-8") as file:
        file.write(text)
    os.rename(FILE + ".new", FILE)


soft, hard = resource.getrlimit(resource.RLIMIT_NOFILE)
resource.setrlimit(resource.RLIMIT_NOFILE, (min(hard, 16384), hard))
write_pool(f"{LEAVING.address}\n")
PROXY = Proxy(CONFIG)
try:
    wait_until(lambda: fetch(PAGE, "/health")[0] == 200 and ask(ONE, b"/"), "the proxy doesn't start", 20)
    for work in (
        a_kept_connection_carries_200_requests,
        weights_hold_over_600_requests,
        pipelined_requests_are_answered_in_order,
        bodies_pass_both_ways,
        answers_without_a_body,
        an_answer_up_to_the_end_closes,
        expectations_and_hints_pass,
        the_client_chooses_to_close,
        fields_of_one_connection_are_removed,
        the_target_is_a_key,
        a_field_is_a_key,
        least_goes_by_requests_in_progress,
        ambiguous_requests_are_refused,
        ambiguous_bodies_are_refused,
        heads_have_limits,
        a_bad_chunk_of_a_request_cuts_both,
        bad_answers_are_502,
        no_backend_is_503,
        a_backend_that_refuses_is_passed_over,
        a_slow_answer_is_504,
        idle_connections_are_closed_and_a_slow_head_is_408,
        a_dead_connection_is_tried_again,
        a_post_is_sent_once,
        bytes_that_nobody_asked_for_are_dropped,
        an_early_answer_passes,
        a_cut_answer_is_never_whole,
        a_killed_backend_cuts_the_client,
        a_stopped_backend_fails_what_is_in_progress,
        a_backend_has_a_unix_socket,
        a_slow_reader_takes_little_memory,
        a_thousand_connections,
        kept_connections_leave_with_their_backend,
        a_disabled_backend_gets_no_request,
        counts_are_shown,
        the_end_lets_requests_finish,
    ):
        case(work)
except AssertionError as error:
    COUNTS["failed"] += 1
    print(f"start: {error}\n{PROXY.log()}")
finally:
    PROXY.process.kill()

end_cases()
