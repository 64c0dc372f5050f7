"""A backend of HTTP/1.1 for the cases of lbproxy: what it does is named by the path, and what it read is kept."""
import contextlib
import socket
import sys
import threading
import time


def fields_of(head):
    """The fields by their names in small letters; values of one name are joined by commas."""
    fields = {}
    for line in head.split(b"\r\n")[1:]:
        if b":" in line:
            name, value = line.split(b":", 1)
            name = name.strip().lower()
            fields[name] = fields[name] + b", " + value.strip() if name in fields else value.strip()
    return fields


def read_chunks(reader):
    """A chunked body as it came, with its trailers."""
    raw = b""
    while True:
        line = reader.readline()
        raw += line
        size = int(line.split(b";")[0], 16) if line.strip() else 0
        if not line:
            raise ValueError("the body is cut")
        if size == 0:
            break
        raw += reader.read(size + 2)
    while line := reader.readline():
        raw += line
        if line == b"\r\n":
            return raw
    raise ValueError("the body is cut")


def sized(body, fields=b"", status=b"200 OK"):
    return b"HTTP/1.1 " + status + b"\r\n" + fields + b"Content-Length: %d\r\n\r\n" % len(body) + body


# What a path answers, as it is.
ANSWERS = {
    b"/empty": sized(b""),
    b"/none": b"HTTP/1.1 204 No Content\r\nX-Kind: none\r\n\r\n",
    b"/same": b"HTTP/1.1 304 Not Modified\r\nETag: \"1\"\r\nContent-Length: 77\r\n\r\n",
    b"/chunks": b"HTTP/1.1 200 OK\r\nTransfer-Encoding: chunked\r\n\r\n5;a=b\r\nhello\r\n3\r\n, x\r\n0\r\nX-Sum: 8\r\n\r\n",
    b"/interim": b"HTTP/1.1 103 Early Hints\r\nLink: </a>\r\n\r\n" + sized(b"after hints"),
    b"/hops": sized(
        b"hops",
        b"Connection: X-Own, keep-alive\r\nX-Own: 1\r\nKeep-Alive: timeout=5\r\nProxy-Connection: x\r\nUpgrade: h2c\r\n"
        b"Trailer: X-T\r\nX-Kept: 2\r\nVia: 1.0 other\r\n",
    ),
    b"/bad/line": b"HTTP/1.1 2x0 OK\r\n\r\n",
    b"/bad/lengths": b"HTTP/1.1 200 OK\r\nContent-Length: 1\r\nContent-Length: 2\r\n\r\nab",
    b"/bad/both": b"HTTP/1.1 200 OK\r\nContent-Length: 5\r\nTransfer-Encoding: chunked\r\n\r\n0\r\n\r\n",
    b"/bad/coding": b"HTTP/1.1 200 OK\r\nTransfer-Encoding: gzip\r\n\r\nabc",
    b"/bad/feed": b"HTTP/1.1 200 OK\nContent-Length: 1\n\na",
    b"/bad/switch": b"HTTP/1.1 101 Switching Protocols\r\nUpgrade: websocket\r\nConnection: upgrade\r\n\r\n",
    b"/bad/field": b"HTTP/1.1 200 OK\r\nA b: 1\r\nContent-Length: 1\r\n\r\na",
}


class HttpBackend:
    """Serves each connection by a thread. `asked` has the number of the connection, the head and the body of each request, `live` the
    numbers of the connections that haven't ended."""

    def __init__(self, name, path=None):
        self.name, self.asked, self.count = name.encode(), [], 0
        self.lock = threading.Lock()
        self.path, self.port, self.open, self.live = path, 0, [], set()
        self.start()
        self.address = f"127.0.0.1:{self.port}"

    def start(self):
        if self.path:
            self.server = socket.socket(socket.AF_UNIX)
            self.server.bind(self.path)
            self.server.listen(1024)
        else:
            self.server = socket.create_server(("127.0.0.1", self.port), backlog=1024)
            self.port = self.server.getsockname()[1]
        threading.Thread(target=self.serve, args=(self.server,), daemon=True).start()

    def serve(self, server):
        while True:
            try:
                peer, _ = server.accept()
            except OSError:
                return
            self.count += 1
            self.live.add(self.count)
            self.open.append(peer)
            threading.Thread(target=self.talk, args=(peer, self.count), daemon=True).start()

    def stop(self):
        """Takes no connections any more, and ends those that it has."""
        with contextlib.suppress(OSError):
            self.server.shutdown(socket.SHUT_RDWR)
        self.server.close()
        for peer in self.open:
            with contextlib.suppress(OSError):
                peer.shutdown(socket.SHUT_RDWR)

    def talk(self, peer, number):
        with contextlib.suppress(OSError, ValueError), peer, peer.makefile("rb") as reader:
            if not self.path:
                peer.setsockopt(socket.IPPROTO_TCP, socket.TCP_NODELAY, 1)
            turn = 0
            while self.answer_one(peer, reader, number, turn):
                turn += 1
        self.live.discard(number)

    def answer_one(self, peer, reader, number, turn):
        """Answers one request. Returns whether the connection goes on."""
        head = b""
        while not head.endswith(b"\r\n\r\n"):
            line = reader.readline()
            if not line:
                return False
            head += line
        method, target = head.split(b" ")[:2]
        path = target.split(b"?")[0]
        fields = fields_of(head)
        if fields.get(b"expect") == b"100-continue":
            peer.sendall(b"HTTP/1.1 100 Continue\r\n\r\n")
        if path == b"/early":
            peer.sendall(sized(b"too much", b"Connection: close\r\n", b"413 Content Too Large"))
            return False
        if b"chunked" in fields.get(b"transfer-encoding", b"").lower():
            body = read_chunks(reader)
        else:
            body = reader.read(int(fields.get(b"content-length", b"0")))
        with self.lock:
            self.asked.append((number, head, body))
        return self.answer(peer, method, target, head, body, turn)

    def answer(self, peer, method, target, head, body, turn):
        path, _, query = target.partition(b"?")
        keeps = b"HTTP/1.1" in head.split(b"\r\n")[0]
        if path in ANSWERS:
            peer.sendall(ANSWERS[path])
            return keeps and not path.startswith(b"/bad")
        if path == b"/head":
            peer.sendall(sized(head))
        elif path == b"/echo" and b"chunked" in fields_of(head).get(b"transfer-encoding", b""):
            peer.sendall(b"HTTP/1.1 200 OK\r\nTransfer-Encoding: chunked\r\n\r\n" + body)
        elif path == b"/echo":
            peer.sendall(sized(body))
        elif path == b"/large":
            self.send_large(peer, int(query))
        elif path == b"/close":
            peer.sendall(b"HTTP/1.1 200 OK\r\n\r\nup to the end")
            return False
        elif path == b"/slow":
            time.sleep(float(query))
            peer.sendall(sized(b"slow"))
        elif path == b"/once" and turn > 0:
            return False
        elif path == b"/cut":
            peer.sendall(b"HTTP/1.1 200 OK\r\nContent-Length: 1000\r\n\r\na part")
            return False
        elif path == b"/cut-chunks":
            peer.sendall(b"HTTP/1.1 200 OK\r\nTransfer-Encoding: chunked\r\n\r\n5\r\nhello\r\n")
            return False
        elif path == b"/behind":
            peer.sendall(sized(b"whole") + b"HTTP/1.1 200 OK\r\nContent-Length: 6\r\n\r\nunasked")
        else:
            peer.sendall(sized(b"" if method == b"HEAD" else self.name))
        return keeps

    @staticmethod
    def send_large(peer, size):
        peer.sendall(b"HTTP/1.1 200 OK\r\nContent-Length: %d\r\n\r\n" % size)
        block = bytes(range(256)) * 256
        while size > 0:
            peer.sendall(block[:size])
            size -= min(size, len(block))


def serve_part(port):
    """Begins an answer of a megabyte to each request, in chunks where the path says so, and goes on no further."""
    listener = socket.create_server(("127.0.0.1", port))
    kept = []
    while True:
        peer, _ = listener.accept()
        kept.append(peer)
        asked = peer.recv(65536)
        if b"/chunked" in asked:
            peer.sendall(b"HTTP/1.1 200 OK\r\nTransfer-Encoding: chunked\r\n\r\nf4240\r\n" + b"x" * 10000)
        elif asked:
            peer.sendall(b"HTTP/1.1 200 OK\r\nContent-Length: 1000000\r\n\r\n" + b"x" * 10000)


# (a process of its own, so that it can be killed)
if __name__ == "__main__":
    serve_part(int(sys.argv[1]))
