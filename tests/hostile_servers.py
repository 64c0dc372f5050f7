#!/usr/bin/env python3
"""Hostile servers on the own loopback, for tests/lbcheck_cases.sh. Each has a port of its own: a line 'NAME at PORT' for each. They note
how long each connection lasted, 'NAME took SECONDS', and all end with standard input, or after an hour."""
import os
import socket
import struct
import sys
import threading
import time

HEAD = b"HTTP/1.1 200 OK\r\n"
ANSWER = HEAD + b"Content-Length: 2\r\n\r\nok"
MEBIBYTE = 1 << 20
# Before its last bytes a server waits so long, in seconds: what the check needs by then can be seen meanwhile.
PAUSE = 0.3


def read_request(peer):
    text = b""
    while b"\r\n\r\n" not in text:
        part = peer.recv(4096)
        if not part:
            return
        text += part


def drip(peer):
    """One byte each 900 ms for ever."""
    read_request(peer)
    peer.sendall(HEAD + b"X-Drip: ")
    peer.settimeout(0.9)
    while True:
        try:
            if not peer.recv(1):
                return
        except TimeoutError:
            peer.sendall(b"x")


def reset(peer):
    """A part of a head, and then RST."""
    read_request(peer)
    peer.sendall(HEAD)
    time.sleep(PAUSE)
    peer.setsockopt(socket.SOL_SOCKET, socket.SO_LINGER, struct.pack("ii", 1, 0))


def send_much(peer, start, part):
    read_request(peer)
    peer.sendall(start)
    time.sleep(PAUSE)
    for _ in range(100 * MEBIBYTE // len(part)):
        peer.sendall(part)


def long_field(peer):
    """100 MiB of one field."""
    send_much(peer, HEAD + b"X-Long: " + b"x" * 65000, b"x" * MEBIBYTE)


def many_fields(peer):
    """100 MiB of fields."""
    send_much(peer, HEAD + b"X: y\r\n" * 60, b"X: y\r\n" * (MEBIBYTE // 6))


def empty_lines(peer):
    """100 MiB of empty lines."""
    send_much(peer, b"\r\n" * 30000, b"\r\n" * (MEBIBYTE // 2))


def early(peer):
    """The answer before the request, but for its last byte."""
    peer.sendall(ANSWER[:-1])
    read_request(peer)
    time.sleep(PAUSE)
    peer.sendall(ANSWER[-1:])
    peer.recv(1)


def serve(act, peer):
    start = time.monotonic()
    with peer:
        try:
            act(peer)
        except OSError:
            pass
    print(f"{act.__name__} took {time.monotonic() - start:.1f}", flush=True)


def accept(listener, act):
    while True:
        peer, _ = listener.accept()
        threading.Thread(target=serve, args=(act, peer), daemon=True).start()


def main():
    for act in (drip, reset, long_field, many_fields, empty_lines, early):
        listener = socket.create_server(("127.0.0.1", 0))
        print(act.__name__, "at", listener.getsockname()[1], flush=True)
        threading.Thread(target=accept, args=(listener, act), daemon=True).start()
    # One that takes no connection, and whose queue is full: to connect to it has no end.
    full = socket.create_server(("127.0.0.1", 0), backlog=0)
    waiting = []
    for _ in range(4):
        waiting.append(socket.socket())
        waiting[-1].setblocking(False)
        waiting[-1].connect_ex(full.getsockname())
    time.sleep(0.2)
    print("full", "at", full.getsockname()[1], flush=True)
    threading.Timer(3600, os._exit, (0,)).start()
    sys.stdin.read()
    os._exit(0)


main()
