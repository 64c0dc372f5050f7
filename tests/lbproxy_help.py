"""What the cases of lbproxy share. The first argument is the program, with the words before the configuration."""
import collections
import contextlib
import os
import socket
import subprocess
import sys
import tempfile
import time
import urllib.request

PROGRAM = sys.argv[1:]
ROOM = tempfile.mkdtemp()
COUNTS = collections.Counter()


def case(work):
    """Runs a case, and prints what came of it."""
    name = work.__name__.replace("_", "-")
    try:
        work()
        COUNTS["passed"] += 1
        print(f"{name}: as it should be", flush=True)
    except Exception as error:  # pylint: disable=broad-except
        COUNTS["failed"] += 1
        print(f"{name}: {type(error).__name__} {error}", flush=True)


def free_port():
    with socket.socket() as probe:
        probe.bind(("127.0.0.1", 0))
        return probe.getsockname()[1]


class Proxy:
    """A proxy that runs by a configuration until it is ended."""

    def __init__(self, text):
        self.log_path = os.path.join(ROOM, f"log{time.monotonic_ns()}")
        path = os.path.join(ROOM, f"config{time.monotonic_ns()}.toml")
        with open(path, "w", encoding="utf-8") as file:
            file.write(text)
        with open(self.log_path, "w", encoding="utf-8") as log:
            self.process = subprocess.Popen(
                PROGRAM + [path, "--until-eof"], stdin=subprocess.PIPE, stdout=log, stderr=log
            )

    def end(self):
        self.process.stdin.close()
        return self.process.wait(30)

    def log(self):
        with open(self.log_path, encoding="utf-8") as file:
            return file.read()


def wait_until(holds, what, seconds=10.0):
    ends = time.monotonic() + seconds
    while time.monotonic() < ends:
        with contextlib.suppress(OSError):
            if holds():
                return
        time.sleep(0.05)
    raise AssertionError(what)


def expect(holds, what):
    if not holds:
        raise AssertionError(what)


def fetch(port, path):
    try:
        with urllib.request.urlopen(f"http://127.0.0.1:{port}{path}", timeout=5) as answer:
            return answer.status, answer.read().decode()
    except urllib.error.HTTPError as error:
        return error.code, error.read().decode()


def end_cases():
    """Prints the counts, and ends."""
    print(f"{COUNTS['passed']} passed, {COUNTS['failed']} failed")
    sys.exit(COUNTS["failed"] > 0)
