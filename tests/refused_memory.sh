#!/bin/bash
# Each request for memory refused in turn: `lbsim` over the worked scripts of lb_rows, once for each request that it
# makes. What it writes has to be a beginning of the worked answers, then `error LINE OutOfMemory`, or the answer of a step that
# was refused 10 or whose build failed with 10, after which each line is answered as if that step had not been taken, or had
# been ordered to fail. What comes after such a step is asked of bench/plain. The C library's calls are refused by refuse.c,
# which is compiled here by `cc`. A line for each script; the last line is 'N passed, M failed'.
# LBSIM names another program than the one that ./lbsim builds; arguments are names of scripts, else all are run.
set -euo pipefail
unset CDPATH

here=$(dirname "$(readlink -f "${BASH_SOURCE[0]}")")
room=$(mktemp -d)
trap 'rm -rf "$room"' EXIT
if [ -z "${LBSIM-}" ]; then
    "$here/../lbsim" --prove
    LBSIM=$here/../crates/lbsim/out/lbsim
fi
cc -O1 -shared -fPIC -o "$room/refuse.so" "$here/refuse.c"
(cd "$here/../bench/plain" && cargo build --release --offline --quiet)
ROOM=$room LBSIM=$LBSIM PLAIN=$here/../bench/plain/target/release/plainsim ROWS=$here/../crates/lb_rows/data \
    python3 - "$@" <<'END'
import os
import subprocess
import sys
from concurrent.futures import ThreadPoolExecutor

ROOM, LBSIM, PLAIN, ROWS = (os.environ[name] for name in ("ROOM", "LBSIM", "PLAIN", "ROWS"))


def written(program, lines, number=None, counted="/dev/null"):
    """What the program writes, a list of lines; the Nth request refused, and their number in that file."""
    told = {} if number is None else {
        "REFUSED": str(number), "COUNTED": counted, "LD_PRELOAD": f"{ROOM}/refuse.so"}
    run = subprocess.run([program], input=b"".join(line + b"\n" for line in lines), stdout=subprocess.PIPE, env=told)
    return run.stdout.split(b"\n")[:-1]


def instead(line):
    """The lines that may come in the place of one that was refused for memory."""
    words = line.split(b" ")
    if words[0] == b"build":
        return [[b"failbuild " + b" ".join(words[1:])]]
    if words[0] == b"select":
        # It may have drawn tickets, as many as a selection of a lower limit draws.
        return [[]] + [[b" ".join(words[:-1] + [b"%d" % limit])] for limit in range(min(int(words[-1]), 16) + 1)]
    return [[]]


def renumbered(answer, missing):
    """An answer, or an error at a line behind which this many lines are missing."""
    words = answer.split(b" ")
    if words[0] != b"error":
        return answer
    return b" ".join((words[0], b"%d" % (int(words[1]) + missing), *words[2:]))


def goes_on(lines, at, rest, known):
    """Whether the rest answers the lines after that one as the yardstick does. It is asked once for each stand-in of a line."""
    for number, stand_in in enumerate(instead(lines[at])):
        if (at, number) not in known:
            answers = written(PLAIN, lines[:at] + stand_in + lines[at + 1:])
            known[at, number] = [renumbered(line, 1 - len(stand_in)) for line in answers[at + len(stand_in):]]
        if known[at, number] == rest:
            return True
    return False


def is_right(lines, answers, got, known):
    """Whether this may be written for the lines, whose worked answers are given, and what the yardstick answered so far."""
    same = 0
    while same < min(len(got), len(answers)) and got[same] == answers[same]:
        same += 1
    if got == answers:
        return True
    if same >= len(got):
        return False
    line = got[same]
    if line == b"error %d OutOfMemory" % (same + 1):
        return len(got) == same + 1
    words = line.split(b" ")
    refused = line == b"refused 10 OutOfMemory" or (words[0] == b"failed" and words[2:] == [b"10", b"OutOfMemory"])
    return refused and goes_on(lines, same, got[same + 1:], known)


def row(name):
    with open(f"{ROWS}/{name}.script", "rb") as source:
        lines = source.read().split(b"\n")
    if lines[-1] == b"":
        lines.pop()
    with open(f"{ROWS}/{name}.answers", "rb") as source:
        answers = source.read().split(b"\n")[:-1]
    counted = f"{ROOM}/{name}.counted"
    if written(LBSIM, lines, 0, counted) != answers:
        return f"{name}: other answers with all memory", False
    with open(counted) as source:
        requests = int(source.read())
    known = {}
    wrong = [number for number in range(1, requests + 1) if not is_right(lines, answers, written(LBSIM, lines, number), known)]
    told = f"wrong where request {wrong[:5]} is refused" if wrong else "as it should be"
    return f"{name}: {requests} requests, {told}", not wrong


names = sys.argv[1:] or sorted(file[:-7] for file in os.listdir(ROWS) if file.endswith(".script"))
failed = 0
with ThreadPoolExecutor(os.cpu_count()) as pool:
    for told, passed in pool.map(row, names):
        print(told, flush=True)
        failed += not passed
print(f"{len(names) - failed} passed, {failed} failed")
sys.exit(failed != 0)
END
