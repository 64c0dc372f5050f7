#!/usr/bin/env python3
"""Prints a script: make_script.py KIND BACKENDS SELECTIONS [REBUILDS]

KIND is fnv, rr, ketama or least: one group of one slot gets BACKENDS backends of weights 1 to 10, its selector is built and
published, REBUILDS times more with one backend exchanged; then SELECTIONS keys select from it, 8 candidates at most.

KIND is mixed: 50 groups of one slot, of all kinds in turn, on 5 gates and 5 registries get BACKENDS backends each, of which
those on one registry have most in common. REBUILDS times more each group's membership changes by one backend. Between its
update and its publication come SELECTIONS rounds of a verdict, a reader that enters and leaves, and three selections.
"""
import sys

KINDS = ("fnv", "rr", "ketama", "least")
GROUPS = 50
SHARED = 5


def members(backends, network=10):
    return " ".join(
        f"{network}.{n // 65536}.{n // 256 % 256}.{n % 256}:80/{n % 10 + 1}" for n in range(backends - 1)
    )


def selecting(kind, backends, selections, rebuilds):
    yield "registry identity"
    yield "gate"
    yield f"group 0 0 {kind} 1"
    shared = members(backends)
    for turn in range(rebuilds + 1):
        yield f"update 0 {turn} {shared} 11.0.0.{turn % 256}:80/1"
        yield f"ask 0 0 {turn}"
        yield f"build 0 0 {turn}"
        yield "publish 0 0"
        yield "destroy 0 0"
    for number in range(selections):
        yield f"select 0 0 key{number} 8"


def requests(group, turn, selections):
    """What comes while a membership is rolled out."""
    for number in range(selections):
        at = turn * selections + number
        yield f"verdict {group % SHARED} {at * 37 % 1000} {'fail' if at % 3 else 'ok'} 1"
        yield f"enter {group} 0"
        for key in range(3):
            yield f"select {(group + key * 17) % GROUPS} 0 key{at + key} 8"
        yield f"leave {(turn * GROUPS + group) * selections + number}"


def mixed(backends, selections, rebuilds):
    for shared in range(SHARED):
        yield "registry identity"
        yield "gate"
    for group in range(GROUPS):
        yield f"group {group % SHARED} {group // 10} {KINDS[group % len(KINDS)]} 1"
    shared = [members(backends, 10 + registry) for registry in range(SHARED)]
    for turn in range(rebuilds + 1):
        for group in range(GROUPS):
            yield f"update {group} {turn} {shared[group % SHARED]} 9.0.{group}.{turn % 256}:80/1"
            yield f"ask {group} 0 {turn}"
            yield f"build {group} 0 {turn}"
            yield from requests(group, turn, selections)
            yield f"publish {group} 0"
            yield f"destroy {group} 0"


def script(kind, backends, selections, rebuilds=0):
    """The script as bytes."""
    made = mixed(backends, selections, rebuilds) if kind == "mixed" else selecting(kind, backends, selections, rebuilds)
    return "".join(line + "\n" for line in made).encode()


if __name__ == "__main__":
    if len(sys.argv) not in (4, 5) or sys.argv[1] not in (*KINDS, "mixed"):
        sys.exit(__doc__)
    sys.stdout.buffer.write(script(sys.argv[1], *map(int, sys.argv[2:])))
