#!/usr/bin/env python3
"""Prints a script of random lines: random_script.py SEED

Most lines are steps that can be refused or answered; now and then one ends the script.
"""
import random
import sys

ADDRESSES = [
    "1.0.0.1:80", "1.0.0.2:80", "1.0.0.1:81", "1.1.1.1:80", "255.255.255.255:65535",
    "[::1]:80", "[2001:db8::1]:443", "[::ffff:1.2.3.4]:80", "[fe80::1%0]:80", "unix:/a", "unix:/b/c",
]
REFUSED = ["nonsense", "unix:", "1.1.1.1", "[fe80::1%3]:80", "256.1.1.1:80", "1.0.0.1:080", "01.0.0.1:80", "", "!1.0.0.1:80", "+1.0.0.1:80"]
WEIGHTS = ["0", "1", "1", "2", "3", "7"]
LARGE = ["26843546", "18446744073709551615"]
KINDS = ["fnv", "rr", "ketama", "least"]
ENDINGS = [
    "", "gate ", "gate\r", "bogus", "registry", "registry name", "registry identity healthy", "select 0 0  1", "select 0 0 k 01",
    "leave", "update 0 x", "update 0 0 1.0.0.1:80", "update 0 0 1.0.0.1:80/18446744073709551616", "group 0 0 fnv 1025",
    "ask 0 0 340282366920938463463374607431768211456", "verdict 0 0 good 1", "verdict 0 0 ok", "ready 0",
    "update 0 0 !", "load 0 1.0.0.1:80/1", "lost 0", "failbuild 0 0",
    "cancel", "targets 0 0", "counts 0", "timing 0 0 0", "abandon 0 0 0",
]


class Script:
    """Where a script has come to: its lines, its moment, and a few backends that come again and again."""

    def __init__(self, seed):
        self.dice = random.Random(seed)
        self.now = 0
        self.turning = []
        self.known = [self.any_backend() for _ in range(self.dice.randrange(2, 7))]

    def moment(self):
        self.now += self.dice.choice([0, 1, 5, 1000, 5000000, 10000000, 700000000])
        return max(0, self.now - self.dice.choice([0, 0, 0, 0, 3, 10000000]))

    def any_backend(self):
        address = self.dice.choice(ADDRESSES) if self.dice.random() < 0.95 else self.dice.choice(REFUSED)
        weight = self.dice.choice(WEIGHTS) if self.dice.random() < 0.95 else self.dice.choice(LARGE)
        return f"{address}/{weight}"

    def backend(self):
        return self.dice.choice(self.known) if self.dice.random() < 0.9 else self.any_backend()

    def update(self):
        words = "".join(f" {self.dice.choice(['', '', '', '!', '+'])}{self.backend()}" for _ in range(self.dice.randrange(6)))
        return f"update {self.group()} {self.moment()}{words}"

    def registry(self):
        return f"registry {self.dice.choice(['identity', 'address'])}{self.dice.choice(['', '', ' unhealthy'])}"

    def group(self):
        return self.dice.choice([0, 0, 0, 1, 1, 2]) if self.dice.random() < 0.95 else 7

    def turn(self):
        """What a slot goes through, most often whole and in order."""
        at = f"{self.group()} {self.dice.randrange(2)}"
        self.turning = [f"ask {at} {self.moment()}", f"build {at} {self.moment()}", f"publish {at}", f"destroy {at}"]
        return self.turning.pop(0)

    def step(self):
        dice = self.dice
        number = dice.randrange
        if self.turning and dice.random() < 0.6:
            return self.turning.pop(0)
        group = self.group()
        at = f"{group} {dice.choice([0, 0, 0, 0, 1, 1, 2])}"
        makers = [
            (20, self.turn),
            (1, self.registry),
            (1, lambda: "gate"),
            (1, lambda: f"group {number(2)} {number(2)} {dice.choice(KINDS)} {number(3)}"),
            (15, self.update),
            (6, lambda: f"ask {at} {self.moment()}"),
            (5, lambda: f"build {at} {self.moment()}"),
            (3, lambda: f"failbuild {at} {self.moment()}"),
            (2, lambda: f"lost {at}"),
            (5, lambda: f"publish {at}"),
            (2, lambda: f"abandon {at}"),
            (6, lambda: f"enter {at}"),
            (6, lambda: f"ready {number(4)} {self.backend()}"),
            (6, lambda: f"leave {number(5)}"),
            (6, lambda: f"destroy {at}"),
            (18, lambda: f"select {at} key{number(50)} {dice.choice([0, 1, 2, 3, 9])}"),
            (9, lambda: f"verdict {dice.choice([0, 0, 1])} {number(9)} {dice.choice(['ok', 'fail'])} {number(3)}"),
            (4, lambda: f"enable {group} {self.backend()}"),
            (5, lambda: f"disable {group} {self.backend()}"),
            (5, lambda: f"load {group} {self.backend()} {dice.choice([0, 1, 2, 5, 9, 18446744073709551615])}"),
            (0.4, lambda: f"cancel {group}"),
            (4, lambda: f"targets {number(2)}"),
            (5, lambda: f"counts {at}"),
            (5, lambda: f"timing {at}"),
        ]
        return dice.choices([make for _, make in makers], [often for often, _ in makers])[0]()


def script(seed):
    """The script as bytes; the same seed gives the same script."""
    made = Script(seed)
    dice = made.dice
    lines = [made.registry(), "gate"] + [f"group 0 0 {dice.choice(KINDS)} 2" for _ in range(dice.randrange(1, 3))]
    lines += [made.step() for _ in range(dice.randrange(250))]
    if dice.random() < 0.3:
        lines.insert(dice.randrange(len(lines)), dice.choice(ENDINGS))
    return ("\n".join(lines) + dice.choice(["\n", "\n", ""])).encode()


if __name__ == "__main__":
    if len(sys.argv) != 2:
        sys.exit(__doc__)
    sys.stdout.buffer.write(script(int(sys.argv[1])))
