#!/usr/bin/env python3
"""Prints, for each crate, its lemma files, and the functions whose proofs use each.

A function uses a file that its answers or invariants cite, and the lemma files that this one cites. A file that a source
file itself cites, in an attribute or a ghost item, has that file's name. Of a file under no function of its crate, the crates above whose
proofs cite it.
"""
import os
import re
import textwrap

TOP = os.path.dirname(os.path.dirname(os.path.realpath(__file__)))
HEAD = """# Lemma files

For each lemma file of a crate (`proofs/FILE.antt`), the functions whose proofs use it, or the crates above that use it alone. An edit
of a file checks these functions again.
"""


def read(path):
    with open(path, encoding="utf-8") as source:
        return source.read()


def crates():
    for line in read(f"{TOP}/crates.txt").splitlines():
        if ":" in line and not line.startswith("#"):
            yield re.match(r"\w+", line).group()


def cited(crate, text, lemmas):
    return {name for name in re.findall(rf"Rattle\.{crate}\.proofs\.(\w+)\.", text) if name in lemmas}


def below(name, cites, seen):
    """The file and all that it stands on."""
    if name not in seen:
        seen.add(name)
        for other in cites[name]:
            below(other, cites, seen)
    return seen


def functions_over(crate):
    """Lemma file to the functions that stand on it."""
    proofs = f"{TOP}/crates/{crate}/proofs"
    lemmas = {name[:-5] for name in os.listdir(proofs) if name.endswith(".antt") and name != "Lib.antt"}
    cites = {name: cited(crate, read(f"{proofs}/{name}.antt"), lemmas) for name in lemmas}
    over = {name: set() for name in lemmas}
    for folder, _, files in os.walk(proofs):
        function = "::".join(folder[len(proofs) + 1 :].split("/")[-2:]).replace("+", "")
        for file in files if folder != proofs else ():
            for name in cited(crate, read(f"{folder}/{file}"), lemmas):
                for found in below(name, cites, set()):
                    over[found].add(function)
    for folder, _, files in os.walk(f"{TOP}/crates/{crate}/src"):
        for file in files:
            text = read(f"{folder}/{file}").replace("crate::proofs::", f"Rattle.{crate}.proofs.").replace("::", ".")
            for name in cited(crate, text, lemmas):
                for found in below(name, cites, set()):
                    over[found].add(f"{file} itself")
    return over


def crates_over(crate, name):
    """The other crates whose proofs cite this lemma file."""
    found = []
    for other in crates():
        folders = os.walk(f"{TOP}/crates/{other}/proofs") if other != crate else ()
        texts = (read(f"{folder}/{file}") for folder, _, files in folders for file in files)
        if any(f"Rattle.{crate}.proofs.{name}." in text for text in texts):
            found.append(other)
    return found


def shown(crate, name, functions):
    above = [] if functions else crates_over(crate, name)
    listed = ", ".join(sorted(functions)) or (f"functions of {', '.join(above)}" if above else "no function")
    return textwrap.fill(f"- `{name}`: {listed}", 136, subsequent_indent="  ", break_long_words=False, break_on_hyphens=False)


def main():
    print(HEAD)
    for crate in crates():
        if os.path.isdir(f"{TOP}/crates/{crate}/proofs"):
            over = functions_over(crate)
            if over:
                print(f"## {crate}\n")
                for name in sorted(over):
                    print(shown(crate, name, over[name]))
                print()


if __name__ == "__main__":
    main()
