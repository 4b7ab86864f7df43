#!/usr/bin/env python3
"""Writes crates.txt: for each crate the libraries that it uses.

    crates.py           print what crates.txt must have
    crates.py --write   write it
    crates.py --check   say whether it is up to date

A crate uses a library that its sources, definitions or proofs name; the toolchain finds what these stand on by itself. The crates, their order, which of them
are static libraries, and the libraries of the kit are those that crates.txt has.
"""
import os
import re
import sys

ROOT = os.path.dirname(os.path.dirname(os.path.abspath(__file__)))
LIST = os.path.join(ROOT, "crates.txt")
HEAD = "# NAME: the libraries that it uses (written by tools/crates.py)"


def read(path):
    with open(path, encoding="utf-8") as file:
        return file.read()


def listed():
    """Each crate of crates.txt, in its order: what stands before the colon after its name, as ` staticlib`, and its list."""
    crates = {}
    for line in read(LIST).splitlines():
        name, colon, rest = line.split("#")[0].partition(":")
        if colon:
            name, *kind = name.split()
            crates[name] = "".join(" " + word for word in kind), rest.split()
    return crates


def texts(crate, folder, ending):
    for at, _, names in os.walk(os.path.join(ROOT, "crates", crate, folder)):
        for name in sorted(names):
            if name.endswith(ending):
                yield read(os.path.join(at, name))


def source_of(crate):
    """A crate's code, without comments and ghost lines."""
    code = "\n".join(texts(crate, "src", ".rt"))
    return "\n".join(line for line in re.sub(r"//.*", "", code).splitlines() if not line.startswith("ghost use"))


def named_by(crate, crates):
    """The libraries that a crate names."""
    names = set(re.findall(r"\b(\w+)::", source_of(crate)))
    for folder, ending in (("src", ".rt"), ("specs", ".antt"), ("proofs", ".antt")):
        for text in texts(crate, folder, ending):
            names |= set(re.findall(r"\bRattle\.(\w+)\.", text))
    kit = {name for _, uses in crates.values() for name in uses if name not in crates}
    return names & (set(crates) | kit) - {crate}


def lines():
    crates = listed()
    order = {name: at for at, name in enumerate(crates)}
    for crate, (kind, _) in crates.items():
        used = sorted(named_by(crate, crates), key=lambda name: (order.get(name, len(order)), name))
        yield f"{crate}{kind}: {' '.join(used)}".rstrip()


def main():
    text = "\n".join([HEAD, *lines()]) + "\n"
    if "--write" in sys.argv:
        with open(LIST, "w", encoding="utf-8") as file:
            file.write(text)
    elif "--check" in sys.argv:
        if text != read(LIST):
            print("crates: crates.txt is not what tools/crates.py writes: run tools/crates.py --write", file=sys.stderr)
            return 1
    else:
        print(text, end="")
    return 0


if __name__ == "__main__":
    sys.exit(main())
