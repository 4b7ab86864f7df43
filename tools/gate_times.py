#!/usr/bin/env python3
"""Where the gate's time went: how long its steps took, and when each crate was proved.

    gate_times.py [--most N] [FOLDER]   FOLDER has steps and times (default: target/gate, which .ci/run leaves)
    gate_times.py --note FOLDER         pass on what `rt ci` says, and keep it in FOLDER: output has its lines, times the second of each crate's

`rt ci` proves crates side by side and says when one is done. Seconds are whole ones since it began.
"""
import argparse
import os
import re
import sys
import time

ROOT = os.path.dirname(os.path.dirname(os.path.abspath(__file__)))
DONE = re.compile(r"rt: (?P<crate>\w+)(?P<tests>: its tests are)? (?P<what>proved|NOT PROVED|is kept)\b")


def note(folder):
    """Copies standard input to standard output and to output, and the seconds of what is done to times."""
    sys.stdin.reconfigure(encoding="utf-8", errors="replace")
    sys.stdout.reconfigure(encoding="utf-8")
    began = time.monotonic()
    with open(os.path.join(folder, "output"), "w", encoding="utf-8") as output, open(os.path.join(folder, "times"), "w", encoding="utf-8") as times:
        for line in sys.stdin:
            print(line, end="", flush=True)
            output.write(line)
            done = DONE.match(line)
            if done:
                what = done["crate"] + (" (tests)" if done["tests"] else "")
                times.write(f"{time.monotonic() - began:.0f}\t{what}\t{done['what']}\n")
                times.flush()


def show(folder, most):
    path = os.path.join(folder, "times")
    if not os.path.exists(path):
        raise SystemExit(f"gate_times: {folder} has no times: run .ci/run")
    steps = os.path.join(folder, "steps")
    if os.path.exists(steps):
        with open(steps, encoding="utf-8") as file:
            print(file.read(), end="")
    with open(path, encoding="utf-8") as file:
        rows = [line.rstrip("\n").split("\t") for line in file]
    new = [(int(second), crate, what) for second, crate, what in rows if what != "is kept"]
    print(f"crates proved: {len(new)}; kept from earlier runs: {len(rows) - len(new)}")
    last, waits = 0, []
    for second, crate, what in new:
        waits.append((second - last, second, crate, what))
        last = second
    print("the longest waits for a crate to be done, and when it was")
    for wait, second, crate, what in sorted(waits, key=lambda row: -row[0])[:most]:
        print(f"{wait:6} s  {second:6} s  {crate}{'' if what == 'proved' else ', ' + what}")


def main():
    parser = argparse.ArgumentParser(description="where the gate's time went")
    parser.add_argument("--most", type=int, default=12)
    parser.add_argument("--note", metavar="FOLDER")
    parser.add_argument("folder", nargs="?", default=os.path.join(ROOT, "target", "gate"))
    words = parser.parse_args()
    if words.note:
        note(words.note)
    else:
        show(words.folder, words.most)


if __name__ == "__main__":
    main()
