#!/usr/bin/env python3
"""Builds static libraries over what `rt ci` left of the crates below, and puts them into target/staticlib.

    archive_over_ci.py NAME..    as dta and dta_facts, in a checkout whose out/ folders are all of the `rt ci` that just passed

`rt lib`, which tools/archive.sh calls, takes no library that `rt ci` made, and so proves all of them again. Here the kit's compiler is called with the words that
`rt lib` has, and with these libraries; it proves the crate itself once more. Where that fails, tools/archive.sh does it.
"""
import os
import shutil
import subprocess
import sys

import crates

ROOT = crates.ROOT


def kit():
    """The folder of the toolchain."""
    return os.path.dirname(subprocess.run(["rt", "doc"], stdout=subprocess.PIPE, encoding="utf-8", check=True).stdout.strip())


def below(name, uses):
    """The repository's crates that a crate stands on, each once."""
    found = []
    for dep in uses[name][1]:
        if dep in uses:
            found += [one for one in [*below(dep, uses), dep] if one not in found]
    return found


def archive(name, at, uses):
    """Builds one, and returns the compiler's status."""
    folder = os.path.join(ROOT, "crates", name)
    made = os.path.join("out", f"lib{name}.a")
    rlib = lambda dep: f"{ROOT}/crates/{dep}/out/rlib"
    words = [f"{at}/bin/rattle", "build", "--crate-name", name, "src/lib.rt", "-L", f"dependency={at}/rlibs"]
    for dep in ["std", *uses[name][1]]:
        words += ["--extern", f"{dep}={rlib(dep) if dep in uses else at + '/rlibs'}/{dep}.rlib"]
    for dep in below(name, uses):
        words += ["-L", f"dependency={rlib(dep)}"]
    words += ["--antt-project", f"{at}/rattle/logic/antt-project.json", "--logic-built", f"{at}/logic_built", "--toolchain", f"{at}/toolchain"]
    words += ["--crate-type", "staticlib", "--backend", "llvm", "--jobs", str(min(2, os.cpu_count() or 1)), "-o", made]
    os.makedirs(os.path.join(folder, "out"), exist_ok=True)
    status = subprocess.run(words, cwd=folder, stdin=subprocess.DEVNULL, check=False).returncode
    if not status:
        to = os.path.join(ROOT, "target", "staticlib")
        os.makedirs(to, exist_ok=True)
        shutil.copy(os.path.join(folder, made), to)
    return status


def main():
    uses, at = crates.listed(), kit()
    return 1 if any(archive(name, at, uses) for name in sys.argv[1:]) else 0


if __name__ == "__main__":
    sys.exit(main())
