#!/usr/bin/env python3
"""Builds a static library of crates.txt over the libraries that `rt ci` proved and left in crates/*/out.

usage: python3 tools/static_library.py NAME      at the top of the repository, behind rt ci

It is the call that `rt lib` makes, but for the libraries below: `rt lib` would prove those again, in the time of a whole
first check, where no check of this machine has kept them. The library itself is proved here once more.
Writes crates/NAME/out/libNAME.a. Exit status: rattle's, 0 where it is built.
"""
import os
import shutil
import subprocess
import sys


def dependencies():
    """Returns what each crate of crates.txt uses."""
    found = {}
    with open("crates.txt", encoding="utf-8") as lines:
        for line in lines:
            head, colon, uses = line.split("#")[0].partition(":")
            if colon:
                found[head.split()[0]] = uses.split()
    return found


def below(name, uses, seen):
    """Adds the repository's crates below a crate to those seen, lowest first."""
    for it in uses[name]:
        if it in uses and it not in seen:
            below(it, uses, seen)
            seen.append(it)
    return seen


def main():
    if len(sys.argv) != 2 or not os.path.isfile("crates.txt"):
        sys.exit(__doc__.split("\n\n")[1])
    name, uses = sys.argv[1], dependencies()
    kit = os.path.dirname(os.path.dirname(os.path.realpath(shutil.which("rt"))))
    folder = lambda it: os.path.abspath(f"crates/{it}/out/rlib")
    lacking = [it for it in below(name, uses, []) if not os.path.isdir(f"{folder(it)}/{it}.rlib")]
    if lacking:
        sys.exit(f"static_library: {lacking[0]} is not built: run rt ci first")
    words = [f"{kit}/bin/rattle", "build", "--crate-name", name, "src/lib.rt"]
    words += ["--extern", f"std={kit}/rlibs/std.rlib", "-L", f"dependency={kit}/rlibs"]
    for it in uses[name]:
        words += ["--extern", f"{it}={folder(it)}/{it}.rlib" if it in uses else f"{it}={kit}/rlibs/{it}.rlib"]
    for it in below(name, uses, []):
        words += ["-L", f"dependency={folder(it)}"]
    words += ["--antt-project", f"{kit}/rattle/logic/antt-project.json", "--logic-built", f"{kit}/logic_built"]
    words += ["--jobs", "2", "--links", f"{name}=", "--crate-type", "staticlib", "--toolchain", f"{kit}/toolchain"]
    words += ["--backend", "llvm", "-o", f"out/lib{name}.a"]
    sys.exit(subprocess.run(words, cwd=f"crates/{name}").returncode)


if __name__ == "__main__":
    main()
