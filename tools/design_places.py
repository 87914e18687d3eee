#!/usr/bin/env python3
"""Counts the places that docs/DESIGN-PASS.md speaks of, in the .rt files of crates/*/src.

    tools/design_places.py [--list [PATTERN]] [FOLDER]

Each row is a pattern that a line of code (or, where the row says so, a comment) must contain, with the number of lines
that do. --list prints the lines, of the rows whose name contains PATTERN. FOLDER is the repository's top, else the
current folder. It reads the code as text: a row is where to look, and what it counts is judged by reading.
"""
import glob
import os
import re
import sys

# name, what it looks in ('code' or 'comment'), pattern
ROWS = [
    ("1 enums", "code", r"^(pub )?enum \w+"),
    ("1 flags in structs", "code", r"^    (pub )?\w+: bool,$"),
    ("1 values for none, by comment", "comment",
     r"\b0 (where|if|for|is none|none)|\belse 0\b|, or 0\b|or 16\b|the (end|number of markers) where there is none"),
    ("1 numbers for kinds", "code",
     r"\b(head|class|half|kind|low|owner|o): u(8|32)\b|\bfn \w*(kind|class|half|code|owner)\w*\(.*-> u(8|32)"),
    ("2 code shared by name", "code", r"\bfn \w+_(before|after|first|second|source|target|s|p)\("),
    ("3 loops by hand", "code", r"^ *(while|loop)\b"),
    ("3 loops by for", "code", r"^ *for .* in "),
    ("4 conversions by as", "code", r" as (u8|u16|u32|usize)\b"),
    ("4 conversions of the library", "code", r"\b(u16|u32|usize|u8)::(from|try_from)\b|\.into\(\)"),
    ("4 derives beyond Copy", "code", r"#\[derive\(.*(PartialEq|Ord|Default|Debug)"),
    ("5 a text and its output", "code", r"draft: Draft\b"),
    ("5 a table and what is built", "code", r"built: Built\b"),
    ("5 offsets beside keys", "code", r"\b(source_|target_)?keys: &(mut )?\[u32\]"),
    ("5 a role and its positions", "code", r"role: Role\b"),
    ("5 a name's two places", "code", r"\bupto: usize\b"),
    ("5 three numbers of a split", "code", r"\bsource_cut: usize\b"),
    ("5 structs with methods", "code", r"^impl\b"),
    ("6 arrays on the stack", "code", r"let mut \w+(: \[[^]]*\])? = \[[^]]*; "),
    ("7 flags that choose what a function does", "code",
     r"\b(whole|up|source|back|pair|hex|targets|known|measured|alone|also_9|kind): (bool|u8)\b"),
]


def lines_of(folder):
    for path in sorted(glob.glob(os.path.join(folder, "crates/*/src/*.rt"))):
        with open(path, encoding="utf-8") as f:
            for n, line in enumerate(f, 1):
                line = line.rstrip("\n")
                kind = "comment" if line.lstrip().startswith("//") else "code"
                yield os.path.relpath(path, folder), n, kind, line


def main(args):
    listing = "--list" in args
    rest = [a for a in args if a != "--list"]
    wanted = rest.pop(0) if listing and rest and not os.path.isdir(rest[0]) else ""
    folder = rest[0] if rest else "."
    everything = list(lines_of(folder))
    for name, kind, pattern in ROWS:
        found = [l for l in everything if l[2] == kind and re.search(pattern, l[3]) and "ghost use" not in l[3]]
        print(f"{len(found):4}  {name}")
        if listing and wanted in name:
            for path, n, _, line in found:
                print(f"      {path}:{n}: {line.strip()}")


if __name__ == "__main__":
    main(sys.argv[1:])
