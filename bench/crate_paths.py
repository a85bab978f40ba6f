#!/usr/bin/env python3
"""Counts the paths from each crate to those below it, by crates.txt: `rt` goes along all of them when it begins.

    bench/crate_paths.py [MOST]

It prints the crates with the most paths (12 if no number is given), and the sum over all of which a library is made.
"""
import functools
import pathlib
import re
import sys

TOP = pathlib.Path(__file__).resolve().parent.parent
LINE = re.compile(r"(\w+)([^:#]*):([^#]*)")


def main():
    found = filter(None, map(LINE.match, (TOP / "crates.txt").read_text().splitlines()))
    lines = {line[1]: (line[2].split(), line[3].split()) for line in found}

    @functools.cache
    def paths(name):
        return 1 + sum(paths(below) for below in lines[name][1] if below in lines)

    def is_library(name):
        return "staticlib" not in lines[name][0] and not (TOP / "crates" / name / "src/main.rt").exists()

    for name in sorted(lines, key=paths, reverse=True)[: int(sys.argv[1]) if len(sys.argv) > 1 else 12]:
        print(f"{paths(name):10} {name}")
    print(f"{sum(map(paths, filter(is_library, lines))):10} in all")


if __name__ == "__main__":
    main()
