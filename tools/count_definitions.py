#!/usr/bin/env python3
"""Counts the lines of definitions on which the statement of a law rests.

usage: tools/count_definitions.py [CRATE]
       tools/count_definitions.py --sum [CRATE]     the sum alone
       tools/count_definitions.py --check           ends with status 1 where README names another sum for laws_of_runs

A law of a crate cites modules of specs/, which cite others by their `use` lines. Printed is each file that is reached so from
the specs/ of the crate (laws_of_runs, whose law is the headline), with its lines, and the sum. A line counts unless it is empty,
a comment or a `use` line. Whole files count, also where one definition of a file is cited alone. Not counted are the
types that Rust sources declare, and the specs/ of the toolchain's library and of the libraries that are not in crates/: how
many of these are cited is told.
"""
import re
import sys
from pathlib import Path

TOP = Path(__file__).resolve().parent.parent
CRATES = TOP / "crates"
README = TOP / "README.md"
HEADLINE = "laws_of_runs"
USE = re.compile(r"(?:pub )?use Rattle\.(\w+)\.specs\.([\w.]+)")


def used(file):
    """The pairs of a crate and a module that the `use` lines of a file name."""
    for line in file.read_text().splitlines():
        if found := USE.match(line):
            yield found.group(1), found.group(2).rstrip(".")


def passed_on(crate):
    """Where the modules stand that a crate passes on to those above it, by their last names."""
    head = CRATES / crate / "specs" / "Lib.antt"
    return {module.split(".")[-1]: (owner, module) for owner, module in used(head)} if head.exists() else {}


def file_of(crate, module):
    """The file of a module; none where it is not one of this repository's."""
    path = CRATES / crate / "specs" / (module.replace(".", "/") + ".antt")
    if path.exists():
        return path
    owner = passed_on(crate).get(module)
    return file_of(*owner) if owner else None


def files_cited(crate):
    """The files that the specs/ of a crate rest on, with the declared types and the modules from outside that these cite."""
    found, types, outside = set(), set(), set()
    waiting = [file for file in (CRATES / crate / "specs").rglob("*.antt") if file.name != "Lib.antt"]
    while waiting:
        file = waiting.pop()
        if file in found:
            continue
        found.add(file)
        for owner, module in used(file):
            if not (CRATES / owner).exists():
                outside.add((owner, module))
            elif module.startswith("declared."):
                types.add((owner, module.split(".TheVariants")[0]))
            elif path := file_of(owner, module):
                waiting.append(path)
            else:
                sys.exit(f"{file}: nothing stands at {owner}.specs.{module}")
    return found, types, outside


def is_counted(line):
    """Whether a line is part of a definition."""
    return bool(line.strip()) and not line.lstrip().startswith("--") and not re.match(r"(pub )?(use|mod) ", line)


def lines_of(file):
    return sum(map(is_counted, file.read_text().splitlines()))


def print_all(files, types, outside, total):
    for file in sorted(files):
        print(f"{lines_of(file):6} {file.relative_to(CRATES)}")
    libraries = sorted({owner for owner, _ in outside})
    print(f"{total:6} lines in {len(files)} files of {len({file.relative_to(CRATES).parts[0] for file in files})} crates")
    print(f"       beside {len(types)} types that Rust sources declare, and {len(outside)} modules of {', '.join(libraries)}")


def main():
    words = sys.argv[1:]
    if words and words[0] in ("-h", "--help"):
        print(__doc__.strip())
        return
    option = words.pop(0) if words[:1] in (["--sum"], ["--check"]) else ""
    crate = words[0] if words else HEADLINE
    if not (CRATES / crate / "specs").is_dir():
        sys.exit(f"{crate} has no specs/")
    files, types, outside = files_cited(crate)
    total = sum(map(lines_of, files))
    if option == "--sum":
        print(total)
    elif option == "--check":
        sys.exit(None if f"rests on {total} lines" in README.read_text() else f"README names no {total} lines of definitions")
    else:
        print_all(files, types, outside, total)


if __name__ == "__main__":
    main()
