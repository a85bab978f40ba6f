#!/usr/bin/env python3
"""Lists what each crate promises in docs/PROVED.md, and the layers of the crates in docs/ARCHITECTURE.md, between two marks.

usage: tools/list_promises.py             writes both lists there
       tools/list_promises.py --check     ends with status 1 where one of the documents has another list

The layers are the comments of crates.txt, with the crates below each in its order. A row of promises has
a link to the crate's sources and the first sentence of its head; its public functions with `ensures` clauses, how many these are,
and the names of those that have one; and what is not promised: public functions without such a clause, what is a test or a program,
and that a call which may wait returns.
"""
import re
import sys
from pathlib import Path

TOP = Path(__file__).resolve().parent.parent
BEGIN = "<!-- the list of tools/list_promises.py begins -->"
END = "<!-- the list of tools/list_promises.py ends -->"
# What is no code: comments, texts and single characters, which may hold brackets.
NO_CODE = re.compile(r'//[^\n]*|b?"(?:\\.|[^"\\])*"|b?\'(?:\\.|[^\'\\\n])\'', re.S)
CLAUSE = re.compile(r"\b(requires|ensures)\s*(\w*)\s*\{")
CLOSING = {"(": ")", "[": "]", "{": "}"}


def close(code, place):
    """The place behind the bracket that closes the one at a place."""
    opening, closing = code[place], CLOSING[code[place]]
    depth = 0
    for at in range(place, len(code)):
        depth += (code[at] == opening) - (code[at] == closing)
        if depth == 0:
            return at + 1
    raise ValueError("a bracket is not closed")


def clauses_of(code, place):
    """The names of the `ensures` clauses of the function whose name ends at a place; '' of one without a name."""
    names = []
    while True:
        clause = CLAUSE.match(code, place)
        if clause:
            names += [clause.group(2)] if clause.group(1) == "ensures" else []
            place = close(code, clause.end() - 1)
        elif code[place] in "{;":
            return names
        elif code[place] in "([":
            place = close(code, place)
        else:
            place += 1


def functions_in(code, indent, start):
    """The names and the clauses of the functions of a block of code that stand at an indent."""
    for found in re.finditer(rf"^{indent}{start}fn (\w+)", code, re.M):
        yield found.group(1), clauses_of(code, found.end())


def functions_of(file):
    """The public functions of a file: the type or trait, if they are of one, the name, the clauses."""
    code = NO_CODE.sub("", file.read_text())
    for name, clauses in functions_in(code, "", "pub (?:const )?"):
        yield "", name, clauses
    for block in re.finditer(r"^impl(?:<[^{]*?>)? (\w+)(?:<[^{]*?>)?\s*(?:where[^{]*)?\{|^pub trait (\w+)[^{]*\{", code, re.M):
        body = code[block.end() - 1 : close(code, block.end() - 1)]
        start = "pub (?:const )?" if block.group(1) else ""
        for name, clauses in functions_in(body, "    ", start):
            yield block.group(1) or block.group(2), name, clauses


def exported(head):
    """The names that the head of a crate makes public."""
    code = NO_CODE.sub("", head)
    named = re.findall(r"^pub use [\w:]*?(\w+|\{[^}]*\});|^pub fn (\w+)", code, re.M)
    return set(re.findall(r"\w+", " ".join(map(" ".join, named))))


def head_of(crate):
    """The file with which a crate begins."""
    source = TOP / "crates" / crate / "src"
    return next(source / name for name in ("lib.rt", "main.rt") if (source / name).exists())


def first_sentence(head):
    """The first sentence of the comment at the head of a crate, without the links of rustdoc."""
    lines = re.findall(r"^//! ?(.*)$", head, re.M)
    text = " ".join(lines).split("  ")[0]
    return re.sub(r"\[(`[^`]+`)\]", r"\1", re.split(r"(?<=[.!]) ", text)[0]).replace("|", "\\|")


def by_type(functions):
    """Names of functions in code spans, those of one type together."""
    types = {}
    for owner, name in functions:
        types.setdefault(owner, []).append(name)
    spans = [f"`{name}`" for name in types.pop("", [])]
    spans += [f"`{owner}::{names[0]}`" if len(names) == 1 else f"`{owner}::{{{', '.join(names)}}}`" for owner, names in types.items()]
    return ", ".join(spans)


def counted(number, what):
    return f"{number} {what}" if number == 1 else f"{number} {what}s"


def promised(functions):
    """The functions that have clauses, how many these are, and the names of those that have one."""
    promising = [(owner, name) for owner, name, clauses in functions if clauses]
    clauses = [clause for _, _, clauses in functions for clause in clauses]
    if not clauses:
        return ""
    named = ", ".join(f"`{name}`" for name in dict.fromkeys(filter(None, clauses)))
    text = f"{counted(len(promising), 'function')}: {by_type(promising)}; {counted(len(clauses), 'clause')}"
    return f"{text}, named {named}" if named else text


def not_promised(functions, tests, is_program, waits):
    silent = by_type((owner, name) for owner, name, clauses in functions if not clauses)
    texts = [f"no `ensures`: {silent}"] if silent else []
    texts += [counted(tests, "test")] if tests else []
    texts += ["a program: its `main` promises nothing"] if is_program else []
    texts += ["that a call which waits returns"] if waits else []
    return "; ".join(texts)


def row_of(crate, flags):
    first = head_of(crate)
    head = first.read_text()
    names = exported(head)
    files = sorted((TOP / "crates" / crate / "src").rglob("*.rt"))
    functions = [found for file in files for found in functions_of(file) if (found[0] or found[1]) in names]
    tests = sum(file.read_text().count("#[test]") for file in files)
    beside = not_promised(functions, tests, first.name == "main.rt", "may_wait" in flags)
    return f"| [`{crate}`](../crates/{crate}/src) | {first_sentence(head)} | {promised(functions)} | {beside} |"


def layers():
    """The layers of crates.txt: what the comment says, and the crates with their flags."""
    found = []
    for line in (TOP / "crates.txt").read_text().split("\n\n", 1)[1].splitlines():
        if line.startswith("#"):
            found.append((line[1:].strip().rstrip("."), []))
        elif line:
            crate, *flags = line.split(":")[0].split()
            found[-1][1].append((crate, " ".join(flags)))
    return found


def promises():
    """A table of what the crates promise for each layer."""
    lines = []
    for layer, crates in layers():
        lines += ["", f"### {layer}", "", "| crate | what it is for | what it promises | not promised |", "|---|---|---|---|"]
        lines += [row_of(crate, flags) for crate, flags in crates]
    return lines


def layer_map():
    """A table of the layers, a row for each."""
    rows = [f"| {layer} | {' '.join(f'`{crate}`' for crate, _ in crates)} |" for layer, crates in layers()]
    return ["", "| layer | crates |", "|---|---|", *rows]


def with_list(text, lines):
    """A document with these lines between its marks."""
    before, rest = text.split(BEGIN)
    return before + BEGIN + "\n" + "\n".join(lines) + "\n\n" + END + rest.split(END)[1]


def main():
    words = sys.argv[1:]
    if words and words != ["--check"]:
        print(__doc__.strip())
        sys.exit(words[0] not in ("-h", "--help"))
    for name, lines in [("PROVED.md", promises()), ("ARCHITECTURE.md", layer_map())]:
        document = TOP / "docs" / name
        text = document.read_text()
        wanted = with_list(text, lines)
        if not words:
            document.write_text(wanted)
        elif text != wanted:
            sys.exit(f"docs/{name} has another list than the crates: tools/list_promises.py writes it")


if __name__ == "__main__":
    main()
