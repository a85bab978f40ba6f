#!/usr/bin/env python3
"""Writes the table of the must-fail edits (docs/EDITS.md) to standard output: which contract each turns, and how.

An edit is a file crates/NAME/must-fail/*.edit. Its first line is

    # CRATE::FUNCTION: WHAT THE WRONG BODY DOES        (or CRATE::TYPE::FUNCTION)

with the public function whose contract it turns. Lines 'file: FILE', a file of the crate, stand above pairs of lines
'old: TEXT' and 'new: TEXT'. Each 'old:' text stands exactly once in its file, once the pairs before it are applied.
"""
import argparse
import re
import sys
from dataclasses import dataclass
from functools import cached_property
from pathlib import Path

TOP = Path(__file__).resolve().parent.parent
TABLE = TOP / "docs" / "EDITS.md"
FIRST_LINE = re.compile(r"# (\w+(?:::\w+){1,2}): (\S.*)")

HEAD = """\
# The must-fail edits

A must-fail edit is a wrong body: a small change of the code that means something else, such as a wrong comparison, a
last item that is missed, or a change that is not taken back. The prover must refuse the crate with it, since a contract
says otherwise. Were it still proved, the contract would say too little. There are {count} of them, in
`crates/NAME/must-fail/`, and the gate (`.ci/run`) tries each.

Each row names the public function whose contract the edit turns, and what the wrong body does. The crates stand in the
order of `crates.txt`. `tools/list_edits.py` makes this page from the first lines of the edits, and with `--check` says
what of it is out of date.
"""


@dataclass(frozen=True)
class Edit:
    path: Path

    @property
    def name(self) -> str:
        """Its path from the top of the repository."""
        return self.path.relative_to(TOP).as_posix()

    @property
    def crate(self) -> Path:
        """The folder of the crate that it changes."""
        return self.path.parent.parent

    @cached_property
    def lines(self) -> list[str]:
        return self.path.read_text(encoding="utf-8").split("\n")

    @property
    def title(self) -> tuple[str, str]:
        """The contract and the wrong body of its first line, both empty where that is of another form."""
        found = FIRST_LINE.fullmatch(self.lines[0])
        return found.groups() if found else ("", "")

    def changes(self) -> list[tuple[str, str, str]]:
        """The file, the old and the new text of each pair."""
        found, file, old = [], "", ""
        for line in self.lines:
            key, _, text = line.partition(":")
            if key == "file":
                file = text.strip()
            elif key == "old":
                old = text.removeprefix(" ")
            elif key == "new":
                found.append((file, old, text.removeprefix(" ")))
        return found


def list_crates() -> list[str]:
    """The names of the crates, in the order of crates.txt."""
    lines = (TOP / "crates.txt").read_text(encoding="utf-8").splitlines()
    return [re.split(r"[\s:]", line)[0] for line in lines if line and not line.startswith("#")]


def edits_of(crate: str) -> list[Edit]:
    """The edits of a crate, those of one contract beside each other."""
    edits = [Edit(path) for path in (TOP / "crates" / crate / "must-fail").glob("*.edit")]
    return sorted(edits, key=lambda edit: (edit.title, edit.name))


def row_of(edit: Edit) -> str:
    contract, wrong_body = edit.title
    return f"| `{contract}` | {wrong_body} | [{edit.path.stem}](../{edit.name}) |\n"


def section_of(edits: list[Edit]) -> str:
    """The table of a crate's edits."""
    head = f"\n## {edits[0].crate.name}\n\n| contract | wrong body | edit |\n|---|---|---|\n"
    return head + "".join(map(row_of, edits))


def page_of(crates: list[list[Edit]]) -> str:
    """The page with the edits of each crate."""
    return HEAD.format(count=sum(map(len, crates))) + "".join(map(section_of, crates))


def has_function(contract: str) -> bool:
    """Whether the function stands in the sources of its crate, beside its type where one is named."""
    crate, *types, function = contract.split("::")
    wanted = [rf"\bfn {function}\b"] + [rf"\b(impl|trait)\b[^{{;]*\b{name}\b" for name in types]
    texts = (path.read_text(encoding="utf-8") for path in (TOP / "crates" / crate / "src").rglob("*.rt"))
    return any(all(re.search(pattern, text) for pattern in wanted) for text in texts)


def title_faults(edit: Edit) -> list[str]:
    contract, _ = edit.title
    if not contract:
        return ["its first line is not '# CRATE::FUNCTION: WHAT THE WRONG BODY DOES'"]
    return [] if has_function(contract) else [f"{contract} does not stand in the sources"]


def change_faults(edit: Edit) -> list[str]:
    """What is wrong with its pairs, each applied to what those before it made of the file."""
    faults, texts = [], {}
    for file, old, new in edit.changes():
        path = edit.crate / file
        if not path.is_file():
            return [f"its crate has no file '{file}'"]
        text = texts[path] if path in texts else path.read_text(encoding="utf-8")
        count = text.count(old)
        if count != 1:
            faults.append(f"this old text stands {count} times in {file}: {old.strip()}")
        texts[path] = text.replace(old, new, 1)
    return faults if texts else ["it has no pair of an old and a new text"]


def find_faults(crates: list[list[Edit]]) -> list[str]:
    """What is wrong with the edits and with the page that stands."""
    edits = [edit for of_crate in crates for edit in of_crate]
    faults = [f"{edit.name}: {fault}" for edit in edits for fault in title_faults(edit) + change_faults(edit)]
    is_current = TABLE.is_file() and TABLE.read_text(encoding="utf-8") == page_of(crates)
    return faults if is_current else faults + ["docs/EDITS.md is not what tools/list_edits.py writes"]


def read_arguments() -> argparse.Namespace:
    parser = argparse.ArgumentParser(description=__doc__, formatter_class=argparse.RawDescriptionHelpFormatter)
    checks = "write nothing; where an edit or docs/EDITS.md is wrong, say how and end with 1"
    parser.add_argument("--check", action="store_true", help=checks)
    return parser.parse_args()


def main() -> None:
    arguments = read_arguments()
    crates = list(filter(None, map(edits_of, list_crates())))
    if not arguments.check:
        sys.stdout.write(page_of(crates))
    elif faults := find_faults(crates):
        sys.exit("\n".join(faults))


if __name__ == "__main__":
    main()
