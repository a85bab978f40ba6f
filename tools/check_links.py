#!/usr/bin/env python3
"""Checks the links and names of the documents, and prints what is wrong, one line each. It ends with status 1 where anything is.

  links    of README.md, docs/*.md and examples/README.md: the file that a relative link names is there, and so is the heading that
           it names behind `#`
  names    in docs/RULES.md the name of a link into crates/ stands in the file, and the name of a link into examples/ is the file's
  rules    in docs/RULES.md each variant of the enums Refusal, Event, Command and Kind has a row that names it, as `Kind::Limit`
  examples examples/README.md links the name of each example (NAME.session, NAME.session.py, NAME.texts.py, NAME.traded.py or
           NAME.words) to a file of it, and no other name to a file of examples/
  crates   each crate of crates.txt has its folder, and each folder with sources its line
  layers   no line of crates.txt names a crate that stands below it
  plain    no crate but those of the plain market, of the audit and of tests cites a crate of the plain market
"""
import argparse
import re
import sys
from pathlib import Path

TOP = Path(__file__).resolve().parent.parent
RULES = Path("docs/RULES.md")
CRATES = Path("crates.txt")
EXAMPLES = Path("examples/README.md")
EXAMPLE_FILES = ("*.session", "*.session.py", "*.texts.py", "*.traded.py", "*.words")
ENUMS = {
    "Refusal": Path("crates/market_model/src/refusal.rt"),
    "Event": Path("crates/market_model/src/event.rt"),
    "Command": Path("crates/market_model/src/command.rt"),
    "Kind": Path("crates/order_kinds/src/order.rt"),
}
LINK = re.compile(r"\[([^\]]*)\]\(([^)\s]+)\)")
ELSEWHERE = re.compile(r"[a-z]+:")
CODE_SPAN = re.compile(r"`[^`]*`")
# The plain market, and who may cite it beside itself: the audit, the programs of the gate, and tests.
PLAIN = re.compile(r"plain_\w+|event_history")
MAY_CITE_PLAIN = re.compile(r"plain_\w+|event_history|journal_audit|engine_comparison|tests_of_\w+")
CITED = re.compile(r"\bRattle\.(\w+)\.|(?<![\w:.])(\w+)::")
VARIANT = re.compile(r"^    ([A-Z]\w*)(?: \{|\(|,)", re.M)


def documents(top):
    """The documents whose links are checked, as paths from the top."""
    found = [Path("README.md"), *sorted(path.relative_to(top) for path in (top / "docs").glob("*.md")), EXAMPLES]
    return [path for path in found if (top / path).exists()]


def text_lines(top, document):
    """The numbered lines of a document, but for those of its code blocks."""
    is_code = False
    for number, line in enumerate((top / document).read_text().splitlines(), 1):
        if line.startswith("```"):
            is_code = not is_code
        elif not is_code:
            yield number, line


def links(top, document):
    """The relative links of a document: the line's number, the text, and what it leads to."""
    for number, line in text_lines(top, document):
        for text, target in LINK.findall(CODE_SPAN.sub(keep_link_text, line)):
            if not ELSEWHERE.match(target):
                yield number, text, target


def keep_link_text(span):
    """A code span without its marks, which can be the text of a link; one with brackets of its own is left out."""
    inside = span.group(0).strip("`")
    return "" if "[" in inside else inside


def anchors(path):
    """The anchors of the headings of a document."""
    headings = re.findall(r"^#+ +(.+?) *$", path.read_text(), re.M)
    return {re.sub(r"[^\w\- ]", "", heading.lower()).replace(" ", "-") for heading in headings}


def has_word(text, name):
    return re.search(rf"(?<!\w){re.escape(name)}(?!\w)", text) is not None


def faults_of_links(top):
    for document in documents(top):
        for number, _, target in links(top, document):
            file, _, anchor = target.partition("#")
            path = (top / document).parent / file if file else top / document
            if not path.exists():
                yield f"{document}:{number}: no file {target}"
            elif anchor and path.suffix == ".md" and anchor not in anchors(path):
                yield f"{document}:{number}: no heading {target}"


def faults_of_names(top):
    """Where the name of a link of the table of rules is not what it leads to."""
    if not (top / RULES).exists():
        yield f"no file {RULES}"
        return
    for number, name, target in links(top, RULES):
        path = (top / RULES).parent / target
        if not path.is_file():
            continue
        if target.startswith("../crates/") and not has_word(path.read_text(), name):
            yield f"{RULES}:{number}: no {name} in {target}"
        elif target.startswith("../examples/") and name != path.name.split(".")[0]:
            yield f"{RULES}:{number}: {target} is called {name}"


def variants(top, enum, file):
    """The variants of an enum."""
    body = re.search(rf"^pub enum {enum} \{{\n(.*?)^\}}", (top / file).read_text(), re.M | re.S)
    return VARIANT.findall(body.group(1)) if body else []


def faults_of_rules(top):
    rows = [line for _, line in text_lines(top, RULES) if line.startswith("|")] if (top / RULES).exists() else []
    for enum, file in ENUMS.items():
        found = variants(top, enum, file)
        if not found:
            yield f"{file}: no enum {enum}"
        for variant in found:
            if not any(f"`{enum}::{variant}`" in row for row in rows):
                yield f"{RULES}: no row has {enum}::{variant}"


def faults_of_examples(top):
    """Where the list of examples has not each of them by its name."""
    if not (top / EXAMPLES).exists():
        yield f"no file {EXAMPLES}"
        return
    examples = {path.name.split(".")[0] for form in EXAMPLE_FILES for path in (top / EXAMPLES).parent.glob(form)}
    told = set()
    for number, text, target in links(top, EXAMPLES):
        name = target.split(".")[0]
        if "/" in target:
            continue
        # The text of a link has spaces where it goes to another file of an example, as its table of texts.
        if name not in examples or (text != name and " " not in text):
            yield f"{EXAMPLES}:{number}: no example {text} in {target}"
        told.add(text)
    yield from (f"{EXAMPLES}: no {name}" for name in sorted(examples - told))


def crate_lines(top):
    """The crates in order: the line's number, the name, and what the line names besides."""
    for number, line in enumerate((top / CRATES).read_text().splitlines(), 1):
        if line.strip() and not line.startswith("#"):
            head, _, cited = line.partition(":")
            yield number, head.split()[0], cited.split()


def faults_of_crates(top):
    named = {name for _, name, _ in crate_lines(top)}
    there = {path.name for path in (top / "crates").iterdir() if (path / "src").is_dir()}
    yield from (f"{CRATES}: no folder crates/{name}" for name in sorted(named - there))
    yield from (f"{CRATES}: no line for crates/{name}" for name in sorted(there - named))


def faults_of_layers(top):
    listed = list(crate_lines(top))
    place = {name: number for number, name, _ in listed}
    for number, name, cited in listed:
        for other in cited:
            if place.get(other, 0) >= number:
                yield f"{CRATES}:{number}: {name} names {other}, which stands in line {place[other]}"


def faults_of_plain(top):
    """Where a crate that is to know nothing of the plain market cites it, in its line or in its text."""
    for number, name, cited in crate_lines(top):
        if MAY_CITE_PLAIN.fullmatch(name):
            continue
        yield from (f"{CRATES}:{number}: {name} names {other} of the plain market" for other in cited if PLAIN.fullmatch(other))
        for path in sorted(path for form in ("*.rt", "*.antt") for path in (top / "crates" / name).rglob(form)):
            if path.relative_to(top / "crates" / name).parts[0] in ("src", "specs", "proofs"):
                yield from faults_of_citations(top, path)


def faults_of_citations(top, path):
    for number, line in enumerate(path.read_text().splitlines(), 1):
        if not line.lstrip().startswith(("//", "--")):
            for cited in CITED.finditer(line):
                other = cited.group(1) or cited.group(2)
                if PLAIN.fullmatch(other):
                    yield f"{path.relative_to(top)}:{number}: cites {other} of the plain market"


PARTS = {
    "links": faults_of_links,
    "names": faults_of_names,
    "rules": faults_of_rules,
    "examples": faults_of_examples,
    "crates": faults_of_crates,
    "layers": faults_of_layers,
    "plain": faults_of_plain,
}


def main():
    parser = argparse.ArgumentParser(description=__doc__, formatter_class=argparse.RawDescriptionHelpFormatter)
    parser.add_argument("--top", type=Path, default=TOP, help="the folder that is checked (the repository)")
    parser.add_argument("parts", nargs="*", metavar="PART", help=f"the parts that are checked: {', '.join(PARTS)} (without them, all)")
    asked = parser.parse_args()
    unknown = [part for part in asked.parts if part not in PARTS]
    if unknown:
        parser.error(f"no part {unknown[0]}")
    faults = [fault for part in asked.parts or PARTS for fault in PARTS[part](asked.top)]
    for fault in faults:
        print(fault)
    return 1 if faults else 0


if __name__ == "__main__":
    sys.exit(main())
