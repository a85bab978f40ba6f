#!/usr/bin/env python3
"""Refuses each call for memory in turn, and looks at what the proved program makes of it.

    bench/refused_memory.py                 sessions and records of examples/, by replay, trade, audit and ship
    bench/refused_memory.py --tests CRATE   the proved tests of a crate, which `rt ci` left in its out/

Of a session each run has to end with status 0 and the whole output, or with status 6, its message and a first part of the
output; of `trade`, whose callers come in any order, all lines that it wrote have to be right by the audit. A test has to pass, to
end with an error that it got, or to stop at one of its own assertions. Printed is how many calls each made, and how many of the runs ended early. The calls are
those to malloc and realloc (bench/refuse.c, made with cc). The status is 1 where a run is at fault.
"""
import argparse
import mmap
import os
import signal
import subprocess
import sys
import tempfile
from dataclasses import dataclass
from pathlib import Path

TOP = Path(__file__).resolve().parent.parent
PROGRAM = TOP / "crates" / "market_program" / "out" / "market_program"
SESSIONS = ["one-sale", "sweep-after-a-leg", "blocks-and-their-command", "views-show-peaks-alone", "baskets"]
WANTING = b"sidc: no memory\n"


@dataclass
class Ended:
    status: int
    output: bytes
    said: bytes
    calls: int


class Refuser:
    """Runs a command with one of its calls for memory refused."""

    def __init__(self, folder):
        self.library, self.counter = Path(folder) / "refuse.so", Path(folder) / "calls"
        subprocess.run(["cc", "-O1", "-shared", "-fPIC", "-o", self.library, TOP / "bench" / "refuse.c"], check=True)
        self.counter.write_bytes(bytes(mmap.PAGESIZE))

    def run(self, words, given, refused):
        with self.counter.open("r+b") as file:
            file.write(bytes(8))
        told = {"LD_PRELOAD": str(self.library), "REFUSE": str(refused), "REFUSE_COUNT": str(self.counter)}
        found = subprocess.run(words, input=given, capture_output=True, timeout=120, env={**os.environ, **told})
        calls = int.from_bytes(self.counter.read_bytes()[:8], sys.byteorder)
        return Ended(found.returncode, found.stdout, found.stderr, calls)

    def each(self, words, given):
        """The run in which nothing is refused, and one for each of its calls."""
        whole = self.run(words, given, 0)
        yield whole
        for refused in range(1, whole.calls + 1):
            yield self.run(words, given, refused)


def audit_of(session, output):
    """The audit of the whole lines of an output, and how many these are."""
    lines = output[: output.rfind(b"\n") + 1]
    record = session + b"journal\n" + lines
    return subprocess.run([PROGRAM, "audit"], input=record, capture_output=True, timeout=120), lines.count(b"\n")


def is_journal(session, output):
    """Whether an output is a complete journal of a session."""
    found, _ = audit_of(session, output)
    return found.returncode == 0 and output.endswith(b"\n")


def is_right_so_far(session, output):
    """Whether the lines of a journal are right as far as they go: the audit wants the line behind them, or none."""
    found, count = audit_of(session, output)
    return found.returncode == 0 or found.stderr.endswith(b"sidc: illegal entry %d\n" % (count + 1))


def fault_of(word, given, whole, ended):
    """What is wrong with a run of a word, if anything is."""
    if ended.status == 0:
        is_whole = is_journal(given, ended.output) if word == "trade" else ended.output == whole.output
        return None if is_whole else "status 0 without the whole output"
    if (ended.status, ended.said) != (6, WANTING):
        return f"status {ended.status} and {ended.said[-200:]!r}"
    is_first_part = is_right_so_far(given, ended.output) if word == "trade" else whole.output.startswith(ended.output)
    return None if is_first_part else "what was written is no first part of the output"


def look_at(refuser, name, words, given, fault_of_run):
    """Prints how often a command was refused memory and what came of it, and answers whether all was well."""
    runs = refuser.each(words, given)
    whole = next(runs)
    faults, wanting = [], 0
    for refused, ended in enumerate(runs, 1):
        wanting += ended.status != 0
        fault = fault_of_run(whole, ended)
        faults += [f"    call {refused}: {fault}"] if fault else []
    print(f"{name}: {whole.calls} calls, {wanting} ended early", *faults, sep="\n", flush=True)
    return not faults


def look_at_sessions(refuser):
    is_well = True
    for name in SESSIONS:
        session = (TOP / "examples" / f"{name}.session").read_bytes()
        journal = (TOP / "examples" / f"{name}.journal").read_bytes()
        for word in ("replay", "trade", "audit", "ship"):
            given = session if word in ("replay", "trade") else session + b"journal\n" + journal
            test = lambda whole, ended, word=word, given=given: fault_of(word, given, whole, ended)
            is_well &= look_at(refuser, f"{word} of {name}", [PROGRAM, word], given, test)
    return is_well


def fault_of_test(_, ended):
    """A test that wants memory ends with the error, or stops at an assertion of its own; a fault of the memory itself would end it
    by another signal."""
    is_ended = ended.status == 101 and b"\nthe test failed: its result gives status 1\n" in ended.output + ended.said
    is_stopped = ended.status == -signal.SIGABRT and b"\ntest stopped at src/" in ended.output
    return None if ended.status == 0 or is_ended or is_stopped else f"status {ended.status} and {(ended.output + ended.said)[-200:]!r}"


def look_at_tests(refuser, crate):
    tests = TOP / "crates" / crate / "out" / f"{crate}_tests"
    listed = subprocess.run([tests, "--list"], capture_output=True, text=True, check=True).stdout
    names = [line.split(": ")[0] for line in listed.splitlines() if line.endswith(": test")]
    return all([look_at(refuser, name, [tests, name], b"", fault_of_test) for name in names])


def main():
    parser = argparse.ArgumentParser(description=__doc__, formatter_class=argparse.RawDescriptionHelpFormatter)
    parser.add_argument("--tests", metavar="CRATE", help="the tests of a crate, in place of the program")
    arguments = parser.parse_args()
    with tempfile.TemporaryDirectory() as folder:
        refuser = Refuser(folder)
        is_well = look_at_tests(refuser, arguments.tests) if arguments.tests else look_at_sessions(refuser)
    return 0 if is_well else 1


if __name__ == "__main__":
    sys.exit(main())
