#!/usr/bin/env bash
# Where the gate's time goes: the processor seconds of each crate's check, tests, seed and must-fail edits, from nothing, and
# their sum in minutes. The seed is the proof of the crate over which its edits are tried, and its check once they were.
#
#     bench/gate_times.sh            all crates
#     bench/gate_times.sh NAME..     these crates and those below them
#
# It runs `rt ci`, where that keeps what passes with `--anew`, so that nothing is taken from earlier runs (a toolchain
# that keeps nothing takes no names either), and reads every fifth of a second what each process of the prover has used
# so far, with those that it waited for. The last fifth of a
# second of each is lost, so the figures are about a hundredth too low. The gate's own lines go to
# standard error.
set -u
top=$(cd "$(dirname "$(readlink -f "$0")")/.." && pwd)
exec python3 - "$top" "$@" <<'PYTHON'
import collections
import os
import subprocess
import sys
import time

top, *names = sys.argv[1:]
tick = os.sysconf("SC_CLK_TCK")
kinds = ("check", "tests", "seed", "edits")


def kind_of(words, folder):
    """What a process of the prover is at work on."""
    if "/rt-edit-" in folder:
        return "seed" if any(word.endswith("/seed") for word in words) else "edits"
    return "tests" if "--test" in words else "check"


def look(session, known, used):
    """Notes what each process of the prover that runs in the session has used so far."""
    for pid in filter(str.isdigit, os.listdir("/proc")):
        try:
            with open(f"/proc/{pid}/stat") as file:
                name, _, rest = file.read().partition("(")[2].rpartition(")")
            fields = rest.split()
            if name != "rattle" or int(fields[3]) != session:
                continue
            key = pid, fields[19]
            if key not in known:
                with open(f"/proc/{pid}/cmdline") as file:
                    words = file.read().split("\0")
                crate = words[words.index("--crate-name") + 1]
                known[key] = crate, kind_of(words, os.readlink(f"/proc/{pid}/cwd"))
            used[key] = sum(map(int, fields[11:15])) / tick
        except (OSError, ValueError):
            continue  # it ended meanwhile, or is none of the prover's checks


said = subprocess.run(["rt", "help"], capture_output=True, text=True)
anew = ["--anew"] if "--anew" in said.stdout + said.stderr else []
gate = subprocess.Popen(["rt", "ci", *anew, *names], cwd=top, stdout=sys.stderr, start_new_session=True)
begun, known, used = time.monotonic(), {}, {}
while gate.poll() is None:
    look(gate.pid, known, used)
    time.sleep(0.2)

seconds = collections.defaultdict(lambda: dict.fromkeys(kinds, 0.0))
for key, spent in used.items():
    crate, kind = known[key]
    seconds[crate][kind] += spent

print(f"{'crate':20}" + "".join(f"{kind:>8}" for kind in (*kinds, "all")))
for crate, spent in sorted(seconds.items(), key=lambda item: -sum(item[1].values())):
    print(f"{crate:20}" + "".join(f"{spent[kind]:8.0f}" for kind in kinds) + f"{sum(spent.values()):8.0f}")
sums = [sum(spent[kind] for spent in seconds.values()) for kind in kinds]
print(f"{'all':20}" + "".join(f"{each:8.0f}" for each in sums) + f"{sum(sums):8.0f}")
print(f"{sum(sums) / 60:.0f} processor minutes, {(time.monotonic() - begun) / 60:.0f} minutes by the clock")
sys.exit(gate.returncode)
PYTHON
