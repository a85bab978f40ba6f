#!/usr/bin/env bash
# What `replay` and `generate` cost.
#
#     bench/replay.sh [COMMANDS..]
#
# By valgrind's callgrind the instructions that `generate N` takes for one command, for each N (2000 and 20000 if none is
# named), and how many of them go into making the text, reading it, playing it, the rows of views in that, and the summary. Then the
# seconds and the memory of `replay` of the generated session of 100000 commands, of a desk that is full, and of an order that
# takes from 4096 others.
set -eu
top=$(cd "$(dirname "$(readlink -f "$0")")/.." && pwd)
work=$(mktemp -d)
trap 'rm -rf "$work"' EXIT
program=$top/crates/market_program/out/market_program
"$top/sidc" prove

# The instructions of all calls of a function whose name holds a word, with what it calls.
within() {
    awk -v word="$1" '$0 ~ word { gsub(",", "", $1); print $1; found = 1; exit } END { if (!found) print 0 }' "$work/table"
}

for commands in "${@:-2000 20000}"; do
    for count in $commands; do
        valgrind --tool=callgrind --callgrind-out-file="$work/out" "$program" generate "$count" >/dev/null 2>"$work/said"
        callgrind_annotate --inclusive=yes --threshold=100 "$work/out" >"$work/table" 2>/dev/null
        all=$(sed -n 's/.*Collected : //p' "$work/said")
        echo "$count commands: $((all / count)) instructions for each"
        for word in session_text read_session playing::journal_of replying::refresh totals::summary; do
            echo "    $word: $(($(within "$word") / count))"
        done
    done
done

# Seconds and greatest memory of a replay.
timed() {
    /usr/bin/time -f "$1: %e seconds, %M KB" "$program" replay <"$work/session" 2>&1 >"$work/journal" | tail -1
    echo "    the journal has $(wc -c <"$work/journal") bytes"
}

"$top/bench/generated_session.py" 100000 >"$work/session"
timed "100000 commands"

opening() {
    printf 'day 2025-06-17\nzone DE\ntrader ann\ntrader bob\nbegin\n'
}
{ opening; for place in $(seq 4097); do echo "ann sell h12 DE 0.1 50.00"; done; } >"$work/session"
timed "a full desk"
{ opening; for place in $(seq 4096); do echo "ann sell h12 DE 0.1 50.00"; done; echo "bob buy h12 DE 409.6 50.00"; } >"$work/session"
timed "4096 legs"
