#!/usr/bin/env bash
# How long `audit` takes.
#
#     bench/audit.sh [COMMANDS..]
#
# The generated session of each number of commands (10000, 20000 and 100000) with the journal that `replay` writes of it:
# the seconds and the greatest memory on one processor.
set -eu
top=$(cd "$(dirname "$(readlink -f "$0")")/.." && pwd)
work=$(mktemp -d)
trap 'rm -rf "$work"' EXIT
program=$top/crates/market_program/out/market_program
"$top/sidc" prove
[ $# -gt 0 ] || set -- 10000 20000 100000
for commands; do
    "$top/bench/generated_session.py" "$commands" >"$work/session"
    "$program" replay <"$work/session" >"$work/journal"
    (cat "$work/session"; echo journal; cat "$work/journal") >"$work/record"
    taskset -c 0 /usr/bin/time -f '%e %M' "$program" audit <"$work/record" 2>&1 >"$work/verdict" | tail -1 |
        while read -r seconds memory; do
            printf '%9s commands %8s seconds %8s KB   %s\n' "$commands" "$seconds" "$memory" "$(cat "$work/verdict")"
        done
done
