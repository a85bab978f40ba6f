#!/usr/bin/env bash
# What one command costs on a desk, by valgrind's callgrind.
#
#     bench/desks.sh
#
# Over the grid of generated sessions (12 zones, 20 borders), with room on every arc, 10, 100 and 1000 sells rest in one hour,
# in all zones. Then buys enter: far below the best price, so that each rests and is withdrawn again, or at it, so that
# each is a leg. Printed are the instructions of one such command, and how many of them go into the rows of views.
set -eu
top=$(cd "$(dirname "$(readlink -f "$0")")/.." && pwd)
work=$(mktemp -d)
trap 'rm -rf "$work"' EXIT
program=$top/crates/market_program/out/market_program
"$top/sidc" prove

# A session of so many resting sells and so many commands more, with a leg or without.
session() {
    "$top/bench/generated_session.py" 40
    local place
    for place in $(seq "$1"); do
        printf 't1 sell h12 Z%02d 9.0 %d.%02d\n' $((1 + place % 12)) $((50 + place / 100)) $((place % 100))
    done
    for place in $(seq "$2"); do
        if [ "$3" = leg ]; then
            echo "t2 buy h12 Z01 0.1 99.00"
        elif [ $((place % 2)) = 1 ]; then
            echo "t2 buy h12 Z01 0.1 10.00"
        else
            echo "t2 cancel h12#$(($1 + (place + 1) / 2))"
        fi
    done
}

# The instructions of a replay of the session, and those of its rows.
measure() {
    valgrind --tool=callgrind --callgrind-out-file="$work/out" "$program" replay <"$work/session" >/dev/null 2>"$work/said"
    callgrind_annotate --inclusive=yes --threshold=100 "$work/out" >"$work/table" 2>/dev/null
    all=$(sed -n 's/.*Collected : //p' "$work/said")
    rows=$(awk '/replying::refresh/ { gsub(",", "", $1); print $1; found = 1; exit } END { if (!found) print 0 }' "$work/table")
}

for kind in none leg; do
    for orders in 10 100 1000; do
        session "$orders" 20 "$kind" >"$work/session"
        measure
        all_before=$all rows_before=$rows
        session "$orders" 60 "$kind" >"$work/session"
        measure
        echo "$orders open orders, $([ $kind = leg ] && echo "with a leg" || echo "without a leg"): $(((all - all_before) / 40)) instructions, of which $(((rows - rows_before) / 40)) for rows"
    done
done
