#!/usr/bin/env bash
# What `store` costs beside `replay`.
#
#     bench/store.sh [COMMANDS..]
#
# The generated session of each number of commands (2000 and 100000): the instructions of both, by valgrind's callgrind, and
# the one over the other.
set -eu
top=$(cd "$(dirname "$(readlink -f "$0")")/.." && pwd)
work=$(mktemp -d)
trap 'rm -rf "$work"' EXIT
program=$top/crates/market_program/out/market_program
"$top/sidc" prove

instructions() {
    valgrind --tool=callgrind --callgrind-out-file="$work/out" "$program" "$1" <"$work/session" 2>"$work/told" >"$work/written"
    awk '/Collected/ { print $NF }' "$work/told"
}

[ $# -gt 0 ] || set -- 2000 100000
for commands; do
    "$top/bench/generated_session.py" "$commands" >"$work/session"
    played=$(instructions replay)
    stored=$(instructions store)
    printf '%9s commands   replay %14s   store %14s   %s\n' "$commands" "$played" "$stored" \
        "$(awk -v one="$stored" -v other="$played" 'BEGIN { printf "%.2f", one / other }')"
done
