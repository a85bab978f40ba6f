#!/usr/bin/env bash
# What `recover` of a whole image costs beside `replay`.
#
#     bench/recover.sh [COMMANDS..]
#
# The generated session of each number of commands (2000 and 100000), and the image that `store` writes of it: the instructions of
# both, by valgrind's callgrind, and the one over the other.
set -eu
top=$(cd "$(dirname "$(readlink -f "$0")")/.." && pwd)
work=$(mktemp -d)
trap 'rm -rf "$work"' EXIT
program=$top/crates/market_program/out/market_program
"$top/sidc" prove

instructions() {
    valgrind --tool=callgrind --callgrind-out-file="$work/out" "$program" "$1" <"$2" 2>"$work/told" >"$work/written"
    awk '/Collected/ { print $NF }' "$work/told"
}

[ $# -gt 0 ] || set -- 2000 100000
for commands; do
    "$top/bench/generated_session.py" "$commands" >"$work/session"
    { cat "$work/session" && echo image && "$program" store <"$work/session"; } >"$work/input"
    played=$(instructions replay "$work/session")
    recovered=$(instructions recover "$work/input")
    printf '%9s commands   replay %14s   recover %14s   %s\n' "$commands" "$played" "$recovered" \
        "$(awk -v one="$recovered" -v other="$played" 'BEGIN { printf "%.2f", one / other }')"
done
