#!/usr/bin/env bash
# Instructions that `replay` takes for the first 500, 1000 and 2000 commands of a generated day, by callgrind: the growth
# shows in the figures for one command.
set -eu
top=$(cd "$(dirname "$0")/.." && pwd)
day=$top/examples/a-generated-day.session
work=$(mktemp -d)
trap 'rm -rf "$work"' EXIT

"$top/sidc" replay <"$day" >/dev/null
head=$(grep -n -x begin "$day" | cut -d: -f1)
for commands in 500 1000 2000; do
    head -n $((head + commands)) "$day" >"$work/session"
    valgrind --tool=callgrind --callgrind-out-file="$work/out" "$top/crates/market_program/out/market_program" replay \
        <"$work/session" >/dev/null 2>"$work/said"
    count=$(sed -n 's/.*Collected : //p' "$work/said")
    echo "$commands commands: $count instructions, $((count / commands)) for each"
done
