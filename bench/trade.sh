#!/usr/bin/env bash
# How long `trade` takes beside `replay`.
#
#     bench/trade.sh [COMMANDS]
#     bench/trade.sh quick
#
# The generated session of so many commands (100000), by six traders and an operator, on 1, 2 and 4 processors: the seconds
# and the greatest memory of each, of three runs the shortest. `trade` gives each caller a thread of its own where threads can
# be made; `replay` uses one. With `quick` it is the session of bench/quick_session.py, whose callers wait for the journal more
# than they plan. The journal of `replay` is always the same; that of `trade` has as many lines.
set -eu
top=$(cd "$(dirname "$(readlink -f "$0")")/.." && pwd)
work=$(mktemp -d)
trap 'rm -rf "$work"' EXIT
program=$top/crates/market_program/out/market_program
"$top/sidc" prove
if [ "${1:-}" = quick ]; then
    "$top/bench/quick_session.py" >"$work/session"
else
    "$top/bench/generated_session.py" "${1:-100000}" >"$work/session"
fi

# The shortest of three runs of a word on some processors.
timed() {
    for _ in 1 2 3; do
        taskset -c "$2" /usr/bin/time -f '%e %M' "$program" "$1" <"$work/session" 2>&1 >"$work/journal" | tail -1
    done | sort -n | head -1 | while read -r seconds memory; do
        printf '%-8s processors %-5s %8s seconds %8s KB %9s lines\n' "$1" "$2" "$seconds" "$memory" "$(wc -l <"$work/journal")"
    done
}

for processors in 0 0,1 0-3; do
    timed replay "$processors"
    timed trade "$processors"
done
