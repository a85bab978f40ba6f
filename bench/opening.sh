#!/usr/bin/env bash
# What it takes to open a delivery day: 24 desks, before the first command.
#
#     bench/opening.sh
#
# By valgrind's callgrind the instructions of `generate 1` in all; by its memcheck the bytes that it asks the allocator for,
# in all; and the memory that it has touched when it ends.
set -eu
top=$(cd "$(dirname "$(readlink -f "$0")")/.." && pwd)
program=$top/crates/market_program/out/market_program
"$top/sidc" prove

valgrind --tool=callgrind --callgrind-out-file=/dev/null "$program" generate 1 2>&1 >/dev/null |
    sed -n 's/.*Collected : \([0-9]*\).*/\1 instructions/p'
valgrind "$program" generate 1 2>&1 >/dev/null | sed -n 's/.*frees, \([0-9,]*\) bytes allocated.*/\1 bytes asked for/p'
/usr/bin/time -f '%M KB touched' "$program" generate 1 2>&1 >/dev/null
