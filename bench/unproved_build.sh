#!/usr/bin/env bash
# Builds the program of this work tree before it is proved and without the checks of such a program, so that a change can be
# measured before its proof. Its counts are some quarter higher than those of the proved program: compare two such builds.
#
#     bench/unproved_build.sh OUT
#
# The toolchain makes the program to try it once; what it hands to the compiler is taken from there, the calls of its checks
# are cut out, and the rest is compiled as it compiles proved programs.
set -eu
top=$(cd "$(dirname "$(readlink -f "$0")")/.." && pwd)
out=$(readlink -f "$1")
kit=$(dirname "$(rt doc)")
work=$(mktemp -d)
trap 'rm -rf "$work"' EXIT

(cd "$top/crates/market_program" && TMPDIR=$work exec rt try -- generate 40) >"$work/log" 2>&1 </dev/null &
try=$!
while kill -0 "$try" 2>/dev/null; do
    module=$(find "$work" -name '*.bc' -size +1M -print -quit 2>/dev/null || true)
    [ -z "$module" ] || ln -f "$module" "$work/program.module" 2>/dev/null || true
    sleep 0.1
done
wait "$try" || true
[ -e "$work/program.module" ] || { cat "$work/log" >&2; exit 1; }

clang=$kit/toolchain/bin/clang
"$clang" -O0 -S -emit-llvm -x ir "$work/program.module" -o "$work/program.ll" 2>/dev/null
sed -i -e '/call void @"rattle-llvm-checks::/d' -e '/call void @llvm.memset.p0.i64(ptr %[a-z0-9]*, i8 -86,/d' \
    -e 's/sanitize_address//' "$work/program.ll"
"$clang" -O3 -fPIC -x ir -c "$work/program.ll" -o "$work/program.o" 2>/dev/null
"$kit/bin/rattle-link" --target x86_64-unknown-linux-gnu --toolchain "$kit/toolchain" -o "$out" \
    "$work/program.o" "$kit/c/liblibc_c.a" "$kit/c/libos_c.a" >/dev/null
echo "$out"
