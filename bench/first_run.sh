#!/usr/bin/env bash
# How long a newcomer waits: from a clean clone to the first line of the program that is not proved, and with --prove to the
# proved program.
#
#     bench/first_run.sh [--prove]
#
# What the toolchain's gate kept of earlier runs on this machine counts for the second; on a fresh machine there is nothing.
set -eu
top=$(cd "$(dirname "$(readlink -f "$0")")/.." && pwd)
work=$(mktemp -d)
trap 'rm -rf "$work"' EXIT
git clone -q "$top" "$work/clone"
cd "$work/clone"

timed() {
    local begun=$SECONDS
    "$@" >/dev/null
    echo "$((SECONDS - begun)) seconds: $*"
}

timed ./sidc replay <examples/one-sale.session
timed ./sidc replay <examples/one-sale.session
[ "${1-}" != --prove ] || timed ./sidc prove
