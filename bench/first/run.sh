#!/usr/bin/env bash
# Times the way from nothing to a first reply, in a copy of what is committed: by the released program, by the preview, which is built first, and
# with the word `prove` by a program that is proved and built first. Each line has the seconds that pass and the processor seconds.
set -eu
top=$(cd "$(dirname "$0")/../.." && pwd)
room=$(mktemp -d)
trap 'rm -rf "$room"' EXIT
git -C "$top" archive HEAD | tar x -C "$room"
cd "$room"
TIMEFORMAT='%3R s, %3U s of processor time'

# Runs the words on recorded states of the cart and prints how long that takes.
first() {
    printf '%-8s ' "${1##*/}"
    time "$@" <examples/cart/states.txt >"$room/replies" 2>"$room/said"
}

first ./mpc run
first ./preview run
if [ "${1:-}" = prove ]; then first ./prove; fi
