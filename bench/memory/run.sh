#!/bin/sh
# Refuses each growth of memory of the program in turn: once, and from there on. The words are the program (that which `mpc` runs, where none
# is given) and the most growths of one input that are tried (all without a word; where there are more, they are spread evenly). It needs a
# C compiler and Python.
set -e
here=$(cd "$(dirname "$0")" && pwd)
top="$here/../.."
program=${1:-$("$top/release/program")}
mkdir -p "$here/build"
cc -O2 -shared -fPIC -pthread -o "$here/build/refuse.so" "$here/refuse.c" -ldl
export PYTHONDONTWRITEBYTECODE=1
exec python3 "$here/refusals.py" "$program" "$here/build/refuse.so" "${2:-0}"
