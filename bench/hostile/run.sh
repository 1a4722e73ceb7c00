#!/bin/sh
# Gives the program inputs that nobody should give it, and prints time and memory of each beside well formed inputs of that size; then
# runs it on devices that fail, and on mutations. The words, each of which may be left out from the last one on: the program (that which
# `mpc` runs), the size of the inputs in bytes (16777216), the most seconds that a run may take (60), and the number of
# mutations (10000).
set -e
here=$(cd "$(dirname "$0")" && pwd)
top="$here/../.."
program=${1:-$("$top/release/program")}
export PYTHONDONTWRITEBYTECODE=1
python3 "$here/times.py" "$program" "${2:-16777216}" "${3:-60}"
python3 "$here/devices.py" "$program"
exec python3 "$here/mutate.py" "$program" "${4:-10000}"
