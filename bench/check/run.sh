#!/bin/sh
# Times `check` on the controllers of larger plants with one, two and four processors. The words, each of which may be left out from the last
# one on: the program, which also compiles the plants (that which `mpc` runs), and the number of runs (5).
set -e
here=$(cd "$(dirname "$0")" && pwd)
program=${1:-$("$here/../../release/program")}
export PYTHONDONTWRITEBYTECODE=1
python3 "$here/times.py" "$program" "${2:-5}" "$here"/../workers/plants/*.json "$here"/../compile/plants_large/*.json
