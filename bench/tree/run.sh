#!/bin/sh
# Times `compile` on 1, 2 and 4 processors: what it takes behind `trace`, which is the tree and what follows, and how many times as fast that
# is than on one. The words are the number of runs (5), the number of workers that decide the sets (1), and the plants. `MPC` names another
# program than that which `mpc` runs.
set -e
here=$(cd "$(dirname "$0")" && pwd)
top="$here/../.."
runs=${1:-5}
workers=${2:-1}
if [ $# -gt 2 ]; then shift 2; else set -- "$here"/../workers/plants/*.json "$here"/../compile/plants_large/*.json; fi
program=${MPC:-$("$top/release/program")}
export PYTHONDONTWRITEBYTECODE=1
python3 "$here/times.py" "$program" "$runs" "$workers" 0 0,1 0-3 "$@"
