#!/bin/sh
# Times the phases from a plant file to a reply on the plants that are named, or else on those beside it, after building the proved library
# and the clock.
#
# With the path of another program as the first word, that has the same command `compile`, the whole of `compile` is timed instead, both
# programs in turn, on the plants of the folders and files that are named behind it, or else on all those beside it and those of bench/workers.
# RUNS is the number of runs of each (5), and MPC names another program than that which `mpc` runs.
set -e
here=$(cd "$(dirname "$0")" && pwd)
top="$here/../.."
if [ $# -gt 0 ] && [ -x "$1" ] && [ ! -d "$1" ]; then
    other=$1
    shift
    if [ $# -eq 0 ]; then set -- "$here/plants" "$here/plants_large" "$here/../workers/plants" "$here/plants_decimals"; fi
    program=${MPC:-$("$top/release/program")}
    export PYTHONDONTWRITEBYTECODE=1
    exec python3 "$here/beside.py" "$program" "$other" "${RUNS:-5}" "$@"
fi
sh "$here/../common/build.sh" compile
if [ $# -eq 0 ]; then
    set -- "$here"/plants/*.txt
fi
"$here/build/compile" "$@"
