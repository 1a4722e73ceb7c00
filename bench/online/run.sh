#!/bin/sh
# Times `solve` at random states beside the same run in plain Rust, compares their replies with each other and with those of the plant's table,
# and says from how many states on the table pays. The words, each of which may be left out from the last one on: the number of states (5000),
# the program (that which `mpc` runs) and plants (those of bench/workers and bench/compile).
set -e
here=$(cd "$(dirname "$0")" && pwd)
top="$here/../.."
count=${1:-5000}
program=${2:-$("$top/release/program")}
if [ $# -gt 2 ]; then
    shift 2
else
    set -- "$here"/../workers/plants/*.json "$here"/../compile/plants/*.txt
fi
mkdir -p "$here/build"
rustc -O --edition 2024 -C target-cpu=x86-64-v2 -o "$here/build/online" "$here/main.rs"
export PYTHONDONTWRITEBYTECODE=1
exec python3 "$here/times.py" "$program" "$here/build/online" "$count" "$@"
