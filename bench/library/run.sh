#!/bin/sh
# Replies at random counts by the library that ./library makes, by `mpc reply`, and by a plain C walk of the same tables. The words, each of which
# may be left out from the last one on: the number of states (1000000), the program (that which `mpc` runs), the folder of the library
# (out/library, which ./library makes first) and plants (those of bench/compile and bench/workers). It ends where two replies differ.
set -e
here=$(cd "$(dirname "$0")" && pwd)
top="$here/../.."
count=${1:-1000000}
program=${2:-$("$top/release/program")}
library=${3:-$top/out/library}
if [ $# -lt 3 ]; then "$top/library" "$library" > /dev/null; fi
if [ $# -gt 3 ]; then
    shift 3
else
    set -- "$here"/../compile/plants/*.txt "$here"/../compile/plants_large/*.json "$here"/../workers/plants/*.json
fi
mkdir -p "$here/build"
${CC:-cc} -std=c11 -O3 -march=x86-64-v2 -Wall -Wextra -I "$library" -o "$here/build/library" "$here/main.c" "$here/plain.c" "$library/libmpc.a"
work=$(mktemp -d)
trap 'rm -rf "$work"' EXIT

echo "$(grep -m 1 "^model name" /proc/cpuinfo | cut -d : -f 2 | sed 's/^ //'), $(nproc) processors; nanoseconds a reply, of $count states:"
echo
echo "| Plant | Nodes | Laws | Height | Words a number | Library | Plain C | Library, plain C = 1 | In 64 bits | So |"
echo "|---|---|---|---|---|---|---|---|---|---|"
for plant in "$@"; do
    name=$(basename "$plant" | sed 's/\..*//')
    sed '/^states$/,$d' "$plant" > "$work/plant"
    if ! "$program" compile < "$work/plant" > "$work/controller"; then
        echo "$name: $(cat "$work/controller")" >&2
        continue
    fi
    printf '| %s |' "$(echo "$name" | tr _ " ")"
    "$here/build/library" "$work/controller" "$count" "$work/counts" "$work/replies"
    # (an input of the command has at most 16,777,216 bytes)
    split -C 8m "$work/counts" "$work/part."
    for part in "$work"/part.*; do
        { cat "$work/controller"; echo states; cat "$part"; } | "$program" reply
        rm "$part"
    done | cmp - "$work/replies"
done
