#!/bin/sh
# Times `check` and `safe` side by side on larger controller files. The word is the program (that which `mpc` runs, where none is given); the
# controllers are those that it compiles from the plants of bench/compile and bench/workers. For each it prints the nodes of the tree, the bytes
# of the file, what `safe` found, and the least time of three runs of each command, in milliseconds, start and reading included.
set -e
here=$(cd "$(dirname "$0")" && pwd)
program=${1:-$("$here/../../release/program")}
work=$(mktemp -d)
trap 'rm -rf "$work"' EXIT

# The least milliseconds of three runs of the command on the file.
least() {
    best=
    for _ in 1 2 3; do
        begin=$(date +%s%N)
        "$program" "$1" < "$2" > "$work/answer" || true
        end=$(date +%s%N)
        took=$(( (end - begin) / 1000 ))
        if [ -z "$best" ] || [ "$took" -lt "$best" ]; then best=$took; fi
    done
    echo "$(( best / 1000 )).$(printf %03d $(( best % 1000 )))"
}

printf '%-28s %8s %10s %10s %10s  %s\n' plant nodes bytes check safe answer
for plant in "$here"/../compile/plants/*.txt "$here"/../compile/plants_large/*.json "$here"/../workers/plants/*.json; do
    name=$(basename "$plant" | sed 's/\..*//')
    sed '/^states$/,$d' "$plant" > "$work/plant"
    if ! "$program" compile < "$work/plant" > "$work/controller"; then
        echo "$name: $(cat "$work/controller")"
        continue
    fi
    nodes=$(grep -c -E '^(split|leaf|none)' "$work/controller")
    bytes=$(wc -c < "$work/controller")
    check=$(least check "$work/controller")
    safe=$(least safe "$work/controller")
    printf '%-28s %8s %10s %10s %10s  %s\n' "$name" "$nodes" "$bytes" "$check" "$safe" "$(cat "$work/answer")"
done
