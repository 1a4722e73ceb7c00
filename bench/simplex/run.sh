#!/bin/sh
# Builds the proved library and the comparison, and runs it on the systems beside it and on those of the plants of bench/compile/plants. The
# words name further plants, or folders of them; a file of systems (.tsv) that is named takes the place of those beside it.
set -e
here=$(cd "$(dirname "$0")" && pwd)
systems="$here/systems.tsv"
count=$#
set -- "$@" "$here"/../compile/plants/*.txt
while [ "$count" -gt 0 ]; do
    word=$1
    shift
    case $word in
        *.tsv) systems=$word ;;
        *) if [ -d "$word" ]; then
            for plant in "$word"/*.json "$word"/*.txt; do
                if [ -f "$plant" ]; then set -- "$@" "$plant"; fi
            done
        else
            set -- "$@" "$word"
        fi ;;
    esac
    count=$((count - 1))
done
sh "$here/../common/build.sh" simplex
"$here/build/simplex" "$systems" "$@"
