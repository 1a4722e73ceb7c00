#!/bin/sh
# Builds the proved library and the comparison, and runs it. A word is the size of the largest text, in megabytes; without one it is 100.
set -e
here=$(cd "$(dirname "$0")" && pwd)
sh "$here/../common/build.sh" file
"$here/build/file" "$here/build" "${1:-100}"
