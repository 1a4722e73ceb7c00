#!/bin/sh
# Builds the proved library and the comparison, and runs it.
set -e
here=$(cd "$(dirname "$0")" && pwd)
sh "$here/../common/build.sh" frac
"$here/build/frac"
