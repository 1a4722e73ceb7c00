#!/bin/sh
# Prints the tables of docs/what_passes.md. The word is the program; a second one is how many seconds a plant may take.
set -e
python3 -B "$(dirname "$0")/reach.py" "$@"
