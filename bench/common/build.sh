#!/bin/sh
# Builds the proved library that the comparisons link, and the program in a folder of bench/ that is measured over it. The word is the folder.
set -e
bench=$(cd "$(dirname "$0")/.." && pwd)
crate="$bench/../crates/mpc_bench"
kit=$(dirname "$(dirname "$(readlink -f "$(command -v rt)")")")
(cd "$crate" && rt lib > /dev/null)
mkdir -p "$bench/$1/build"
rustc -O --edition 2024 -C target-cpu=x86-64-v2 -o "$bench/$1/build/$1" "$bench/$1/main.rs" \
    -C link-arg="$crate/out/libmpc_bench.a" -C link-arg="$kit/c/liblibc_c.a"
