#!/usr/bin/env bash
# Holds sizes and offsets of the structs of include/wentuqis.h, rust/src/shapes.rs and the Rattle sources against each
# other: tests/structs.c prints those of C, tests/structs.rs compares.
# usage: tests/structs.sh [FOLDER]   FOLDER holds the crates of Rattle (default: crates)
# Without a C compiler it says so in one line and exits with 0, or with 1 if CI is set.
set -euo pipefail

crates=$(realpath -m "${1:-$(dirname "${BASH_SOURCE[0]}")/../crates}")
cd "$(dirname "${BASH_SOURCE[0]}")/.."

compiler=$(command -v cc || command -v gcc || true)
if [[ -z $compiler ]]; then
    echo 'structs: there is no C compiler (cc or gcc): the structs were not compared'
    if [[ -n ${CI:-} ]]; then exit 1; fi
    exit 0
fi

scratch=$(mktemp -d)
trap 'rm -rf "$scratch"' EXIT
"$compiler" -std=c99 -Wall -Wextra -Werror -Iinclude tests/structs.c -o "$scratch/structs_c"
rustc --edition 2024 -o "$scratch/structs" tests/structs.rs
"$scratch/structs_c" >"$scratch/lines"
"$scratch/structs" "$crates" <"$scratch/lines"
