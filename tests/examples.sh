#!/usr/bin/env bash
# Builds and runs the examples that a user starts from, examples/NAME.c and rust/examples/NAME.rs; each must end with 0
# and print tests/examples/NAME.c.txt, NAME.rs.txt.
# usage: tests/examples.sh [FOLDER [ROOT]]   FOLDER holds libwentuqis.a (default: target/staticlib), ROOT holds include/,
#                                            examples/ and rust/ (default: this repository)
# Without a C compiler it says so in one line and runs those in Rust alone, or ends with 1 if CI is set.
set -euo pipefail

repository=$(realpath "$(dirname "${BASH_SOURCE[0]}")/..")
folder=$(realpath -m "${1:-$repository/target/staticlib}")
root=$(realpath -m "${2:-$repository}")
export CARGO_TARGET_DIR=${CARGO_TARGET_DIR:-$repository/target/cargo}
export WENTUQIS_LIB_DIR=$folder

archive=$folder/libwentuqis.a
if [[ ! -f $archive ]]; then
    echo "examples: there is no $archive: make it by 'make library'"
    exit 1
fi

scratch=$(mktemp -d)
trap 'rm -rf "$scratch"' EXIT
run=0

# held NAME: the program's output in $scratch/printed is the one that is kept.
held() {
    diff -u "$repository/tests/examples/$1.txt" "$scratch/printed" || {
        echo "examples: $1 prints something else"
        exit 1
    }
    run=$((run + 1))
}

compiler=$(command -v cc || command -v gcc || true)
if [[ -z $compiler ]]; then
    echo 'examples: there is no C compiler (cc or gcc): the examples in C were not run'
    if [[ -n ${CI:-} ]]; then exit 1; fi
fi
for name in frame depth; do
    if [[ -n $compiler ]]; then
        "$compiler" -std=c99 -Wall -Wextra -Werror -I"$root/include" "$root/examples/$name.c" "$archive" -o "$scratch/$name"
        "$scratch/$name" >"$scratch/printed" || {
            cat "$scratch/printed"
            echo "examples: examples/$name.c ends with an error"
            exit 1
        }
        held "$name.c"
    fi
    cargo run --offline --quiet --manifest-path "$root/rust/Cargo.toml" --example "$name" >"$scratch/printed"
    held "$name.rs"
done
echo "examples: $run programs print what they should"
