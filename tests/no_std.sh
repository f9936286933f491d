#!/usr/bin/env bash
# Builds the crate of rust/ without its feature `std`, and tests/no_std.rs, a program without std, over it; runs it.
# usage: tests/no_std.sh [FOLDER]   FOLDER holds libwentuqis.a (default: target/staticlib)
set -euo pipefail

folder=$(realpath -m "${1:-$(dirname "${BASH_SOURCE[0]}")/../target/staticlib}")
cd "$(dirname "${BASH_SOURCE[0]}")/.."

scratch=$(mktemp -d)
trap 'rm -rf "$scratch"' EXIT
WENTUQIS_LIB_DIR=$folder CARGO_TARGET_DIR=$scratch/cargo CARGO_PROFILE_RELEASE_PANIC=abort \
    cargo build --offline --quiet --release --no-default-features --manifest-path rust/Cargo.toml
rustc --edition 2024 -O -C panic=abort -L "native=$folder" --extern "wentuqis=$scratch/cargo/release/libwentuqis.rlib" \
    -o "$scratch/no_std" tests/no_std.rs
status=0
"$scratch/no_std" || status=$?
if ((status != 0)); then
    echo "no_std: check $status failed"
    exit 1
fi
echo 'no_std: 4 passed, 0 failed'
