#!/usr/bin/env bash
# Proves the static library, the crate wentuqis, over what earlier checks kept, and writes libwentuqis.a for a target:
# for x86-64 Linux at level v2 into target/staticlib, else into target/staticlib/TARGET or target/staticlib/TARGET-LEVEL.
# A line for each crate as it is proved; all that the prover says is in target/library.log, of the other targets in
# library.log of their folder. The archives for Windows and macOS are made of the one for x86-64 Linux of the same level
# by tools/image.sh.
# usage: tools/library.sh [TARGET [LEVEL]]
#   TARGET   x86_64-unknown-linux-gnu (default), aarch64-unknown-linux-gnu, wasm64-unknown-unknown, x86_64-pc-windows
#            or x86_64-apple-macos
#   LEVEL    of x86-64: v2 (default) or v3
set -euo pipefail

cd "$(dirname "${BASH_SOURCE[0]}")/.."

linux=x86_64-unknown-linux-gnu
target=${1:-$linux} level=${2:-v2}
case $level in
v2 | v3) ;;
*)
    echo "library: LEVEL is v2 or v3, not $level"
    exit 2
    ;;
esac
flags=()
case $target in
"$linux") if [[ $level == v3 ]]; then flags=(--cpu x86-64-v3); fi ;;
aarch64-unknown-linux-gnu | wasm64-unknown-unknown)
    if [[ $level != v2 ]]; then
        echo "library: $target has no level $level"
        exit 2
    fi
    flags=(--target "$target")
    ;;
x86_64-pc-windows | x86_64-apple-macos) ;;
*)
    echo "library: there is no target $target; the head of tools/library.sh lists them"
    exit 2
    ;;
esac

# folder_of TARGET: where its archive of this level lies. log_of TARGET: and what the prover said of it.
folder_of() {
    case $1-$level in
    "$linux-v2") echo target/staticlib ;;
    *-v2) echo "target/staticlib/$1" ;;
    *) echo "target/staticlib/$1-$level" ;;
    esac
}
log_of() {
    if [[ $1-$level == "$linux-v2" ]]; then echo target/library.log; else echo "$(folder_of "$1")/library.log"; fi
}

if [[ $target == x86_64-pc-windows || $target == x86_64-apple-macos ]]; then
    bash tools/library.sh "$linux" "$level"
    bash tools/image.sh "$(folder_of "$linux")/libwentuqis.a" "$target" "$(folder_of "$target")"
    cp "$(log_of "$linux")" "$(log_of "$target")"
    exit
fi

command -v rt >/dev/null || {
    echo 'library: rt, the command of the Rattle kit, is not on PATH'
    exit 1
}
folder=$(folder_of "$target") log=$(log_of "$target")
mkdir -p "$folder"
name=''
(cd crates/wentuqis && rt lib "${flags[@]}" 2>&1) | tee "$log" | while IFS= read -r line; do
    case $line in
    'crate '*': '*) name=${line#crate } name=${name%%:*} ;;
    'logic=proved '*) echo "  $name" ;;
    esac
done || {
    tail -n 20 "$log"
    echo "library: not proved; $log has what the prover said"
    exit 1
}
# One that is as it was keeps its time, so that what is linked with it is not made anew.
made=crates/wentuqis/out/libwentuqis.a
archive=$folder/libwentuqis.a
cmp -s "$made" "$archive" || cp "$made" "$archive"
