#!/usr/bin/env bash
# Builds tests/boundary.c, replay.c and calls.c for a target, against its archive, and runs them: under wine for
# x86_64-pc-windows, under qemu for aarch64-unknown-linux-gnu, under node for wasm64-unknown-unknown, by themselves for
# this machine's. The random calls of calls.c must give the same bytes as the archive for this machine; under wine another
# thread stops them all the while (interrupted.c). Damaged and accepted calls must give what the rules alone answer
# (oracle/model.rs), of which every wrong answer has to be told.
# usage: tests/targets.sh TARGET FOLDER NATIVE [RANDOM [COUNT]]
#   FOLDER   holds the target's libwentuqis.a
#   NATIVE   holds the one for this machine, x86-64 Linux
#   RANDOM   of random calls (default: 200000)
#   COUNT    of calls that the rules answer (default: 1000000)
# Where a compiler or a runner is lacking it says which and that nothing was run, and exits with 0.
set -euo pipefail

if (($# < 3)); then
    echo 'targets: usage: tests/targets.sh TARGET FOLDER NATIVE [RANDOM [COUNT]]'
    exit 2
fi
target=$1 folder=$(realpath -m "$2") native=$(realpath -m "$3") random=${4:-200000} count=${5:-1000000}
cd "$(dirname "${BASH_SOURCE[0]}")/.."
seed=20260731

for archive in "$folder/libwentuqis.a" "$native/libwentuqis.a"; do
    [[ -f $archive ]] || {
        echo "targets: there is no $archive (make library)"
        exit 1
    }
done

# lacking WHAT: ends the run, since something is not on this machine.
lacking() {
    echo "targets: $1: $target was not run"
    exit 0
}

# needed TOOL PACKAGE: the run ends where a tool is not on PATH.
needed() {
    command -v "$1" >/dev/null || lacking "there is no $1 (Debian's package $2)"
}

scratch=$(mktemp -d)
# What wine keeps running for its folder ends before the folder goes.
at_exit() {
    if [[ -n ${WINEPREFIX:-} && -n ${server:-} ]]; then "$server" -k || true; fi
    rm -rf "$scratch"
}
trap at_exit EXIT

strict=(-O1 -std=c99 -Wall -Wextra -Werror -Iinclude)

# build SOURCE OUTPUT: a program for the target. by_compiler COMPILER SOURCE ARCHIVE OUTPUT FLAGS..: by one that links too.
by_compiler() {
    "$1" "${strict[@]}" "$2" "$3/libwentuqis.a" -o "$4" "${@:5}"
}
build() {
    by_compiler "$compiler" "$1" "$folder" "$2" "${flags[@]}"
}
flags=() run=() calls=calls
case $target in
x86_64-unknown-linux-gnu)
    compiler=cc
    needed cc gcc
    ;;
x86_64-pc-windows)
    compiler=x86_64-w64-mingw32-gcc calls=interrupted
    flags=(-D__USE_MINGW_ANSI_STDIO=1)
    needed "$compiler" gcc-mingw-w64-x86-64
    # Debian has wine off PATH.
    PATH+=:/usr/lib/wine
    wine=$(command -v wine64 || command -v wine || true)
    server=$(command -v wineserver64 || command -v wineserver || true)
    [[ -n $wine ]] || lacking "there is no wine (Debian's package wine64)"
    # the folder that wine takes for a Windows installation, some 700 MB
    export WINEPREFIX=$scratch/wine WINEDEBUG=-all
    mkdir "$WINEPREFIX"
    run=("$wine")
    ;;
aarch64-unknown-linux-gnu)
    compiler=aarch64-linux-gnu-gcc
    flags=(-static)
    needed "$compiler" gcc-aarch64-linux-gnu
    needed qemu-aarch64-static qemu-user-static
    run=(qemu-aarch64-static)
    ;;
wasm64-unknown-unknown)
    needed clang clang
    needed wasm-ld lld
    needed node nodejs
    strict+=(-target wasm64-unknown-unknown -ffreestanding -fno-builtin -Itests/wasm64)
    build() {
        clang "${strict[@]}" -c "$1" -o "$2.o"
        for part in libc runtime; do clang "${strict[@]}" -std=gnu11 -c "tests/wasm64/$part.c" -o "$2.$part.o"; done
        wasm-ld -mwasm64 --no-entry --export=run --allow-undefined "$2".{o,libc.o,runtime.o} "$folder/libwentuqis.a" -o "$2"
    }
    run=(node --experimental-wasm-memory64 --no-warnings tests/wasm64/run.mjs)
    ;;
*)
    echo "targets: there is no way to run $target here"
    exit 2
    ;;
esac

# An empty program tells a runner that does not run from a test that fails.
printf 'int main(int count, char **words) { (void)words; return count < 0; }\n' >"$scratch/empty.c"
build "$scratch/empty.c" "$scratch/empty.exe"
timeout 120 "${run[@]}" "$scratch/empty.exe" >"$scratch/said" 2>&1 || lacking "'${run[*]}' runs not even an empty program"

for program in boundary replay "$calls"; do
    build "tests/$program.c" "$scratch/$program.exe"
done
"${run[@]}" "$scratch/boundary.exe"
"${run[@]}" "$scratch/replay.exe" crates/replay/data
"${run[@]}" "$scratch/$calls.exe" "$random" "$seed" | tr -d '\r' >"$scratch/lines" || {
    cat "$scratch/lines"
    exit 1
}
cc -O1 -std=c99 -Iinclude tests/calls.c "$native/libwentuqis.a" -o "$scratch/native"
"$scratch/native" "$random" "$seed" >"$scratch/native_lines"
grep '^calls: ' "$scratch/lines" | diff "$scratch/native_lines" - || {
    echo "targets: random calls give other bytes on $target than on this machine"
    exit 1
}
tail -n 3 "$scratch/lines"
echo "targets: $target: $random random calls as on this machine"

# The answers of the rules alone, which a program of this machine gives.
command -v rustc >/dev/null || {
    echo 'targets: there is no rustc: the rules did not answer'
    exit 0
}
env -u ORACLE_TARGET -u CC -u NM bash oracle/build.sh --by-rules model
model=oracle/build/by_rules/model

# replayed NAME: the replay of the records on standard input.
replayed() {
    "${run[@]}" "$scratch/replay.exe" - "$1" | tr -d '\r'
}
"$model" "$count" "$seed" | replayed model | tee "$scratch/lines"
grep -q "^replay: model: $count records, " "$scratch/lines" || {
    echo "targets: not all of $count answers were replayed"
    exit 1
}
"$model" --wrong 200000 "$seed" | replayed wrong_model

# Of one record one bit of the reply, which is its fifth byte, or of the answer is enough to fail.
"$model" 1000 "$seed" >"$scratch/right" 2>/dev/null
start=$("$model" 999 "$seed" 2>/dev/null | wc -c)
answer=$(($(stat -c %s "$scratch/right") - start == 64 ? 32 : 400))
# altered PLACE: the records with the lowest bit of one byte changed.
altered() {
    local byte
    byte=$(od -An -tu1 -j "$1" -N 1 "$scratch/right")
    head -c "$1" "$scratch/right"
    # shellcheck disable=SC2059
    printf "$(printf '\\x%02x' $((byte ^ 1)))"
    tail -c +$(($1 + 2)) "$scratch/right"
}
for place in $((start + 4)) $((start + answer)); do
    if altered "$place" | replayed altered >"$scratch/lines" || ! grep -q ' 1 not as they should be$' "$scratch/lines"; then
        cat "$scratch/lines"
        echo "targets: a wrong answer, byte $place of 1000 records, is not told"
        exit 1
    fi
done
echo "targets: $target: $count calls as the rules answer; $SECONDS seconds in all"
