#!/usr/bin/env bash
# Files of records that nothing recorded, as the program `replay` counts them: a count is held at a million, a file is read up
# to 64 MiB, bytes behind the last whole record are left out, a width past 16384 is taken modulo 16385, in `vectors` a call that
# is not of the file and a scale that is not recorded have the answer ffffffff, and of a fill 32 bits of length are compared.
# usage: tests/replay_files.sh PROGRAM    (crates/replay/out/replay, as `rt ci` or `rt run` leaves it)
set -euo pipefail

program=$(realpath "$1")
folder=$(mktemp -d)
trap 'rm -rf "$folder"' EXIT
cd "$folder"

python3 - <<'PYTHON'
import struct

def record(call, a, b, answer):
    return struct.pack("<4I", call, a, b, answer)

ones = 0xFFFFFFFF
lines = {
    1: record(1, 0, 0, 0) * 1_000_002,  # expand4 of 0 is 0
    2: record(2, 0, 0, 1),  # expand5 of 0 is no 1
    5: record(5, 0, 0, 0) + record(5, 0, 0, 1),
    10: record(10, 7, 5, ones) + record(10, 7, 5, 0),
    14: record(14, 16386, 0, 4) + record(14, 16385, 0, 0) + record(14, 16386, 0, 16388),
    29: record(29, 7, 5, ones),
    18: record(18, 1, 2, ones) + record(18, 1, 2, 0),
    99: record(99, 0, 0, ones) + record(99, 0, 0, 0),
}
front = b"".join(lines.values())
whole = 64 << 20
fill = struct.pack("<2I3Q16s4I", 22, 0, 0xDEADBEEF, 23, 0, bytes([0xFD, 0xAD]), 2, 1, 0, 0)
half = struct.pack("<2I3Q16s4I", 23, 0, 0, 0, 0, bytes(16), 0, 0, 0, 0)
with open("vectors", "wb") as file:  # up to 64 MiB right ones, and behind them a wrong one
    file.write(front + record(3, 0, 0, 0) * ((whole - len(front)) // 16) + record(3, 0, 0, 1))
with open("values", "wb") as file:
    file.write(fill + half + half[:63])
for name in ("buffers", "sets", "wrong_vectors", "wrong_values", "wrong_buffers"):
    open(name, "wb").close()
PYTHON

cat >wanted <<'TEXT'
expand4             1000000 cases, 0 differ
expand5             1 cases, 1 differ
expand6             1000000 cases, 0 differ
truncate4           2 cases, 1 differ
nearest code        2 cases, 1 differ
linear_row_pitch    3 cases, 1 differ
nearest byte        1 cases, 0 differ
yuv_to_rgb8                  2 cases, 1 differ; 0 refused
d3dcolor_fill_pixel_bytes    1 cases, 0 differ; 0 refused
f32_to_f16_bits              1 cases, 0 differ; 0 refused
other calls         2 cases, 1 differ
TEXT
"$program" >printed
sed '/^wrong answers/,$d' printed | grep -v ' 0 cases' | diff -u wanted - || {
    echo 'replay_files: the program counts otherwise'
    exit 1
}
echo "$(wc -l <wanted) lines as wanted"
