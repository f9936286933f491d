#!/usr/bin/env bash
# Makes the archives for x86-64 Windows and macOS of the one for x86-64 Linux (tools/image.sh), and checks each: no
# relocation and no undefined name is left, its one section is the image, byte for byte, each exported call stands at
# the offset that the linker gave it, and no other name is exported. An object whose bytes depend on where it lies, and
# one that has data to write, are refused. Counts what docs/TARGETS.md tells of the stack: instructions that use memory
# below the stack pointer, and the largest frame, which stays below a page, so that Windows needs no stack probe.
# usage: tests/image.sh ARCHIVE [FOLDER]   FOLDER gets the two archives, each in a folder of its target's name
# Where clang or llvm is lacking it says so in one line and exits with 0, or with 1 if CI is set.
set -euo pipefail

archive=$(realpath -m "$1") folder=${2:+$(realpath -m "$2")}
cd "$(dirname "${BASH_SOURCE[0]}")/.."

for tool in clang llvm-ar llvm-nm llvm-objdump objdump; do
    command -v "$tool" >/dev/null || {
        echo "image: $tool is not on PATH (Debian's packages clang, llvm, binutils): no archive for Windows and macOS was made"
        if [[ -n ${CI:-} ]]; then exit 1; fi
        exit 0
    }
done

scratch=$(mktemp -d)
trap 'rm -rf "$scratch"' EXIT
folder=${folder:-$scratch/made}

# fail WHY
fail() {
    echo "image: $1"
    exit 1
}

sed -n 's/^pub extern "C" fn \([a-z0-9_]*\)(.*/\1/p' crates/wentuqis/src/lib.rt | sort >"$scratch/calls"

# check TARGET PREFIX SECTION: the archive for a target, whose names begin with PREFIX.
check() {
    local made=$folder/$1
    bash tools/image.sh "$archive" "$1" "$made"
    (cd "$scratch" && llvm-ar x "$made/libwentuqis.a" wentuqis.o)
    local object=$scratch/wentuqis.o
    llvm-objdump -r "$object" >"$scratch/relocations"
    if grep -q 'RELOC' "$scratch/relocations"; then fail "$1: relocations are left"; fi
    llvm-nm "$object" | sed "s/ $2wentuqis_/ wentuqis_/" >"$scratch/names"
    if grep -v ' T wentuqis_' "$scratch/names"; then fail "$1: these names are no exported call's"; fi
    awk '{ print $3 }' "$scratch/names" | sort | diff - "$scratch/calls" || fail "$1: other names than the calls"
    diff <(sed 's/^0*//' "$made/image.names" | sort) \
        <(awk '{ print $1, $3 }' "$scratch/names" | sed 's/^0*//' | sort) || fail "$1: a call is not at its offset"
    # The first section begins at 0 and holds the image and what fills it up to its alignment.
    local address size
    read -r size address < <(llvm-objdump -h "$object" | awk -v name="$3" '$2 == name { print $3, $4 }')
    (((16#$address) == 0)) || fail "$1: the section does not begin at 0"
    python3 - "$object" "$made/image.bin" "$size" <<'PYTHON' || fail "$1: the section is not the image"
import sys

made, image = (open(name, "rb").read() for name in sys.argv[1:3])
sys.exit(made.count(image) != 1 or int(sys.argv[3], 16) != len(image))
PYTHON
    echo "image: $1: $(stat -c %s "$made/image.bin") bytes, $(wc -l <"$scratch/calls") calls at their offsets, no relocation"
}
check x86_64-pc-windows '' .text
check x86_64-apple-macos _ __text
cmp -s "$folder"/x86_64-{pc-windows,apple-macos}/image.bin || fail 'the two images differ'

# What the linker of macOS would do with it, by the one of LLVM, if there is one.
linker=$(compgen -c ld64.lld | head -n 1 || true)
if [[ -z $linker ]]; then
    for found in /usr/lib/llvm-*/bin/ld64.lld; do if [[ -x $found ]]; then linker=$found; fi; done
fi
if [[ -n $linker ]]; then
    "$linker" -arch x86_64 -platform_version macos 10.12 10.12 -dylib -all_load -o "$scratch/wentuqis.dylib" \
        "$folder/x86_64-apple-macos/libwentuqis.a"
    llvm-nm --defined-only "$scratch/wentuqis.dylib" | sed -n 's/.* T _\(wentuqis_.*\)/\1/p' | sort |
        diff - "$scratch/calls" || fail 'x86_64-apple-macos: the linked library has other names'
    echo 'image: x86_64-apple-macos: links into a library with every call; it was not run'
else
    echo 'image: there is no ld64.lld (Debian package lld): the archive for macOS was not linked'
fi

# Objects that are no image: one with an address in its constants, one with a number to write.
refused() {
    printf '%s\n' '.text' '.globl wentuqis_call' 'wentuqis_call: ret' "$1" >"$scratch/wrong.s"
    cc -c "$scratch/wrong.s" -o "$scratch/wrong.o"
    rm -f "$scratch/wrong.a"
    ar rc "$scratch/wrong.a" "$scratch/wrong.o"
    if bash tools/image.sh "$scratch/wrong.a" x86_64-pc-windows "$scratch/wrong" >"$scratch/said" 2>&1; then
        fail "an image was made of: $1"
    fi
    grep -q "$2" "$scratch/said" || {
        cat "$scratch/said"
        fail "refused for another reason: $1"
    }
}
refused '.section .rodata; .quad wentuqis_call' 'depend on where it lies'
refused '.data; .quad 1' 'more than code and constants'

# The stack, function by function: memory below the stack pointer is used as -0x8(%rsp); a frame is what is pushed,
# what is subtracted, and 128 bytes below. Another way to set the stack pointer would not be counted, and ends the run.
objdump -d --no-show-raw-insn "$archive" >"$scratch/code"
if grep -nE ',%rsp$' "$scratch/code" | grep -vE '\s(sub|add)q? +\$0x[0-9a-f]+,%rsp$|\slea +-?0x[0-9a-f]+\(%rbp\),%rsp$'; then
    fail 'the stack pointer is set in a way that is not counted'
fi
if grep -qE 'mov +%rsp,%rbp' "$scratch/code"; then fail 'a frame pointer: what lies below the stack is not counted'; fi
read -r below largest < <(python3 - "$scratch/code" <<'PYTHON'
import re
import sys

below, largest, frame, pushed = 0, 0, 0, 0
for line in open(sys.argv[1]):
    if line.endswith(">:\n"):
        frame, pushed = 0, 0
    below += bool(re.search(r"-0x[0-9a-f]+\(%rsp", line))
    pushed += 8 * bool(re.search(r"\tpush ", line))
    if found := re.search(r"\t(sub|add) +\$0x([0-9a-f]+),%rsp", line):
        number = int(found[2], 16)
        number -= number >> 63 << 64
        frame = max(frame, number if found[1] == "sub" else -number)
    largest = max(largest, frame + pushed + 128)
print(below, largest)
PYTHON
)
((largest < 4096)) || fail "a frame of $largest bytes: Windows would need a stack probe"
((below > 0)) || fail 'nothing uses memory below the stack pointer any more: docs/TARGETS.md can offer Windows itself'
echo "image: $below instructions use memory below the stack pointer; the largest frame has $largest bytes or fewer"
