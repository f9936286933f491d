#!/usr/bin/env bash
# Makes libwentuqis.a for x86-64 Windows or macOS of the one for x86-64 Linux. The machine code stays byte for byte:
# its code and constants are linked with a memcpy into one image that runs at any address, and an assembly file takes
# the image in and sets the exported names at their offsets.
# usage: tools/image.sh ARCHIVE TARGET FOLDER
#   ARCHIVE   libwentuqis.a for x86-64 Linux
#   TARGET    x86_64-pc-windows or x86_64-apple-macos
#   FOLDER    where libwentuqis.a, image.bin and image.names (OFFSET NAME, a line for each call) are written
# Debian's packages: gcc, binutils, clang, llvm.
set -euo pipefail

here=$(realpath "$(dirname "${BASH_SOURCE[0]}")")
if (($# != 3)); then
    echo 'image: usage: tools/image.sh ARCHIVE TARGET FOLDER'
    exit 2
fi
archive=$(realpath -m "$1") target=$2 folder=$(realpath -m "$3")

for tool in cc ld nm ar objcopy clang llvm-ar; do
    command -v "$tool" >/dev/null || {
        echo "image: $tool is not on PATH (Debian's packages gcc, binutils, clang, llvm)"
        exit 1
    }
done
[[ -f $archive ]] || {
    echo "image: there is no $archive"
    exit 1
}

# prefix: what the system puts before a C name; local: what makes a label that is no symbol
case $target in
x86_64-pc-windows) triple=x86_64-w64-windows-gnu prefix='' local=.L section=.text format=gnu ;;
x86_64-apple-macos)
    triple=x86_64-apple-macosx10.12 prefix=_ local=L format=darwin
    section='.section __TEXT,__text,regular,pure_instructions'
    ;;
*)
    echo "image: $target is neither x86_64-pc-windows nor x86_64-apple-macos"
    exit 2
    ;;
esac

scratch=$(mktemp -d)
trap 'rm -rf "$scratch"' EXIT
cd "$scratch"
mkdir objects
(cd objects && ar x "$archive")
cc -O2 -fPIC -ffreestanding -fcf-protection=none -fno-asynchronous-unwind-tables -c "$here/image_memcpy.c" -o objects/memcpy.o

# image BASE: the image as it is linked for an address, BASE.bin.
image() {
    ld -static -nostdlib -e 0 --build-id=none -z noexecstack --orphan-handling=error -T "$here/image.ld" \
        --defsym=base="$1" -o "$1.elf" objects/*.o
    objcopy -O binary -j .image "$1.elf" "$1.bin"
}

# Linked for two addresses more than four GiB apart, it is the same: no byte of it depends on where it lies.
image 0x0
image 0x123456789000
cmp -s 0x0.bin 0x123456789000.bin || {
    echo 'image: the code has addresses in it that depend on where it lies'
    exit 1
}
nm --defined-only 0x0.elf | awk '$2 == "T" && $3 ~ /^wentuqis_/ { print $1, $3 }' | sort >names
[[ -s names ]] || {
    echo "image: $archive exports no call"
    exit 1
}

{
    printf '%s\n.p2align 12\n%simage:\n.incbin "0x0.bin"\n' "$section" "$local"
    while read -r offset name; do
        printf '.globl %s%s\n.set %s%s, %simage + 0x%s\n' "$prefix" "$name" "$prefix" "$name" "$local" "$offset"
    done <names
} >wentuqis.s
clang -target "$triple" -c wentuqis.s -o wentuqis.o

mkdir -p "$folder"
rm -f libwentuqis.a
llvm-ar --format="$format" rcsD libwentuqis.a wentuqis.o
for made in "0x0.bin image.bin" "names image.names" "libwentuqis.a libwentuqis.a"; do
    read -r from to <<<"$made"
    cmp -s "$from" "$folder/$to" || install -m 644 "$from" "$folder/$to"
done
