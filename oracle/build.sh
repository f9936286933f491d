#!/usr/bin/env bash
# Usage: build.sh [--by-rules] [PROGRAM..]
# Builds the original Rust, unchanged, as the library `original`, and this folder's programs over it, in oracle/build/:
# those named, or all. The source is the folder ORACLE_SRC, else the one beside the repository that `source` below names;
# its files lie below windows/core/src. Where there is none, one line says so and the exit status is 3. `compare`, `fuzz` and
# a `bench` with the port's column need libwentuqis.a in the folder WENTUQIS_LIB_DIR, else in target/staticlib; without
# it one line says so, which is a failure only where `compare` or `fuzz` is named. `record`, `compare` and `fuzz` need a
# C compiler, cc, that has _Float16, as gcc has from version 12 on. What is newer than all that it is made from is left
# as it is. With --where, only prints the source folder. With --by-rules the original is not asked: stand_ins/original.rs,
# which is docs/RULES.md as a program, is built in its place, and over it `compare` and `fuzz`, in oracle/build/by_rules/, and,
# where it is named, `model`, which needs no archive and is built over nothing else.
# ORACLE_TARGET then names another target of rustc's, with CC and NM for it; its programs are in by_rules-TARGET/.
set -euo pipefail

here=$(cd "$(dirname "${BASH_SOURCE[0]}")" && pwd)
script=$here/build.sh
build=$here/build
crate=$(dirname "$here")/rust/src
source=${ORACLE_SRC:-$(dirname "$(dirname "$here")")/shared/docs/src}
archive=${WENTUQIS_LIB_DIR:-$(dirname "$here")/target/staticlib}/libwentuqis.a

# Modules taken whole, and modules of which items are cut out because the rest leans on what is not at hand.
whole=(pixel_convert planar_yuv depth_texture)
parts=(caps format convert stretch_rect)

by_rules=0
if [[ ${1:-} == --by-rules ]]; then
    by_rules=1 build=$build/by_rules${ORACLE_TARGET:+-$ORACLE_TARGET} source=$here/stand_ins
    shift
    if (($# == 0)); then set -- compare fuzz; fi
elif [[ ! -d $source/windows/core/src ]]; then
    echo "oracle: the original is absent: no windows/core/src in $source (oracle/README.md says how to get it, ORACLE_SRC names it)" >&2
    exit 3
fi
source=$(cd "$source" && pwd)
core=$source/windows/core/src
if [[ ${1:-} == --where ]]; then
    echo "$source"
    exit
fi

fail() {
    echo "oracle: $1" >&2
    exit 1
}

command -v rustc >/dev/null || fail 'rustc is not on PATH'
if ((by_rules)); then
    for name in "$@"; do
        [[ $name == compare || $name == fuzz || $name == model ]] || fail "$name is not built by the rules alone"
    done
else
    [[ " $* " != *' model '* ]] || fail 'model is built by the rules alone'
    for name in "${whole[@]}" "${parts[@]}"; do
        [[ -f $core/$name.rs ]] || fail "the original lacks $core/$name.rs"
    done
fi

# Overflow checks are off, as in a release build. The sums of u32 texel coordinates in `convert_region` then wrap,
# where the rules refuse the texel: for such a region they answer and not the original.
flags=(--edition 2024 -C opt-level=3 -C codegen-units=1 -C debug-assertions=off -C overflow-checks=off)
cc=${CC:-cc}
if ((by_rules)) && [[ -n ${ORACLE_TARGET:-} ]]; then flags+=(--target "$ORACLE_TARGET" -C "linker=$cc"); fi

# Nothing made from another folder or by another compiler is kept.
origin="$source, $(rustc --version), $("$cc" --version 2>/dev/null | head -n 1 || true)"
if [[ ! -f $build/origin || $(<"$build/origin") != "$origin" ]]; then
    rm -rf "$build"
    mkdir -p "$build"
    echo "$origin" >"$build/origin"
fi
mkdir -p "$build/items" "$build/unfinished"

# made OUT IN..: OUT is newer than this script and every IN.
made() {
    local out=$1 in
    for in in "$script" "${@:2}"; do
        [[ $out -nt $in ]] || return 1
    done
}

# compile OUT MAIN [WORDS..]: OUT appears only when it is whole.
compile() {
    local name=${1##*/}
    echo "oracle: building $name"
    rustc "${flags[@]}" "${@:3}" -o "$build/unfinished/$name" "$2"
    mv -f "$build/unfinished/$name" "$1"
}

# cut_items NAME HEAD ITEM..: the items of the original's NAME.rs, below the line HEAD.
cut_items() {
    local name=$1 head=$2
    if made "$build/items/$name.rs" "$build/cut" "$core/$name.rs"; then return; fi
    {
        echo "$head"
        "$build/cut" "$core/$name.rs" "${@:3}"
    } >"$build/unfinished/$name.rs"
    mv -f "$build/unfinished/$name.rs" "$build/items/$name.rs"
}

# What the programs are compiled over.
externs=(-L "dependency=$build")

# build_original: the library `original` from the original's own files, and what it imports.
build_original() {
    local name file files root=$build/original.rs
    if ! made "$build/cut" "$here/cut.rs"; then
        compile "$build/cut" "$here/cut.rs"
    fi

    cut_items caps '' MAX_TEXTURE_DIM
    cut_items format '' linear_row_pitch
    cut_items convert 'use mtld3d_types::*;' \
        d3dcolor_to_rgba_f32 splat_pixel_pattern d3dcolor_fill_pixel_bytes d3dcolor_luminance unorm8_to_nearest_code \
        pack_a2_rgb10 unorm8_to_snorm8 unorm8_to_snorm16 unorm8_to_unorm16 f32_to_f16_bits narrow_f16
    cut_items stretch_rect 'use crate::planar_yuv::planar_yuv_layout_from_pitch; use mtld3d_types::*;' \
        is_packed_yuv is_planar_yuv yuv_to_rgb8 decode_packed_yuv decode_planar_yuv

    for name in mtld3d_types mtld3d_shared; do
        if ! made "$build/lib$name.rlib" "$here/stand_ins/$name.rs"; then
            compile "$build/lib$name.rlib" "$here/stand_ins/$name.rs" --crate-type rlib
        fi
        externs+=(--extern "$name=$build/lib$name.rlib")
    done

    files=("${parts[@]/#/$build/items/}" "${whole[@]/#/$core/}")
    files=("${files[@]/%/.rs}")
    if ! made "$root"; then
        {
            # A format code that the stand-in lacks would become a pattern that matches all: these lints refuse it.
            echo '#![deny(unreachable_patterns, unused_variables)]'
            # The stand-in of the rules alone has true here.
            echo 'pub const BY_RULES: bool = false;'
            for file in "${files[@]}"; do
                printf '#[path = r"%s"]\npub mod %s;\n' "$file" "$(basename "$file" .rs)"
            done
        } >"$root"
    fi
    if ! made "$build/liboriginal.rlib" "$root" "$build"/libmtld3d_{types,shared}.rlib "${files[@]}"; then
        compile "$build/liboriginal.rlib" "$root" --crate-type rlib "${externs[@]}"
    fi
}

if ((by_rules)); then
    sources=("$here"/stand_ins/original.rs "$here/rules.rs" "$crate/shapes.rs")
    if ! made "$build/liboriginal.rlib" "${sources[@]}"; then
        compile "$build/liboriginal.rlib" "${sources[0]}" --crate-type rlib
    fi
else
    build_original
fi
externs+=(--extern "original=$build/liboriginal.rlib")

named=("$@")

# asked NAME..: no program is named, or one of these is.
asked() {
    local name
    ((${#named[@]} > 0)) || return 0
    for name in "$@"; do
        if [[ " ${named[*]} " == *" $name "* ]]; then return 0; fi
    done
    return 1
}

# program NAME SOURCES.. -- WORDS..: builds a program if it is asked for.
program() {
    local name=$1 from=()
    shift
    if ! asked "$name"; then return; fi
    while [[ $1 != -- ]]; do
        from+=("$1")
        shift
    done
    if ! made "$build/$name" "$here/$name.rs" "${from[@]}"; then
        compile "$build/$name" "$here/$name.rs" "${externs[@]}" "${@:2}"
    fi
}

# missing: what the archive lacks of what port.rs takes from ffi.rs; nothing if it is whole.
missing() {
    local name
    if [[ ! -f $archive ]]; then
        echo 'is not there'
        return
    fi
    while read -r name; do
        if ! LC_ALL=C grep -aqz "$name\$" "$archive"; then
            echo "lacks $name"
            return
        fi
    done < <(grep -o '\bwentuqis_\w*' "$crate/ffi.rs" | sort -u)
}

common=("$here/common.rs" "$crate/shapes.rs" "$build/liboriginal.rlib")
program worked_table "${common[@]}" --
recorded=("${common[@]}" "$here"/{answers,by_texel,calls,record_calls,rules,sets,stills,wrong}.rs)
if ((by_rules)); then program model "${recorded[@]}" "$here/drawn.rs" --; fi

# A `bench` over another archive, or over none, is not kept.
common+=("$here/rules.rs")
port=() missing=$(missing)
if [[ -z $missing ]]; then
    common+=("$here/port.rs" "$crate/ffi.rs" "$archive")
    port=(--cfg port -L "native=${archive%/*}" -l static=wentuqis)
fi
if [[ ! -f $build/linked || $(<"$build/linked") != "${port[*]}" ]]; then
    rm -f "$build"/{bench,compare,fuzz}
    echo "${port[*]}" >"$build/linked"
fi
program bench "${common[@]}" -- --check-cfg 'cfg(port)' "${port[@]}"

# The C compiler's conversion to binary16, for those that take answers.rs: a library of its own, so that what the compiler
# leaves to a routine is the C compiler's routine. Linked as an object, it would be bound to the one of Rust's runtime.
float16=$build/libfloat16.so
by_compiler=(-L "native=$build" -l dylib=float16 -C "link-arg=-Wl,-rpath,$build")
if asked record compare fuzz && ! made "$float16" "$here/float16.c"; then
    echo 'oracle: building libfloat16.so'
    "$cc" -std=c11 -O2 -Wall -Wextra -Werror -fPIC -shared "$here/float16.c" -o "$build/unfinished/libfloat16.so" ||
        fail "$cc did not build float16.c, which needs a compiler that has _Float16"
    undefined=$("${NM:-nm}" -D -u "$build/unfinished/libfloat16.so") || fail 'nm did not read libfloat16.so'
    if [[ $undefined == *__trunc* ]]; then fail 'libfloat16.so has no conversion of its own'; fi
    mv -f "$build/unfinished/libfloat16.so" "$float16"
fi
program record "${recorded[@]}" "$float16" -- "${by_compiler[@]}"

if [[ -z $missing ]]; then
    common+=("$here"/{answers,by_texel,calls,checks,drawn,findings,sets,stills,whole_numbers}.rs "$float16")
    for name in compare fuzz; do
        program "$name" "${common[@]}" "$here"/parts/*.rs -- \
            --check-cfg 'cfg(port, test)' "${port[@]}" -C overflow-checks=on "${by_compiler[@]}"
    done
elif asked bench compare fuzz; then
    missing="$archive $missing (make library makes it; WENTUQIS_LIB_DIR names another folder)"
    if ((${#named[@]} > 0)) && asked compare fuzz; then fail "$missing"; fi
    echo "oracle: $missing: compare and fuzz are not built, and bench is without the port" >&2
fi
