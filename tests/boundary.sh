#!/usr/bin/env bash
# Compiles tests/boundary.c against include/wentuqis.h and libwentuqis.a, and runs it. The C function of README.md must
# compile too, and the header with a named set as C++.
# usage: tests/boundary.sh [FOLDER]   FOLDER holds libwentuqis.a (default: target/staticlib)
# Without a C compiler it says so in one line and exits with 0, or with 1 if CI is set; without a C++ compiler it says so,
# and exits with 1 if CI is set.
set -euo pipefail

folder=$(realpath -m "${1:-$(dirname "${BASH_SOURCE[0]}")/../target/staticlib}")
cd "$(dirname "${BASH_SOURCE[0]}")/.."

archive=$folder/libwentuqis.a
if [[ ! -f $archive ]]; then
    echo "boundary: there is no $archive: make it by 'make library'"
    exit 1
fi

compiler=$(command -v cc || command -v gcc || true)
if [[ -z $compiler ]]; then
    echo 'boundary: there is no C compiler (cc or gcc): the C test was not run'
    if [[ -n ${CI:-} ]]; then exit 1; fi
    exit 0
fi

scratch=$(mktemp -d)
trap 'rm -rf "$scratch"' EXIT
"$compiler" -std=c99 -Wall -Wextra -Werror -Iinclude tests/boundary.c "$archive" -o "$scratch/boundary"

# README.md's C: the first block behind the line `In C:`.
awk '/^In C:$/ { on = 1; next } on && /^[^ ]/ { exit } on { print }' README.md >"$scratch/readme.c"
grep -q wentuqis_convert_region "$scratch/readme.c" || {
    echo 'boundary: README.md has no C behind `In C:`'
    exit 1
}
"$compiler" -std=c99 -Wall -Wextra -Werror -Iinclude -fsyntax-only "$scratch/readme.c"

# told WORD LINE: the compiler refuses a line by what an attribute of the header is for.
told() {
    local word=$1 line=$2
    printf '%s\n' '#include "wentuqis.h"' "int main(void) { $line return 0; }" >"$scratch/wrong.c"
    if "$compiler" -std=c99 -Wall -Werror -Iinclude -c "$scratch/wrong.c" -o "$scratch/wrong.o" 2>"$scratch/said"; then
        echo "boundary: the compiler says nothing of: $line"
        exit 1
    fi
    grep -q -e "$word" "$scratch/said" || {
        cat "$scratch/said"
        exit 1
    }
}
told nonnull 'wentuqis_bt601((WentuqisYuvSet *)0);'
told unused-result 'wentuqis_can_convert(20, 21);'

if command -v c++ >/dev/null; then
    printf '%s\n' '#include "wentuqis.h"' 'WentuqisYuvSet set = WENTUQIS_BT709;' >"$scratch/header.cpp"
    c++ -Wall -Wextra -Wold-style-cast -Werror -Iinclude -fsyntax-only "$scratch/header.cpp"
else
    echo 'boundary: there is no C++ compiler (c++): the header was not compiled as C++'
    if [[ -n ${CI:-} ]]; then exit 1; fi
fi

"$scratch/boundary"
