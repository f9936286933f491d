#!/usr/bin/env bash
# The C boundary under the address and the undefined-behaviour sanitizer: tests/boundary.c, and tests/guard_pages.c, whose
# buffers stand between pages that may not be touched. The archive itself has no sanitizer in it: what it touches beside
# a lent buffer ends the program at such a page.
# usage: tests/sanitize.sh [FOLDER [SECONDS [SEED]]]   FOLDER holds libwentuqis.a (default: target/staticlib); SECONDS
# is how long random calls are made (default: 5), SEED where they start (default: the clock's)
# CC names another compiler, CFLAGS more words for it, SANITIZERS others than address,undefined (empty: none), RUN a
# command that runs the programs: docs/TESTING.md has those for other targets.
# Without a C compiler it says so in one line and exits with 0, or with 1 if CI is set.
set -euo pipefail

folder=$(realpath -m "${1:-$(dirname "${BASH_SOURCE[0]}")/../target/staticlib}")
cd "$(dirname "${BASH_SOURCE[0]}")/.."

archive=$folder/libwentuqis.a
if [[ ! -f $archive ]]; then
    echo "sanitize: there is no $archive: make it by 'make library'"
    exit 1
fi

compiler=${CC:-$(command -v cc || command -v gcc || true)}
if [[ -z $compiler ]]; then
    echo 'sanitize: there is no C compiler (cc or gcc): nothing was run'
    if [[ -n ${CI:-} ]]; then exit 1; fi
    exit 0
fi

scratch=$(mktemp -d)
trap 'rm -rf "$scratch"' EXIT
read -ra more <<<"${CFLAGS:-}"
flags=(-std=c99 -g -O1 -Wall -Wextra -Werror -Iinclude "${more[@]}")
sanitizers=${SANITIZERS-address,undefined}
if [[ -n $sanitizers ]]; then
    with=("-fsanitize=$sanitizers" -fno-sanitize-recover=all)
    if "$compiler" "${with[@]}" -x c - -o "$scratch/none" <<<'int main(void) { return 0; }' 2>/dev/null; then
        flags+=("${with[@]}")
    else
        echo "sanitize: $compiler has no -fsanitize=$sanitizers: run between guard pages alone"
        if [[ -n ${CI:-} ]]; then exit 1; fi
    fi
fi
read -ra run <<<"${RUN:-}"
for name in boundary guard_pages; do
    "$compiler" "${flags[@]}" "tests/$name.c" "$archive" -o "$scratch/$name.exe"
done
"${run[@]}" "$scratch/boundary.exe"
"${run[@]}" "$scratch/guard_pages.exe" "${2:-5}" "${@:3}"
