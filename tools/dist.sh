#!/usr/bin/env bash
# Puts a release together: OUT/wentuqis-VERSION/, the same as OUT/wentuqis-VERSION.tar.gz, and that file's checksum. It
# proves and builds nothing: it takes the archives that lie in target/, each with what the prover said of it, and refuses
# one that is not proved. The same sources and archives give the same bytes, wherever and whenever it is run.
# usage: tools/dist.sh [OUT]   (default: target/dist)
set -euo pipefail
shopt -s nullglob
export LC_ALL=C TZ=UTC
umask 022

out=$(realpath -m "${1:-$(dirname "${BASH_SOURCE[0]}")/../target/dist}")
cd "$(dirname "${BASH_SOURCE[0]}")/.."

fail() {
    echo "dist: $1"
    exit 1
}

# The version of the header is that of the crate and of the newest entry of the changelog.
version=$(sed -n 's/^#define WENTUQIS_VERSION "\(.*\)"$/\1/p' include/wentuqis.h)
crate=$(sed -n 's/^version = "\(.*\)"$/\1/p' rust/Cargo.toml)
newest=$(sed -n '/^## /{s///p;q}' CHANGELOG.md)
[[ -n $version && $crate == "$version" && $newest == "$version" ]] ||
    fail "the versions differ: header $version, rust/Cargo.toml $crate, CHANGELOG.md $newest"

kit=$(rt version) || fail 'rt, the command of the Rattle kit, is not on PATH'
logic=${kit##* logic }

# The archives of target/staticlib, each by the name of its folder in lib/; the one in target/staticlib itself is that for
# x86-64 Linux.
linux=x86_64-unknown-linux-gnu
archive_of() {
    if [[ $1 == "$linux" ]]; then echo target/staticlib/libwentuqis.a; else echo "target/staticlib/$1/libwentuqis.a"; fi
}
log_of() {
    if [[ $1 == "$linux" ]]; then echo target/library.log; else echo "target/staticlib/$1/library.log"; fi
}
names=()
for archive in target/staticlib/{,*/}libwentuqis.a; do
    [[ -f $archive ]] || continue
    name=${archive#target/staticlib/}
    name=${name%libwentuqis.a}
    name=${name%/}
    names+=("${name:-$linux}")
done
((${#names[@]} > 0)) || fail "there is no archive in target/staticlib: make it by 'make library'"

# linux_of NAME: the archive whose machine code an archive for Windows or macOS has, of the same level.
linux_of() {
    case $1 in
    *-v3) echo "$linux-v3" ;;
    *) echo "$linux" ;;
    esac
}

# proved_for NAME: what the prover says of the machine that it proved the code for.
proved_for() {
    case $1 in
    x86_64-*-v3) echo "target=$linux cpu=x86-64-v3 " ;;
    x86_64-*) echo "target=$linux cpu=x86-64-v2 " ;;
    *) echo "target=$1 " ;;
    esac
}

# verdicts NAME: what the prover said of the archive's own crate, the last of its log; fails if a function of any crate
# in the log is not proved, if one of its own is missing, or if it was for another machine or by another kit's logic.
verdicts() {
    local said functions
    # By one program: of two in a pipe the first may be ended by the second, and pipefail would hide what that found.
    awk '/^fn / && !/: proved( where its callers give what it asks)?$/ { wrong = 1 } END { exit wrong }' \
        "$(log_of "$1")" || return 1
    said=$(awk '/^(fn |axioms |logic=)/ { block = block $0 "\n" } /^logic=/ { last = block; block = "" }
        END { if (block == "") printf "%s", last }' "$(log_of "$1")")
    functions=$(grep -c '^fn ' <<<"$said") || return 1
    [[ $said == *"logic=proved functions=$functions $(proved_for "$1")"*"sum=$logic "* ]] || return 1
    grep '^fn ' <<<"$said" | sort
    grep -v '^fn ' <<<"$said"
}

# check_image NAME: the archive is what tools/image.sh makes of the proved one for Linux.
check_image() {
    local anew
    anew=$(mktemp -d)
    if ! bash tools/image.sh "$(archive_of "$(linux_of "$1")")" "${1%-v3}" "$anew" ||
        ! cmp "$anew/libwentuqis.a" "$(archive_of "$1")"; then
        rm -rf "$anew"
        fail "the archive for $1 is not made of that for $(linux_of "$1")"
    fi
    rm -rf "$anew"
}

release=wentuqis-$version
rm -rf "${out:?}/$release" "$out/$release".tar.gz*
to=$out/$release
trap '(($? == 0)) || rm -rf "${to:?}"*' EXIT
mkdir -p "$to"/{include,lib,examples,docs,rust}

printf '%s\n' "$kit" >"$to/VERDICTS.txt"
listed=''
for name in "${names[@]}"; do
    said=$(verdicts "$name") || fail "$(log_of "$name") does not say that the archive for $name is proved by $kit"
    made=$name
    case $name in
    x86_64-pc-windows* | x86_64-apple-macos*)
        check_image "$name"
        made="$name, the machine code of $(linux_of "$name")"
        ;;
    esac
    printf '\n%s\n%s\n' "$made" "$said" >>"$to/VERDICTS.txt"
    mkdir -p "$to/lib/$name/pkgconfig"
    cp "$(archive_of "$name")" "$to/lib/$name/"
    sed "s/@VERSION@/$version/" release/wentuqis.pc >"$to/lib/$name/pkgconfig/wentuqis.pc"
    listed+=", \`$name\`"
done

sed "s/@VERSION@/$version/; s/@KIT@/$kit/; s/@ARCHIVES@/${listed#, }/" release/README.md >"$to/README.md"
cp release/Makefile NOTICE CHANGELOG.md "$to/"
cp include/wentuqis.h "$to/include/"
cp examples/*.c "$to/examples/"
cp docs/*.md "$to/docs/"
cp -r rust/{Cargo.toml,Cargo.lock,build.rs,NOTICE,README.md,src,examples} "$to/rust/"

(
    cd "$out"
    find "$release" -type d -exec chmod 755 {} + -o -type f -exec chmod 644 {} +
    (cd "$release" && find . -type f ! -name SHA256SUMS | sort | sed 's|^\./||' | xargs sha256sum >SHA256SUMS)
    find "$release" -exec touch --date=@0 {} +
    tar --create --format=ustar --sort=name --mtime=@0 --owner=0 --group=0 --numeric-owner "$release" |
        gzip --no-name --best >"$release.tar.gz"
    sha256sum "$release.tar.gz" >"$release.tar.gz.sha256"
    cat "$release.tar.gz.sha256"
)
