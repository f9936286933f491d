#!/usr/bin/env bash
# The release, of what lies in target/: made twice, the second time from a copy elsewhere with other times, modes and zone,
# it has the same checksums; its own checksums hold, and find a changed byte; and from its tar alone, with a command rt
# that fails first on PATH, C and Rust programs link and run, in place and as it is installed.
# usage: tests/dist.sh
# Without a C compiler, make or pkg-config it says so in one line and exits with 0, or with 1 if CI is set.
set -euo pipefail

cd "$(dirname "${BASH_SOURCE[0]}")/.."
repository=$PWD

for tool in cc make pkg-config; do
    command -v "$tool" >/dev/null || {
        echo "dist: $tool is not on PATH: the release was not tried"
        if [[ -n ${CI:-} ]]; then exit 1; fi
        exit 0
    }
done

scratch=$(mktemp -d)
trap 'chmod -R u+w "$scratch"; rm -rf "$scratch"' EXIT

fail() {
    echo "dist: $1"
    exit 1
}

# Twice the same.
bash tools/dist.sh "$scratch/first" >/dev/null
mkdir "$scratch/elsewhere"
tar --create --exclude=./target --exclude=./.git --exclude=./crates --exclude=./oracle . | tar --extract --touch -C "$scratch/elsewhere"
mkdir "$scratch/elsewhere/target"
cp -r target/staticlib target/*.log "$scratch/elsewhere/target/"
chmod -R go-rwx "$scratch/elsewhere"
(cd / && umask 077 && TZ=Asia/Tokyo LC_ALL=C.UTF-8 bash "$scratch/elsewhere/tools/dist.sh" >/dev/null)
diff -r "$scratch/first" "$scratch/elsewhere/target/dist" || fail 'made twice, the release differs'

# An archive with a function that is not said to be proved is not taken in, be it the first of the log, of the lowest
# crate that was proved with it, or the last, of its own; nor one version without the other.
for which in 1 '$'; do
    line=$(grep -n ': proved$' target/library.log | sed -n "$which"'s/:.*//p')
    sed "${line}s/: proved\$/: not proved/" target/library.log >"$scratch/elsewhere/target/library.log"
    cmp -s target/library.log "$scratch/elsewhere/target/library.log" && fail 'the log of the prover names no function'
    if bash "$scratch/elsewhere/tools/dist.sh" >/dev/null; then
        fail 'an archive with a function that is not proved was taken in'
    fi
done
cp target/library.log "$scratch/elsewhere/target/"
sed -i 's/^## 0/## 1/' "$scratch/elsewhere/CHANGELOG.md"
if bash "$scratch/elsewhere/tools/dist.sh" >/dev/null; then fail 'a changelog without the version was taken in'; fi
[[ -z $(ls "$scratch/elsewhere/target/dist") ]] || fail 'a release that was refused is left behind'

# The tar alone.
mkdir "$scratch/user"
cd "$scratch/first"
sha256sum --check --quiet wentuqis-*.tar.gz.sha256
tar --extract -f wentuqis-*.tar.gz -C "$scratch/user"
release=$(echo "$scratch"/user/wentuqis-*)
cd "$release"
make --no-print-directory --silent check
if grep -rlF -e "$repository" -e "$scratch" -e "$HOME/" .; then fail 'the files above name a folder of this machine'; fi
grep -rhoE 'docs/[A-Z]+\.md' include NOTICE README.md rust | sort -u | while read -r named; do
    [[ -f $named ]] || fail "the release names $named, and has no such file"
done

# No kit: this rt fails.
mkdir "$scratch/bin"
printf '#!/bin/sh\necho "$@" >>"%s"\nexit 1\n' "$scratch/rt-was-called" >"$scratch/bin/rt"
chmod +x "$scratch/bin/rt"
export PATH=$scratch/bin:$PATH CARGO_TARGET_DIR=$scratch/cargo

bash "$repository/tests/examples.sh" lib/x86_64-unknown-linux-gnu "$release"

# with_pkg_config FOLDER: examples/frame.c by the pkg-config file of this folder.
with_pkg_config() {
    PKG_CONFIG_PATH=$1 pkg-config --exact-version="$(sed -n 's/^# Wentuqis //p' README.md)" wentuqis
    # shellcheck disable=SC2046
    cc -std=c99 examples/frame.c $(PKG_CONFIG_PATH=$1 pkg-config --cflags --libs wentuqis) -o "$scratch/frame"
    "$scratch/frame" | diff -u "$repository/tests/examples/frame.c.txt" - || fail "frame.c by $1 prints something else"
}
with_pkg_config lib/x86_64-unknown-linux-gnu/pkgconfig
make --no-print-directory --silent install PREFIX="$scratch/prefix"
with_pkg_config "$scratch/prefix/lib/pkgconfig"
make --no-print-directory --silent install DESTDIR="$scratch/image" PREFIX=/usr
with_pkg_config "$scratch/image/usr/lib/pkgconfig"

# A package of the user's own over rust/.
mkdir -p "$scratch/viewer/src"
cp rust/examples/depth.rs "$scratch/viewer/src/main.rs"
printf '[package]\nname = "viewer"\nversion = "0.0.0"\nedition = "2024"\n[dependencies]\nwentuqis = { path = "%s/rust" }\n' \
    "$release" >"$scratch/viewer/Cargo.toml"
WENTUQIS_LIB_DIR=$release/lib/x86_64-unknown-linux-gnu \
    cargo run --offline --quiet --manifest-path "$scratch/viewer/Cargo.toml" >"$scratch/printed"
diff -u "$repository/tests/examples/depth.rs.txt" "$scratch/printed" || fail 'a package over rust/ prints something else'

[[ ! -e $scratch/rt-was-called ]] || fail 'a program of the release called rt'

# A changed byte is found.
printf ' ' >>include/wentuqis.h
if make --no-print-directory check >/dev/null 2>&1; then fail 'make check finds no changed file'; fi
echo "dist: $(cat "$scratch"/first/*.sha256), twice; C and Rust programs of it link and run without the kit"
