#!/bin/sh
# build.sh PROGRAM [SUITE]: builds a program of this folder as target/compare-SUITE/release/PROGRAM, from the repository's
# root. It stands on the Rust's side, so it needs
#   jiff        0.1.28 for the suite trixie, which is taken if none is named, or 0.2.37 for sid: laid in target/jiff-SUITE by
#               the script that GET_JIFF names (a path from the repository's root; without it, ../shared/oracle/get-jiff), and
#               where there is no such script, fetched by cargo from the registry that it is set up with
#   timeglyph   compiled from where it lies: TIMEGLYPH names a checkout of it (a path from the repository's root; without it,
#               ../shared/docs/src)
#   cargo       and no network once jiff is laid
# The status is 2 where one of them can't be had, and 1 where the program does not build.
set -eu
program=${1:?usage: build.sh PROGRAM [SUITE]}
suite=${2:-trixie}
case $suite in
trixie) version=0.1.28 ;;
sid) version=0.2.37 ;;
*)
    echo "build.sh: there is no suite $suite; trixie and sid are" >&2
    exit 2
    ;;
esac
root=$(cd "$(dirname "$0")/.." && pwd)
cd "$root"

# not_had WHAT WHY
not_had() {
    echo "build.sh: $1 cannot be had: $2; nothing was built" >&2
    exit 2
}

command -v cargo >/dev/null 2>&1 || not_had cargo "there is none on the path"

timeglyph=${TIMEGLYPH:-../shared/docs/src}
for text in src/registry.rs src/compose.rs; do
    [ -f "$timeglyph/$text" ] || not_had timeglyph "there is no $timeglyph/$text (the variable TIMEGLYPH says where it is)"
done
TIMEGLYPH=$(cd "$timeglyph" && pwd)
export TIMEGLYPH

jiff=$root/target/jiff-$suite
get_jiff=${GET_JIFF:-../shared/oracle/get-jiff}
# laid is written last and holds the path: jiff's configuration names absolute paths.
if [ "$(cat "$jiff/laid" 2>/dev/null)" != "$jiff" ]; then
    rm -rf "$jiff" "target/compare-$suite/Cargo.lock"
    if [ -f "$get_jiff" ] && sh "$get_jiff" "$jiff" "$suite"; then
        echo "$jiff" >"$jiff/laid"
    fi
fi

# A lock file names one suite's jiff, so each suite's is kept aside.
lock=compare/Cargo.lock
kept=target/compare-$suite/Cargo.lock
mkdir -p "target/compare-$suite"
rm -f "$lock"
[ ! -f "$kept" ] || mv "$kept" "$lock"
trap '[ ! -f "$lock" ] || mv "$lock" "$kept"' EXIT
if [ -f "$jiff/laid" ]; then
    set -- --config "$jiff/config.toml" --offline
else
    set --
    { cargo generate-lockfile --quiet --manifest-path compare/Cargo.toml &&
        cargo update --quiet --manifest-path compare/Cargo.toml --package jiff --precise "$version" &&
        grep -A 1 '^name = "jiff"$' "$lock" | grep -qx "version = \"$version\""; } ||
        not_had "jiff $version" "$get_jiff (or what the variable GET_JIFF names) is missing or failed, and cargo finds none"
fi
cargo "$@" build --quiet --release \
    --manifest-path compare/Cargo.toml --package "$program" --target-dir "target/compare-$suite" || exit 1
