#!/bin/sh
# compare.sh: this library and the Rust's own codecs on the same inputs, and a report.
#   compare/compare.sh                        two million generated inputs, in a few seconds
#   compare/compare.sh --inputs N --seed S    so many of them, from another seed; either can be left out
#   compare/compare.sh --all-words LAYOUT     every word of a layout of 32 bits: 1, 2, 3, 4, 9 or 15
#   compare/compare.sh FILE                   the lines of a file, as the line program takes them
# With --jiff sid before these, the Rust stands on jiff 0.2.37 instead of 0.1.28. build.sh says what is needed, and which
# variables name it; SLEETRICK_LIB names another folder with a libsleetrick.a than target/staticlib.
# The status is 0 where all agree, 1 where something differs, and 2 where nothing could be compared: then it says why.
set -eu
suite=trixie
if [ "${1:-}" = --jiff ]; then
    suite=${2:-none}
    shift "$(($# < 2 ? $# : 2))"
fi
case ${1:-} in
--inputs | --seed | --all-words | '') ;;
-*)
    sed -n '2,/^set/{/^set/d;s/^# //p;}' "$0" >&2
    exit 2
    ;;
/*) ;;
*)
    file=$PWD/$1
    shift
    set -- "$file" "$@"
    ;;
esac
cd "$(dirname "$0")/.."

# commit FOLDER: of the checkout there, if it can be told
commit() {
    if [ -e "$1/.git" ] && head=$(git -C "$1" rev-parse --short=10 HEAD 2>/dev/null); then
        git -C "$1" diff --quiet HEAD -- src 2>/dev/null || head="$head, with changes"
    else
        head=$(sed -n 's/.* at commit \([0-9a-f]*\).*/\1/p' "$1/INDEX.md" 2>/dev/null)
    fi
    echo "${head:+, commit $head}"
}

if ! compare/build.sh compare "$suite"; then
    echo "compare.sh: nothing was compared" >&2
    exit 2
fi
timeglyph=$(cd "${TIMEGLYPH:-../shared/docs/src}" && pwd)
library=${SLEETRICK_LIB:-$PWD/target/staticlib}/libsleetrick.a
echo "the Rust      timeglyph in $timeglyph$(commit "$timeglyph")"
echo "this library  $library, sha256 $(sha256sum "$library" | cut -c 1-16), for $(sed -n 's/^target //p' "${library%.a}.from")"
exec "target/compare-$suite/release/compare" "$@"
