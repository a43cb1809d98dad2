#!/bin/sh
# record.sh LIST: makes a list of answers anew from the Rust's side, over jiff 0.1.28. build.sh says what that needs. Lists:
#   words    asks timeglyph's src/registry.rs over the real jiff crate; writes crates/stamps/stdin and stdout
#   replay   asks the real jiff crate, and timeglyph's src/registry.rs and src/compose.rs over it; writes crates/replay/stdin and
#            stdout
set -eu
cd "$(dirname "$0")/.."
list=${1:-}
case $list in
words) folder=crates/stamps ;;
replay) folder=crates/replay ;;
*)
    echo "usage: compare/record.sh words | replay" >&2
    exit 2
    ;;
esac
if ! compare/build.sh record trixie; then
    echo "record.sh: no list was written" >&2
    exit 1
fi
target/compare-trixie/release/record "$list" "$folder"
