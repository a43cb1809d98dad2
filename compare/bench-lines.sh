#!/bin/sh
# bench-lines.sh [trixie | sid]: times the line program `stamps`, which has to be built, and a line program over the Rust's
# codecs on the same lines, on one core, and prints lines a second. The suite names the jiff that the Rust stands on, as in
# bench.sh. build.sh says what that needs. It takes about half a minute, and should have the machine to itself.
set -eu
cd "$(dirname "$0")/.."
suite=${1:-sid}
case $suite in
trixie | sid) ;;
*)
    echo "usage: compare/bench-lines.sh [trixie | sid]" >&2
    exit 2
    ;;
esac
if ! command -v taskset >/dev/null 2>&1; then
    echo "bench-lines.sh: there is no taskset here, which holds the programs to one core; nothing was timed" >&2
    exit 1
fi
compare/build.sh lines "$suite"
taskset -c "$(($(nproc) - 1))" "target/compare-$suite/release/lines"
