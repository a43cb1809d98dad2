#!/bin/sh
# bench.sh [trixie | sid]: times this library and the Rust's codecs over the same rows, on one core, and prints tables. The
# suite names the jiff that the Rust stands on: sid, which is taken if none is named, has 0.2.37, and trixie 0.1.28. build.sh
# says what that needs. It takes about a minute, and should have the machine to itself.
set -eu
cd "$(dirname "$0")/.."
suite=${1:-sid}
case $suite in
trixie | sid) ;;
*)
    echo "usage: compare/bench.sh [trixie | sid]" >&2
    exit 2
    ;;
esac
if ! command -v taskset >/dev/null 2>&1; then
    echo "bench.sh: there is no taskset here, which holds the program to one core; nothing was timed" >&2
    exit 1
fi
compare/build.sh bench "$suite"
taskset -c "$(($(nproc) - 1))" "target/compare-$suite/release/bench"
