#!/bin/sh
# faults.sh: does the comparison find faults? Lays a copy of the static library in target/faults with the faults of
# faults/faults.c before its calls, and runs the seeded comparison once for each of them: it has to find every one, and nothing
# where none is planted. It needs a C compiler and objcopy beside what build.sh needs. What each run said stays in target/faults.
set -u
unset SLEETRICK_LIB
cd "$(dirname "$0")/.." || exit 2
folder=$PWD/target/faults
rm -rf "$folder"
mkdir -p "$folder"
compare/build.sh compare || exit 2
target=$(sed -n 's/^target //p' target/staticlib/libsleetrick.from)
cp target/staticlib/libsleetrick.a "$folder/libsleetrick.a" || exit 2
set --
for call in $(sed -n 's/^uint64_t PLANTED(\([a-z0-9_]*\))(.*/\1/p' compare/faults/faults.c); do
    set -- "$@" --redefine-sym "sleetrick_$call=proved_$call"
done
objcopy "$@" "$folder/libsleetrick.a" &&
    cc -O2 -Wall -c compare/faults/faults.c -o "$folder/faults.o" &&
    ar r "$folder/libsleetrick.a" "$folder/faults.o" &&
    tools/archive record "$folder" "$target" || exit 2

SLEETRICK_LIB=$folder compare/build.sh compare || exit 2
cp target/compare-trixie/release/compare "$folder/compare"
right=0 wrong=0

# try STATUS FAULT: the comparison has to end with that status
try() {
    FAULT=$2 "$folder/compare" >"$folder/$2" 2>&1
    if [ $? -eq "$1" ]; then
        right=$((right + 1))
        echo "$2: $(tail -n 1 "$folder/$2")"
    else
        wrong=$((wrong + 1))
        echo "$2: MISSED"
    fi
}

try 0 "no fault"
sed -n 's/.*fault("\([^"]*\)").*/\1/p' compare/faults/faults.c >"$folder/names"
while read -r name; do
    try 1 "$name"
done <"$folder/names"
echo "$right as they should be, $wrong missed"
[ "$wrong" -eq 0 ]
