#!/usr/bin/env bash
# Measures the entry point beside a plain C version of the same algorithm and beside z3, the octagon beside the interval
# box, and a cut beside plain C. Instructions (callgrind) repeat; times are processor time, the least of several runs.
# Needs valgrind, gcc, python3 and z3 (Debian: apt-get install valgrind z3).
set -euo pipefail
cd "$(dirname "$0")/.."
rt=${RT:-rt} # a command to run rt with
for tool in valgrind gcc python3 z3; do
    command -v "$tool" >/dev/null || { echo "bench: $tool is missing (Debian: apt-get install $tool)" >&2; exit 1; }
done
work=$(mktemp -d)
trap 'rm -rf "$work"' EXIT

# The plain version goes through the compiler that rt compiles with, which brings no headers of its own.
kit=$(dirname "$(rt doc)")
kit_clang() { "$kit/toolchain/bin/clang" -O3 -Wall -Wextra -isystem "$(gcc -print-file-name=include)" "$@"; }
library=target/staticlib/liboffsets.a
(cd crates/offsets_c && $rt lib) >"$work/said" 2>&1 || { cat "$work/said"; exit 1; }
mkdir -p target/staticlib
cp crates/offsets_c/out/liboffsets_c.a "$library"
kit_clang -c -o "$work/plain.o" bench/plain/plain.c
gcc -O2 -Wall -Wextra -c -o "$work/plain_gcc.o" bench/plain/plain.c
gcc -O2 -Wall -Wextra -c -o "$work/harness.o" bench/harness.c
linked() { gcc -Wl,-z,now -o "$work/$1" "$work/harness.o" "${@:2}"; } # bound at the start, so that no call counts the linker
linked ours "$library"
linked plain "$work/plain.o"
linked plain_gcc "$work/plain_gcc.o"

# Both sides answer the stored texts of crates/texts byte by byte as stored.
for side in ours plain plain_gcc; do
    "$work/$side" texts <crates/texts/stdin | cmp - crates/texts/stdout
done
echo "$(wc -l <crates/texts/stdin) stored texts: all sides answer as stored"
echo "$("$kit/toolchain/bin/clang" --version | head -1); $(z3 --version); $(nproc) cores, load $(cut -d' ' -f1 /proc/loadavg)"

python3 bench/table.py "$work"

# A cut of eight settings: ten random cuts on a fresh octagon, drawing and copying counted on both sides.
trials=crates/octagon_trials/out/octagon_trials
if [ -x "$trials" ]; then
    kit_clang -c -o "$work/cuts.o" bench/cuts.c
    gcc -o "$work/cuts" "$work/cuts.o"
    count() { # program, thousands of cuts
        head -c "$2" /dev/zero | valgrind --tool=callgrind --callgrind-out-file="$work/callgrind" "$1" 2>&1 >/dev/null | sed -n 's/.*Collected : *//p'
    }
    each() { echo $(( ($(count "$1" 25) - $(count "$1" 5)) / 20000 )); }
    ours=$(each "$trials")
    plain=$(each "$work/cuts")
    echo "instructions a cut: ours $ours, plain C $plain, ratio $(awk "BEGIN { printf \"%.2f\", $ours / $plain }")"
else
    echo "a cut alone was not counted: rt run in crates/octagon_trials first"
fi
size -t "$library" | tail -1 | awk '{ print "liboffsets.a: " $1 " bytes of code and constants, " $2 + $3 " of data" }'
