#!/usr/bin/env bash
# What a step costs the library, the rule sheet in plain C and the reference, printed as Markdown.
#   bench/run.sh [ARCHIVE REFERENCE]    the archives of the library and of the reference, where make bench builds them
#                                       unless named
# The three are in one program. It ends with a message, and nothing is printed, if they differ on what it is to measure.
set -euo pipefail
cd "$(dirname "$0")/.."
archive=${1:-target/staticlib/libkernel.a}
reference=${2:-target/rust/release/libreference_c.a}
work=$(mktemp -d)
trap 'rm -rf "$work"' EXIT

flags=(-std=c11 -O2 -Wall -Wextra -Wpedantic -Werror -Iinclude)
gcc "${flags[@]}" -Dstewlattice_start=plain_start -Dstewlattice_step=plain_step -c bench/plain.c -o "$work/plain.o"
gcc "${flags[@]}" -c bench/bench.c -o "$work/bench.o"

# Functions begin at multiples of 16 bytes, and where they begin in a line of 64 moves the times: a program for each.
placements=(16 32 48 64)
for place in "${placements[@]}"; do
    printf '.text\n.skip %d\n' "$place" | gcc -x assembler -Wa,--noexecstack -c - -o "$work/gap.o"
    gcc "$work/bench.o" "$work/gap.o" "$work/plain.o" "$archive" "$reference" -o "$work/bench-$place"
done
for run in 1 2 3; do
    for place in "${placements[@]}"; do
        "$work/bench-$place" time >"$work/times-$place-$run"
    done
done

# Collects inside the three functions alone. A dump names its measure in the line 'desc: Trigger: Client Request:
# MEASURE KERNEL ROUNDS' and has its cost in the line 'summary:'; the line 'totals:' has more than that in it.
valgrind --tool=callgrind --collect-atstart=no --toggle-collect=stewlattice_step --toggle-collect=plain_step \
    --toggle-collect=reference_step --callgrind-out-file="$work/dump" "$work/bench-16" count >"$work/said" 2>&1 ||
    { cat "$work/said" >&2; exit 1; }
for dump in "$work"/dump.*; do
    awk '/^desc: Trigger: Client Request:/ { measure = $5; kernel = $6; rounds = $7 }
         /^summary:/ { printf "%s %s %.1f\n", measure, kernel, $2 / rounds }' "$dump"
done >"$work/counts"
tables=$(bench/tables.py "$work")

cat <<EOT
# What a step costs

Printed by \`make bench\`, and kept here by \`make bench >docs/BENCH.md\`.

Three kernels, linked into one program and each built for release:

- kernel: the library, target/staticlib/libkernel.a;
- plain: the rule sheet in plain C, bench/plain.c, by $(gcc --version | head -n 1), -O2;
- reference: the second reading of document 01, in Rust, by $(rustc --version), cargo --release.

Processor: $(sed -n 's/^model name[[:space:]]*: //p' /proc/cpuinfo | head -n 1).

They are given the same events on the same table, output room and book, in the same memory. Where they differ in an
answer, a table or a room, the run ends before that is measured. All eight seats are let, three of them separate and
three sharing an owner, all with equally many tabs. Every round begins with the same table, which is put back outside
what is measured: so each step can be measured alone. Caches are warm.

The ratios are what to read: below 1 the kernel costs less. Instructions are callgrind's, inside the call alone. A time
is the mean of four programs, which differ only in where the linker puts the code; of each it is the best of three runs
of 2,000 rounds, in which the kernels take turns, less what reading the clock takes.

EOT
printf '%s\n' "$tables"
