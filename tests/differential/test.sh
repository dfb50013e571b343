#!/usr/bin/env bash
# The reference's own tests, and the kernel's library and the programs held against it on generated inputs.
#   tests/differential/test.sh     target/staticlib/libkernel.a, target/bin/desklog and target/bin/asksuffix are there
# The last line is 'N passed, M failed'; the exit status is 0 only if nothing failed. Every run says its seed, and the same seed
# gives the same calls; SEED=N takes another.
set -u
cd "$(dirname "$0")/../.." || exit 1
. tests/check.sh
seed=${SEED:-1}

# cargo WORD PACKAGE WORDS..: what is built lies under target/ of the project.
run_cargo() {
    cargo "$1" --offline --quiet --manifest-path "$2/Cargo.toml" --target-dir target/rust "${@:3}"
}

# A call that does not return is a failure too.
built() { timeout 1200 "target/rust/release/$1" "${@:2}"; }

# The same seed, played twice, says the same.
again() {
    built calls --seed "$seed" --threads 1 --calls 20000 >"$work/one" || return 1
    built calls --seed "$seed" --threads 1 --calls 20000 | diff "$work/one" -
}

# Memory of the heap, where valgrind sees every byte beside it.
in_bounds() {
    valgrind --quiet --error-exitcode=9 target/rust/release/calls --seed "$seed" --threads 1 --calls 8000 --heap
}

# strays WORDS EDIT: plain C in the kernel's place, edited so that it leaves what it is lent, ends a run with these words.
strays() {
    local wrong=$work/wrong
    rm -rf "$wrong" && mkdir "$wrong" && cp bench/plain* "$wrong" && sed -i "$2" "$wrong/plain.c" || return 1
    ! cmp -s bench/plain.c "$wrong/plain.c" || { echo 'the edit changes nothing'; return 1; }
    gcc -std=c11 -O2 -Iinclude -c "$wrong/plain.c" -o "$wrong/plain.o" && ar rc "$wrong/libkernel.a" "$wrong/plain.o" || return 1
    STEWLATTICE_ARCHIVE_DIR=$wrong run_cargo build tests/differential --profile mutant --bin calls || return 1
    ! timeout 300 target/rust/mutant/calls --threads 1 --calls 10000 >"$wrong/said" || { echo 'not noticed'; return 1; }
    grep -q "$1" "$wrong/said" || { cat "$wrong/said"; return 1; }
}

for package in reference reference/c tests/differential; do
    check "the layout of $package" cargo fmt --manifest-path "$package/Cargo.toml" --check
    check "the lints of $package" run_cargo clippy "$package" --release --all-targets -- -D warnings
done
check 'the tests of the reference' run_cargo test reference
check 'the differential tests build' run_cargo build tests/differential --release
show 'calls between guard pages' built calls --seed "$seed" --calls 2000000
show 'eight threads on tables of their own' built calls --seed "$((seed + 1))" --threads 8 --calls 200000
check 'a seed gives the same calls again' again
show 'calls under valgrind' in_bounds
check 'a byte read behind the event is noticed' strays 'touched memory that it was not lent' \
    's/step->payload = event/(void)*(volatile const uint8_t *)(event + event_len);\n    &/'
check 'a byte written to the event is noticed' strays 'touched memory that it was not lent' \
    's/step->payload = event/((uint8_t *)(uintptr_t)event)[0] |= 8;\n    &/'
check 'a byte written before the table is noticed' strays 'wrote beside what it was lent' \
    's/memset(table, 0, table_len)/memset(table - 1, 0, table_len + 1)/'
show 'the suffix question' built hosts target/bin/asksuffix "$seed" 120000
show 'the desk log' built recordings target/bin/desklog "$seed" 100
closing
