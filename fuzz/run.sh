#!/usr/bin/env bash
# Coverage-guided fuzzing: the kernel against the reference in Rust and the rule sheet in plain C.
#   fuzz/run.sh replay     every input of fuzz/corpus, once
#   fuzz/run.sh self       wrong kernels in the kernel's place, which must be caught
#   fuzz/run.sh SECONDS    fuzzes for so long, from the corpus and from what earlier runs have left in target/fuzz/found
#   fuzz/run.sh merge      makes fuzz/corpus anew, from the seeds and what of target/fuzz/found covers more
#   fuzz/run.sh reach      how much of the kernel's own code the corpus reaches, by valgrind
# The kernel is target/staticlib/libkernel.a unless ARCHIVE names another. The last line of replay and of self is
# 'N passed, M failed'. The exit status is 0 only if nothing failed.
set -u
archive=$(realpath -m "${ARCHIVE:-$(dirname "$0")/../target/staticlib/libkernel.a}")
cd "$(dirname "$0")/.." || exit 1
work=target/fuzz
mkdir -p "$work" || exit 1
. tests/check.sh

# An input that takes 20 seconds is taken for a call that does not return.
options=(-timeout=20 -max_len=8192 -dict=fuzz/frames.dict -detect_leaks=0 -artifact_prefix="$work/")
export ASAN_OPTIONS=quarantine_size_mb=16

stop() {
    echo "fuzz: $*" >&2
    exit 1
}

tools() {
    local least='int LLVMFuzzerTestOneInput(const char *data, unsigned long size) { return data == 0 && size > 0; }'
    command -v clang >/dev/null || stop "clang is missing; it is in Debian's package clang"
    command -v cargo >/dev/null || stop 'cargo is missing'
    clang -fsanitize=address,fuzzer -x c - -o "$work/least" <<<"$least" ||
        stop "clang lacks libFuzzer or AddressSanitizer; they are in Debian's package libclang-rt-dev"
    test -s "$archive" || stop "there is no $archive; make archive makes it"
}

compile() { clang -std=c11 -O2 -g -Wall -Wextra -Wpedantic -Werror -Iinclude -Ibench "$@"; }

# compile_plain FLAGS..: the rule sheet in plain C, beside the kernel.
compile_plain() { compile -Dstewlattice_start=plain_start -Dstewlattice_step=plain_step -c bench/plain.c "$@"; }

# link_with KERNEL PROGRAM: the target with this kernel.
link_with() {
    clang -fsanitize=address,fuzzer "$work"/{target,readings,mutate,plain}.o "$1" \
        "$work/reference/release/libreference_c.a" -o "$2" || stop "$2 does not link"
}

# The kernel is machine code as it is; coverage is counted in the two readings beside it.
build() {
    local part flags='-C overflow-checks=on -C codegen-units=1 -C passes=sancov-module'
    for part in level=4 inline-8bit-counters pc-table; do flags+=" -C llvm-args=-sanitizer-coverage-$part"; done
    RUSTFLAGS=$flags cargo build --quiet --offline --release --manifest-path reference/c/Cargo.toml \
        --target-dir "$work/reference" || stop 'the reference does not build'
    compile_plain -fsanitize=address,fuzzer-no-link -o "$work/plain.o" || stop 'bench/plain.c does not build'
    for part in target readings mutate; do
        compile -fsanitize=address -c "fuzz/$part.c" -o "$work/$part.o" || stop "fuzz/$part.c does not build"
    done
    link_with "$archive" "$work/play"
}

# Of a failed check: what it says first, after libFuzzer's greeting.
excerpt() { grep -avE '^INFO|Running|^Dictionary|^ +#' "$work/said" | head -n 6 | cut -c 1-400; }

# Every input in one process; only if that fails, each in its own.
replay() {
    local inputs=(fuzz/corpus/*) input
    if "$work/play" "${options[@]}" "${inputs[@]}" >"$work/said" 2>&1 &&
        (($(grep -c '^Executed ' "$work/said") == ${#inputs[@]})); then
        passed=${#inputs[@]}
    else
        for input in "${inputs[@]}"; do check "$input" "$work/play" "${options[@]}" "$input"; done
    fi
}

search() {
    local input
    mkdir -p "$work/found" && cp fuzz/corpus/* "$work/found" || exit 1
    "$work/play" "${options[@]}" -max_total_time="$1" "$work/found" 2>&1 |
        tee "$work/log" | grep --line-buffered -avE '^#[0-9]+[[:space:]]+(NEW|REDUCE|RELOAD)|^"|^#####'
    ((PIPESTATUS[0] == 0)) && return
    input=$(sed -n 's/.*Test unit written to //p' "$work/log")
    echo "To play the input again:    $work/play $input"
    echo "To look for a shorter one:  $work/play -minimize_crash=1 -runs=100000 $input"
    return 1
}

# Inputs with a name of their own stay, and of all others the fewest that reach as much.
merge() {
    rm -rf "$work/seeds" "$work/corpus" && mkdir -p "$work/seeds" "$work/corpus" "$work/found" fuzz/corpus || exit 1
    fuzz/seed.py "$work/seeds" && cp "$work"/seeds/{patch,book,host,lend}-* "$work/corpus" || exit 1
    find fuzz/corpus -type f -regextype egrep ! -regex '.*/[0-9a-f]{40}' -exec cp {} "$work/corpus" \; || exit 1
    "$work/play" "${options[@]}" -set_cover_merge=1 -use_counters=0 "$work"/{corpus,seeds,found} fuzz/corpus \
        >"$work/log" 2>&1 || stop "the merge failed; see $work/log"
    rm -rf fuzz/corpus && cp -r "$work/corpus" fuzz/corpus || exit 1
    echo "$(find fuzz/corpus -type f | wc -l) inputs, $(cat fuzz/corpus/* | wc -c) bytes"
}

# Without AddressSanitizer, which valgrind cannot run, and without what is for a debugger, which it cannot read.
reach() {
    command -v valgrind >/dev/null || stop "valgrind is missing; it is in Debian's package valgrind"
    compile_plain -o "$work/bare.o" && compile -fsanitize=fuzzer -Wl,--strip-debug fuzz/*.c "$work/bare.o" "$archive" \
        "$work/reference/release/libreference_c.a" -o "$work/bare" || stop 'no target for valgrind'
    valgrind --tool=callgrind --dump-instr=yes --callgrind-out-file="$work/dump" "$work/bare" fuzz/corpus/* \
        >"$work/log" 2>&1 || stop "valgrind failed; see $work/log"
    fuzz/reach.py "$archive" "$work/bare" "$work/dump"
}

mode=${1:-}
[[ $mode =~ ^(replay|self|merge|reach|[0-9]+)$ ]] || { sed -n '2,/^set/s/^# //p' fuzz/run.sh; exit 2; }
tools
build
case $mode in
merge | reach) "$mode" ;;
replay | self)
    if [[ $mode == self ]]; then . fuzz/self.sh; else replay; fi
    closing
    ;;
*) search "$mode" ;;
esac
