#!/usr/bin/env bash
# The C boundary: the header, the example host and the archive that a host links.
#   host/test.sh [ARCHIVE]    the archive is target/staticlib/libkernel.a unless named
# The last line is 'N passed, M failed'; the exit status is 0 only if nothing failed.
set -u
archive=$(realpath -m "${1:-$(dirname "$0")/../target/staticlib/libkernel.a}")
cd "$(dirname "$0")/.." || exit 1
. tests/check.sh

warnings=(-Wall -Wextra -Wpedantic -Werror)

build() { gcc -std=c11 -O2 -pthread "${warnings[@]}" -Iinclude "host/$1.c" "$archive" -o "$work/$1"; }

# The example of README.md, as the body of a function.
readme() {
    {
        echo '#include <stewlattice.h>'
        echo 'void perform(struct stewlattice_head head, const uint8_t *payload);'
        echo 'void example(const uint8_t *book, size_t book_len, const uint8_t *event, size_t event_len);'
        echo 'void example(const uint8_t *book, size_t book_len, const uint8_t *event, size_t event_len) {'
        sed -n '/^## In C/,/^## [^I]/s/^    //p' README.md | grep -v '#include'
        echo '}'
    } >"$work/readme.c"
    grep -q 'stewlattice_step(' "$work/readme.c" &&
        gcc -std=c11 "${warnings[@]}" -Iinclude -c "$work/readme.c" -o "$work/readme.o"
}

# The example prints just the expected lines, and ends well.
example() { "$work/example" >"$work/log" && diff host/example.expected "$work/log"; }

# No byte outside the lent buffers, which are of exact size, is read or written.
in_bounds() { valgrind --quiet --error-exitcode=9 --leak-check=full "$work/$1"; }

# None of the header's constants is left out of header.c, but for those of the version.
constants() {
    diff <(sed -nE '/_VERSION/d; s/^(#define|   ) STEWLATTICE_([A-Z_]+) .*/\2/p' include/stewlattice.h | sort) \
        <(grep -oE '^IS\([A-Z_]+' host/header.c | sed 's/IS(//' | sort)
}

# The header's version is that of the file VERSION, in one piece and in three.
version() {
    local text=STEWLATTICE_VERSION
    printf '%s\n' '#include <stewlattice.h>' "$text" "$text"_{MAJOR,MINOR,PATCH} | gcc -E -P -Iinclude - >"$work/version" &&
        diff <(echo "\"$(cat VERSION)\""; tr . '\n' <VERSION) <(tail -n 4 "$work/version")
}

# Every global symbol that the archive defines, with its type: two functions and nothing else.
exports() {
    nm -g --defined-only "$archive" >"$work/nm" || return 1
    diff <(printf 'T stewlattice_start\nT stewlattice_step\n') <(awk 'NF == 3 { print $2, $3 }' "$work/nm" | sort)
}

# What it calls outside itself: no allocation, no system call, nothing but the filling by which a start clears a table.
imports() {
    nm -g --undefined-only "$archive" >"$work/nm" || return 1
    ! awk 'NF == 2 { print $2 }' "$work/nm" | grep -vx memset
}

# Nothing is kept between calls: no section that can be written has a byte.
stateless() {
    size -A "$archive" >"$work/size" && grep -q '^\.text' "$work/size" || return 1
    ! awk '$1 ~ /^\.t?(data|bss)/ && $1 !~ /^\.data\.rel\.ro/ && $2 > 0' "$work/size" | grep .
}

check 'the header alone, in C11' gcc -std=c11 "${warnings[@]}" -fsyntax-only -x c include/stewlattice.h
check 'the header alone, in C++17' g++ -std=c++17 "${warnings[@]}" -fsyntax-only -x c++ include/stewlattice.h
check 'the constants of the header' gcc -std=c11 "${warnings[@]}" -Iinclude -fsyntax-only host/header.c
check 'each constant of the header is held to its number' constants
check 'the version of the header' version
check "the archive $archive is there" test -s "$archive"
check 'the archive defines start and step only' exports
check 'the archive calls nothing outside itself' imports
check 'the archive has no state' stateless
check 'the example of README.md builds' readme
check 'the example builds' build example
check 'the example prints the worked example' example
check 'the example stays in its buffers' in_bounds example
check 'the boundary cases build' build boundary
check 'the boundary cases' "$work/boundary"
check 'the boundary cases stay in their buffers' in_bounds boundary
check 'the threads build' build threads
check 'eight threads get what one gets' "$work/threads"
check 'the threads share nothing that is written' valgrind --tool=helgrind --quiet --error-exitcode=9 "$work/threads" 100
closing
