#!/usr/bin/env bash
# The commands for newcomers; and the installation: what is put where, what a C programmer and support can do with it, what is left
# when it is gone. Everything is put under a temporary folder. Assumes make, rt, cc, c++, pkg-config, groff and man.
# The last line is 'N passed, M failed'; the exit status is 0 only if nothing failed.
set -u
cd "$(dirname "$0")/.." || exit 1
. tests/check.sh
unset MAKEFLAGS CC DESTDIR PREFIX bindir libdir includedir mandir pkgconfigdir docdir
at=$work/plain
away=$work/away
mkdir "$away"
export LC_ALL=C.UTF-8 PATH=$at/bin:$PATH PKG_CONFIG_PATH=$at/lib/pkgconfig
. install/pages.sh

# prints EXPECTED GOAL: make prints just that on its standard output, whatever rt says meanwhile.
prints() { make "$2" | diff "$1" -; }

# holds FOLDER BIN LIB INCLUDE MAN PKGCONFIG DOC: the folder has just the files of an installation, with their modes.
holds() {
    printf '%s\n' "$2/"{asksuffix,desklog}' 755' "$3/libstewlattice.a 644" "$4/stewlattice.h 644" \
        "$5/man1/"{asksuffix,desklog}'.1 644' "$5/man3/stewlattice"{,_start,_step}'.3 644' "$6/stewlattice.pc 644" \
        "$7/RULES.md 644" |
        sort | diff - <(cd "$1" && find . ! -type d -printf '%P %m\n' | sort)
}

# A closed umask shows in no file and no folder.
closed() { (umask 077 && make install PREFIX="$at") && ! find "$at" -type d ! -perm 755 | grep .; }

# Once more: the same files, and nothing is proved again.
state() { (cd "$at" && find . -type f -exec sha256sum {} + | sort) && stat -c '%n %y' target/{bin,staticlib}/*; }
again() { state >"$work/state" && make install PREFIX="$at" && state | diff "$work/state" -; }

# The pkg-config file and the header have the version of the file VERSION.
version() { test "$(pkg-config --modversion stewlattice)" = "$(cat VERSION)" && grep "VERSION \"$(cat VERSION)\"" "$header"; }
desk() { diff crates/desklog/stdout <(cd crates/desklog/data && desklog <../stdin); }

# build COMMAND [OPTIONS..]: a program is built outside the tree, with what pkg-config says and no more. The shell has
# to read that again, as it does in a recipe of make: where a path has a space, pkg-config puts a backslash before it.
build() { (cd "$away" && eval "$1 $(pkg-config "${@:2}" --cflags --libs stewlattice)"); }
host() { rm -f "$away/host" && build 'cc host.c -o host' "$@" && "$away/host" | diff host/example.expected -; }
strict='-O2 -Wall -Wextra -Wpedantic -Werror'

# With DESTDIR the files name only the place that they are meant for; pkg-config finds them where they are, if asked to.
stage=$work/stage
staged() { ! grep -rl "$work" "$stage" && test "$(pkg-config --variable=libdir stewlattice)" = /opt/desks/lib; }

spaced=$work/'a b'
own=("DESTDIR=$work/own" bindir=/b libdir=/l includedir=/i mandir=/m pkgconfigdir=/p docdir=/d)
own_pc() { test "$(pkg-config --cflags --libs stewlattice)" = '-I/i -L/l -lstewlattice '; }
relative() { make install DESTDIR="$work/relative/" PREFIX=out 2>&1 | grep 'absolute' && test ! -e "$work/relative"; }

# After make uninstall the folders are there, and in them only what others have put beside our files.
gone() { make uninstall "$@" && find "$work/own" "$spaced" ! -type d >"$work/left" && ! grep . "$work/left"; }
foreign() {
    find "$at" -type d -exec touch {}/stewlattice {}/other.3 \; && find "$at" -type d -o -empty | sort >"$work/foreign"
    make uninstall PREFIX="$at" && find "$at" | sort | diff "$work/foreign" -
}

check 'make run' prints crates/desklog/stdout run
check 'make host' prints host/example.expected host
check 'make day' prints host/day/expected day
check 'make install' closed
check 'the files and their modes' holds "$at" bin lib include share/man lib/pkgconfig share/doc/stewlattice
check 'the rules are those of the repository' cmp docs/RULES.md "$at/share/doc/stewlattice/RULES.md"
check 'make install again' again
check 'the version' version
check 'desklog prints the worked example' desk
for page in man3/stewlattice.3 man1/desklog.1 man1/asksuffix.1; do
    check "$page: groff has no warning" quiet groff -man -ww -Tutf8 "$at/share/man/$page"
    check "$page: man has no warning" quiet man --warnings -E UTF-8 -l -Tutf8 -Z "$at/share/man/$page"
    check "$page: no line is too long for a screen" narrow "$page"
done
for name in stewlattice stewlattice_start stewlattice_step; do check "man 3 $name" found 3 "$name"; done
for name in desklog asksuffix; do
    check "man 1 $name" found 1 "$name"
    check "$name(1): the options" options "$name"
    check "$name(1): the examples" examples "man1/$name.1"
done
check 'desklog(1): lines and numbers' helped
check 'desklog(1): actions' actions
check 'asksuffix(1): numbers' asked
check 'stewlattice(3): the synopsis' synopsis
check 'stewlattice(3): names' names
check 'stewlattice(3): constants and numbers' constants
listing >"$away/example.c"
cp "$away/example.c" "$away/example.cc"
cp host/example.c "$away/host.c"
check 'stewlattice(3): the example' examples man3/stewlattice.3
check 'the example, in strict C11' build "cc -std=c11 $strict example.c"
check 'the example, in strict C++17' build "c++ -std=c++17 $strict example.cc"
check 'the example host' host
check 'make install with DESTDIR' make install DESTDIR="$stage" PREFIX=/opt/desks
check 'the files under DESTDIR' holds "$stage" opt/desks/{bin,lib,include,share/man,lib/pkgconfig,share/doc/stewlattice}
PKG_CONFIG_PATH=$stage/opt/desks/lib/pkgconfig check 'the place they are meant for' staged
PKG_CONFIG_PATH=$stage/opt/desks/lib/pkgconfig check 'the example host, from DESTDIR' host --define-prefix
check 'make install below a path with a space' make install PREFIX="$spaced"
check 'the files below it' holds "$spaced" bin lib include share/man lib/pkgconfig share/doc/stewlattice
PKG_CONFIG_PATH=$spaced/lib/pkgconfig check 'the example host, from there' host
check 'make install with directories of its own' make install "${own[@]}"
check 'the files in them' holds "$work/own" b l i m p d
PKG_CONFIG_PATH=$work/own/p check 'what pkg-config says of them' own_pc
check 'a relative PREFIX is refused' relative
check 'make uninstall from directories of its own' make uninstall "${own[@]}"
check 'make uninstall leaves no file' gone PREFIX="$spaced"
check 'make uninstall leaves what is not ours' foreign
closing
