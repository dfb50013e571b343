#!/usr/bin/env bash
# The day of a host with real programs: good days, bad days, and days with programs that fail the host.
#   host/day/test.sh [ARCHIVE]    the archive is target/staticlib/libkernel.a unless named
# The last line is 'N passed, M failed'; the exit status is 0 only if nothing failed.
set -u
archive=$(realpath -m "${1:-$(dirname "$0")/../../target/staticlib/libkernel.a}")
cd "$(dirname "$0")" || exit 1
. ../../tests/check.sh

# By a name without a space, whatever the project lies under: make knows no others.
build() { ln -sf "$archive" "$work/libkernel.a" && make -s CC="$1" OUT="$work/$1" ARCHIVE="$work/libkernel.a"; }

# A project under a path with a space, where nothing is named to make: it takes the compiler from CC, and gcc if that is not set.
spaced=$work/'a b'
lay_out() {
    mkdir -p "$spaced/target/staticlib" && cp "$archive" "$spaced/target/staticlib/libkernel.a" &&
        cp -r ../../host ../../include "$spaced"
}
build_spaced() { lay_out && ! CC=false make -s -C "$spaced/host/day" && env -u CC make -s -C "$spaced/host/day"; }

# No program of ours is left running: every one of them was started by a path under $work.
nobody_left() {
    pgrep -fl "$work/"
    (($? == 1))
}

# run STATUS COMMAND..: the command ends with this status, in time, and leaves nobody. Its output is in $work/log.
run() {
    local want=$1 got
    shift
    timeout 300 "$@" >"$work/log"
    got=$?
    ((got == want)) || { echo "status $got, not $want"; cat "$work/log"; return 1; }
    nobody_left
}

# plays STATUS EXPECTED COMMAND..: and prints exactly the expected lines.
plays() { run "$1" "${@:3}" && diff "$2" "$work/log"; }

# says STATUS LINE COMMAND..: and prints this line, and that all children are reaped.
says() {
    run "$1" "${@:3}" && grep -qxF "$2" "$work/log" && [[ $(tail -n 1 "$work/log") == *'none left' ]] && return
    cat "$work/log"
    return 1
}

# clean STATUS EXPECTED OPTION..: plays so under valgrind, in host and children: no error, no byte lost, no descriptor
# left open but those that a program was started with. A child's exit status would tell the host of an error.
clean() {
    local memcheck=(valgrind --trace-children=yes --leak-check=full --show-leak-kinds=all --errors-for-leak-kinds=all
        --error-exitcode=9 --track-fds=yes --log-file="$work/memcheck.%p")
    rm -f "$work"/memcheck.*
    plays "$1" "$2" "${memcheck[@]}" "$work/gcc/day" --patience 60 "${@:3}" || { cat "$work"/memcheck.*; return 1; }
    grep -q 'ERROR SUMMARY: 0 errors' "$work"/memcheck.* || return 1
    ! awk 'open && !/inherited from parent/ { print open } { open = "" } /Open file/ { open = FILENAME ": " $0 }' \
        "$work"/memcheck.* | grep .
}

# with NAME PROGRAM: a directory $work/with of the day's programs, but for one that another program stands in for.
with() {
    rm -rf "$work/with"
    cp -r "$work/gcc" "$work/with" && rm "$work/with/$1" && { [[ $2 == nothing ]] || cp "$2" "$work/with/$1"; }
}

# instead NAME PROGRAM STATUS LINE: so played, the day ends with this status and prints this line.
instead() { with "$1" "$2" && says "$3" "$4" "$work/gcc/day" --patience 2 "$work/with"; }

# The host is killed while it waits for a cookie process that is silent. Until then that process has had the three
# standard descriptors and no more, whatever the host was started with; after that it ends, as all the others.
killed() {
    local host child descriptors=''
    with cookies "$(type -P cat)" && : >"$work/log" || return 1
    "$work/gcc/day" --patience 60 "$work/with" >>"$work/log" 7</dev/null &
    host=$!
    for _ in {1..100}; do grep -q 'get ' "$work/log" && break; sleep 0.1; done
    child=$(pgrep -of "$work/with/cookies") && descriptors=$(cd "/proc/$child/fd" && echo *)
    kill -KILL "$host"
    wait "$host"
    for _ in {1..100}; do nobody_left >"$work/left" && break; sleep 0.1; done
    echo "descriptors $descriptors"
    nobody_left && [[ $descriptors == '0 1 2' ]]
}

# The lines go into a pipe without a reader: that fails the day, and does not kill the host.
unread() {
    local got
    mkfifo "$work/pipe" || return 1
    exec 8<>"$work/pipe"
    exec 9>"$work/pipe" 8>&-
    timeout 60 "$work/gcc/day" >&9
    got=$?
    exec 9>&-
    ((got == 1)) && nobody_left
}

printf '#!/bin/sh\nexec "%s/sleep" 1000\n' "$work" >"$work/deaf"
chmod +x "$work/deaf"
cp "$(type -P sleep)" "$work/sleep"

check 'the day builds with gcc' build gcc
check 'the day builds with clang' build clang
check 'the day builds below a path with a space' build_spaced
check 'a good day, below that path' plays 0 expected "$spaced/target/day/day"
for compiler in gcc clang; do
    check "a good day, $compiler" plays 0 expected "$work/$compiler/day"
    for bad in tab-dies process-dies child-lies; do
        check "a bad day, $bad, $compiler" plays 3 "expected.$bad" "$work/$compiler/day" "--$bad"
    done
done
check 'a good day, clean' clean 0 expected
for bad in tab-dies process-dies child-lies; do
    check "a bad day, $bad, clean" clean 3 "expected.$bad" "--$bad"
done
gone='it cannot be started: No such file or directory'
check 'no tab program' instead tab nothing 1 "lost: tab 65537, $gone; it is closed"
check 'no cookie program' instead cookies nothing 1 "lost: process 1, $gone; its tabs are closed"
check 'a tab that ends at once' instead tab "$(type -P false)" 1 'lost: tab 65537, it ended with status 1; it is closed'
check 'a cookie process that ends at once' instead cookies "$(type -P true)" 1 \
    'lost: process 1, it ended with status 0; its tabs are closed'
check 'a network that ends at once' instead network "$(type -P false)" 1 \
    'lost: network 0, it ended with status 1; the host cannot go on'
check 'a silent cookie process' instead cookies "$(type -P cat)" 1 'the day ends here: no answer came in time'
check 'a deaf cookie process' instead cookies "$work/deaf" 1 'children: 0 lost, 2 ended by force, none left'
check 'a host that is killed' killed
check 'lines that nobody reads' unread
check 'an option that is none' run 2 "$work/gcc/day" --no-such-day
closing
