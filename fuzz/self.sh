# The wrong kernels of fuzz/run.sh, which reads this file: bench/plain.c in the kernel's place, with one edit each. They
# show that the target can fail: by an answer, by a byte of table or room, by a byte outside of what is lent.
wrong=$work/wrong

# make_wrong FILE EDIT: the target with the kernel that has this edit.
make_wrong() {
    rm -rf "$wrong" && mkdir "$wrong" && cp bench/plain* "$wrong" || exit 1
    sed -i "$2" "$wrong/$1"
    ! cmp -s "bench/$1" "$wrong/$1" || stop "this edit changes nothing: $2"
    clang -std=c11 -O2 -Iinclude -c "$wrong/plain.c" -o "$wrong/plain.o" || stop "this edit does not build: $2"
    link_with "$wrong/plain.o" "$wrong/play"
}

# stops WORDS ARGUMENTS..: does it stop with these words?
stops() {
    local words=$1
    shift
    if "$wrong/play" "${options[@]}" -artifact_prefix="$wrong/" "$@" >"$wrong/said" 2>&1; then
        echo 'not caught'
        return 1
    fi
    grep -q "$words" "$wrong/said" || { tail -n 40 "$wrong/said"; return 1; }
}

# mistake WHAT WORDS FILE EDIT: the corpus must bring this kernel down with these words.
mistake() {
    make_wrong "$3" "$4"
    check "$1" stops "$2" fuzz/corpus/*
}

mistake 'a match of last bytes without the dot' 'differs: answer' plain_names.h \
    "s/h_len > t_len && h\[h_len - t_len - 1\] == '.'/h_len > t_len/"
mistake 'a result passed on by tab id alone' 'differs: answer' plain.c 's/ || (row != 0 && tab.row\[ROW\] != row)//'
mistake "a closed tab's serial given to the next" 'differs: table' plain_seat.h \
    's/tab.record\[SELECTED\] = 0;/&\n    stewlattice_put(tab.record + OPENS, 2, get16(tab.record + OPENS) - 1);/'
mistake 'a bar left standing after F12' 'differs: answer' plain_seat.h '/STEWLATTICE_TO_SEAT_BAR, 0)/d'
mistake 'a table not read to its end' 'differs: answer' plain_table.h 's/get32(table + LAST_NUMBER) <= opens/true/'
mistake 'a refusal that has changed the table' 'differs: table' plain_seat.h \
    's/return STEWLATTICE_BAD_KEY;/seat_at(step->table, seat)[SELECTED] = 0;\n        &/'
mistake 'a byte written behind the actions' 'differs: room' plain_seat.h \
    's/step->actions++;/&\n    if (size < 100)\n        frame[STEWLATTICE_HEAD_SIZE + size] = 0;/'
mistake 'a byte written before the table' 'differs: table, kernel against its margin' plain.c \
    's/memset(table, 0, table_len)/memset(table - 1, 0, table_len + 1)/'
mistake 'an event that is written to' 'differs: event' plain.c \
    's/step->payload = event/((uint8_t *)(uintptr_t)event)[0] |= 8;\n    &/'
mistake 'a byte read behind the event' 'AddressSanitizer: SEGV' plain.c \
    's/step->payload = event/(void)*(volatile const uint8_t *)(event + event_len);\n    &/'

# What the corpus does not have is searched for: here from one open alone, with a fixed seed.
make_wrong plain_table.h \
    's/same_process(process_at(table, row), owner/same_process(process_at(table, row), process_at(table, row)[OWNER]/'
mkdir "$wrong/seeds" "$wrong/found" && fuzz/seed.py "$wrong/seeds" && cp "$wrong/seeds/end-cut-at-20-0" "$wrong/found"
check 'a process sought by suffix alone, to be found' stops 'differs: answer' -seed=1 -runs=100000 "$wrong/found"
