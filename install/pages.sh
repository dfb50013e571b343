# What the manual pages are held to; read in by install/test.sh, which sets at (where the pages and the header are
# installed), work and away (folders to write in) and has the installed programs on its path.
header=$at/include/stewlattice.h

# Many systems show these as they are typed. Others show a printer's sign, which no compiler or shell takes: so here,
# where a page has to ask for the plain one.
printf '.char %s\n' "' \\[cq]" '- \[hy]' '` \[oq]' '^ \[u02C6]' '~ \[u02DC]' >"$work/man.local"

# A page as a reader sees and copies it; in one line; a section of it.
page() { groff -M "$work" -man -Tutf8 -P-cbuo "$at/share/man/$1"; }
words() { page "$1" | tr -s ' \n' ' '; }
section() { page "$1" | sed -n "/^$2/,/^[A-Z]/{/^[A-Z]/!p}"; }

quiet() { ! "$@" 2>&1 >/dev/null | grep .; }
narrow() { page "$1" >"$work/page" && grep -q . "$work/page" && ! grep -E '.{80}' "$work/page"; }
found() { man -M "$at/share/man" "$1" "$2" | grep "$2"; }

# The commands of a page's examples, run one after the other, print what the page says.
examples() {
    section "$1" EXAMPLE | awk -v RS= '/^ *\$ /' | sed 's/^ *//' >"$work/shown"
    sed -n 's/^\$ //p' "$work/shown" >"$work/commands"
    test -s "$work/commands" && while IFS= read -r line <&3; do
        printf '$ %s\n' "$line" && (cd "$away" && eval "$line")
    done 3<"$work/commands" | diff "$work/shown" -
}

# The program of stewlattice(3).
listing() { section man3/stewlattice.3 EXAMPLE | sed -n '/#include/,/^ \{7\}}$/p'; }

# The synopsis of stewlattice(3), after the header: the compiler refuses a prototype that differs.
synopsis() {
    section man3/stewlattice.3 SYNOPSIS | grep -v ' cc ' >"$away/synopsis.c"
    grep stewlattice_step "$away/synopsis.c" && cc -I"$at/include" -Wall -Wextra -fsyntax-only "$away/synopsis.c"
}

# Every name of the library that stewlattice(3) has is in the header, and every function of the header is on the page.
names() {
    local name='stewlattice_[a-z_]+\b'
    words man3/stewlattice.3 >"$work/words" && test -s "$header" &&
        ! comm -23 <(grep -oiE "$name" "$work/words" | sort -u) <(grep -oiE "$name" "$header" | sort -u) | grep . &&
        ! comm -13 <(grep -oE "$name\(" "$work/words" | sort -u) <(grep -oE "$name\(" "$header" | sort -u) | grep .
}

# Every value beside a constant in stewlattice(3) is the header's, and each of the eleven numbers given back is there.
constants() {
    local value='s/.*(STEWLATTICE_[A-Z_]+) = ([0-9]+).*/\2 \1/p'
    words man3/stewlattice.3 | grep -oE '[0-9]+ STEWLATTICE_[A-Z_]+|STEWLATTICE_[A-Z_]+ \([0-9,]+\)' |
        sed -E 's/(.*) \(([0-9]*),?([0-9]*)\)/\2\3 \1/' | sort >"$work/page"
    sed -nE "/^enum stewlattice_numbers/,/^}/$value" "$header" | sort >"$work/numbers"
    ! comm -23 "$work/page" <(sed -nE "$value" "$header" | sort) | grep . &&
        ! comm -13 "$work/page" "$work/numbers" | grep . && test "$(wc -l <"$work/numbers")" = 11
}

# The forms of the lines, and the numbers with their words, are in desklog(1) as desklog --help has them.
helped() {
    desklog --help | grep '^  ' | sed 's/   */\n/g' | grep '^[A-Z0-9]' >"$work/forms"
    words man1/desklog.1 >"$work/words"
    while IFS= read -r line; do
        grep -qF -- " $line " "$work/words" || { echo "not on the page: $line"; return 1; }
    done <"$work/forms"
    test "$(wc -l <"$work/forms")" = 11
}

# The parties and the tags of their actions in desklog(1) are the header's.
actions() {
    sed -nE -e '/^enum stewlattice_party/,/^}/s/.*STEWLATTICE_([A-Z]+) = ([0-9]+).*/\2 \L\1/p' \
        -e 's/.*STEWLATTICE_TO_([A-Z]+)_([A-Z_]+) = ([0-9]+).*/\L\1 \3 \2/p' "$header" | tr _ ' ' | sort >"$work/tags"
    page man1/desklog.1 | sed -n '/Whom an action/,/ ID is/p' | awk -v RS= '/^ *[1-5] / {
        print $1, party = $2; gsub(/ *\([^)]*\)/, ""); gsub(/[ \n]+/, " "); sub(/^ ?[1-5] [a-z]+ /, "")
        for (i = split($0, tag, ", "); i > 0; i--) print party, tag[i] }' | sort | diff "$work/tags" - &&
        test -s "$work/tags"
}

# The options of a program's page are those that the program itself names, in its help or when it is given another.
options() {
    page "man1/$1.1" >"$work/page" && test -s "$work/page" && command -v "$1" &&
        diff <(grep -oE -- '--[a-z]+' "$work/page" | sort -u) \
            <({ "$1" --help; "$1" -x; } 2>&1 | grep -oE -- '--[a-z]+' | sort -u)
}

# asksuffix(1) has the three numbers of the question.
asked() { diff <(printf '%s\n' 0 6 7) <(section man1/asksuffix.1 NUMBERS | grep -oE '^ {7}[0-9]+' | tr -d ' '); }
