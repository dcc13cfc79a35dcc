# program.sh: what ./buslog and ./check_tables share, read by their shell. It proves and builds the program if what that is
# made of has changed, and has the functions that run it and print its text. They have set `name`, the program's, `here`,
# the repository, and `takes`, how long the first build takes, and have `fail MESSAGE`, which says it and ends.
# shellcheck shell=sh disable=SC2154

command -v rt >/dev/null || fail "the Rattle kit is not here: its command rt is not found"

# The lines of crates.txt for the program and for what it stands on here, and these crates' names. A line has the name
# first, then what the crate is where that is no library or program, and after a colon what it stands on.
lines=$(awk -v program="$name" '
    function visit(name, list, count, i) {
        if (!(name in needs) || name in seen) return
        seen[name] = 1
        count = split(needs[name], list, " ")
        for (i = 1; i <= count; i++) visit(list[i])
        print head[name] ":" needs[name]
    }
    { sub(/#.*/, ""); colon = index($0, ":") }
    colon { split(substr($0, 1, colon - 1), words, " "); name = words[1] }
    colon { head[name] = substr($0, 1, colon - 1); needs[name] = substr($0, colon + 1) }
    END { visit(program) }' "$here/crates.txt")
crates=$(printf '%s\n' "$lines" | sed 's/[ \t:].*//')

# What the program is made of: these lines, and the sums of the crates' files that rt looks at.
made_of() {
    set --
    for crate in $crates; do
        for part in src specs proofs; do set -- "$@" "crates/$crate/$part"; done
    done
    printf '%s\n' "$lines"
    cd "$here" && find "$@" -type f -exec sha256sum {} + 2>/dev/null | sort
}

# Proves and builds, and runs the program once, without input. The last line says how it ended.
build() {
    cd "$here/crates/$name" && rt run </dev/null 2>&1 >/dev/null
    printf '%s: rt ended with status %s\n' "$name" $?
}

# Passes on what the build says, and says on standard error which crate is proved: on a terminal in one line. Crates that
# were proved and built before are not told again. Its status is the build's, which goes on where nobody reads.
progress() {
    trap '' PIPE
    crate='' count=0 status=1 total=$(printf '%s\n' "$crates" | grep -c .) format='%s: crate %s of at most %s is proved: %s\n'
    [ ! -t 2 ] || format='\r%s: crate %s of at most %s is proved: %-20s'
    while IFS= read -r line; do
        printf '%s\n' "$line"
        case $line in
        "$name: rt ended with status "*) status=${line##* } ;;
        'crate '*': modules '*) crate=${line#crate } ;;
        'logic=proved '*)
            count=$((count + 1))
            # shellcheck disable=SC2059
            printf "$format" "$name" "$count" "$total" "${crate%%:*}" >&2
            ;;
        esac
    done
    [ ! -t 2 ] || [ "$count" -eq 0 ] || printf '\n' >&2
    return "$status"
}

# `proved` has the sum of what was last proved and built: a check that failed leaves none.
program=$here/crates/$name/out/$name
proved=$here/target/$name.proved lock=$here/target/$name.lock log=$here/target/$name.log
sum=$(made_of | sha256sum) || exit 1
if [ ! -x "$program" ] || [ "$(cat "$proved" 2>/dev/null)" != "$sum" ]; then
    mkdir -p "$here/target" || exit 1
    mkdir "$lock" 2>/dev/null || fail "the program is being built: wait, or remove $lock if nothing builds it"
    trap 'rmdir "$lock"' EXIT
    trap 'exit 1' HUP INT TERM
    # The second of two rt would wait for the first, and say so only in the log.
    for other in "$here"/target/*.lock; do
        [ "$other" = "$lock" ] || [ ! -d "$other" ] ||
            fail "another program is being built: wait, or remove $other if nothing builds it"
    done
    printf '%s: proving and building the program; at first use this takes %s\n' "$name" "$takes" >&2
    printf '%s: the log of the build is %s\n' "$name" "$log" >&2
    rm -f "$proved"
    build | progress >"$log" || fail "it is not proved or not built: $log says why"
    printf '%s\n' "$sum" >"$proved"
fi

# Runs the program, as rt run does.
run_program() {
    "$program" || fail "the program ended with status $?"
}

# print_text TEXT: prints it, with the newline at its end that the shell took away.
print_text() {
    printf '%s\n' "$1" 2>/dev/null || fail "standard output cannot be written"
}
