# What the checks of case files share: the names that the cases show, in their lines `shows`.

export LC_ALL=C

# The answers that are claimed and not given: a case that shows a refusal, as X01, has the answer `= refused X01 ..`,
# and one that shows what a book does with a note, as Moved, has `= moved`.
unanswered='
    function end_case(    name) {
        for (name in claimed) if (!(claimed[name] in answered)) print "not answered in case " label ": " name
        delete claimed
        delete answered
    }
    FNR == 1 || /^case / { end_case(); label = $2 }
    /^shows / {
        for (i = 2; i <= NF; i++) {
            if ($i ~ /^[A-Z][0-9][0-9]$/) claimed[$i] = "= refused " $i
            else if ($i ~ /^[A-Z][a-z]+$/) claimed[$i] = "= " tolower($i)
        }
    }
    /^= refused / { answered[$1 " " $2 " " $3] }
    /^= / { answered[$0] }
    END { end_case() }'

# Prints each of the wanted names, one a line in the first argument, that no case of the files shows, each name that is
# shown and not wanted, and each answer that is claimed and not given. Ends with status 0 where it printed nothing.
are_shown() {
    local wanted shown said
    wanted=$(sort -u <<< "$1")
    shift
    shown=$(sed -n 's/^shows //p' "$@" | tr ' ' '\n' | sort -u)
    said=$(
        comm -23 <(echo "$wanted") <(echo "$shown") | sed 's/^/no case: /'
        comm -13 <(echo "$wanted") <(echo "$shown") | sed 's/^/nothing has this name: /'
        awk "$unanswered" "$@"
    )
    if [ -n "$said" ]; then
        echo "$said"
        return 1
    fi
}

# The refusal codes of a source file, but for lack of memory: no case can bring that about, and checks/built/refusals
# refuses each growth of memory in turn.
codes_of() {
    grep -v 'out of memory' "$1" | grep -oE '"[A-Z][0-9]{2} ' | tr -d '" '
}
