# What `./dispatch`, `shipped/refresh` and the gate know of the program: which crates it is made of, and the sum of their
# sources. To be read by `source`, with `here` set to the top of the repository.
top=dispatch_main
shipped=$here/shipped/dispatch.gz
made_of=$here/shipped/made_of

# The crates that the program is made of, in the order of crates.txt, whose lines each name a crate and what it uses.
crates_of_program() {
    awk -F '[: ]+' -v top="$top" '
        { lines[NR] = $0 }
        END {
            wanted[top]
            do {
                found = 0
                for (at = NR; at; at--) {
                    count = split(lines[at], words)
                    if (count && words[1] in wanted && !(at in crates)) {
                        crates[at] = words[1]
                        for (i = 2; i <= count; i++) wanted[words[i]]
                        found = 1
                    }
                }
            } while (found)
            for (at = 1; at <= NR; at++) if (at in crates) print crates[at]
        }' "$here/crates.txt"
}

# The lines of crates.txt of these crates.
lines_of() {
    awk -F '[: ]' 'NR == FNR { wanted[$1]; next } $1 != "" && $1 in wanted' <(printf '%s\n' "$@") "$here/crates.txt"
}

# The sum of all that the program is made of: the lines of crates.txt of its crates, and what stands in their src, specs
# and proofs, by name and content.
sum_of_sources() {
    local crates
    mapfile -t crates < <(crates_of_program)
    (
        cd "$here/crates" || exit
        lines_of "${crates[@]}"
        for crate in "${crates[@]}"; do
            find "$crate/src" "$crate/specs" "$crate/proofs" -type f -print0 2>/dev/null
        done | LC_ALL=C sort -z | xargs -0 sha256sum
    ) | sha256sum | cut -d ' ' -f 1
}

# What `shipped/made_of` says of a word: `kit`, `sources`, `program` or `runs_on`.
made_of() {
    sed -n "s/^$1 //p" "$made_of"
}
