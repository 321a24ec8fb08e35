# For checks that play case files; they source it at the top of the repository.
#
# play_all GIVEN WRITTEN [PLAYER]: has a player, `play` or `play_api`, write each file of the folder GIVEN, with the answers
# as they are, into the folder WRITTEN. Players are tools, and not proved in the gate: where one isn't built, or `tried` is
# set, `rt try` compiles it and all below it, in about a minute, with a check at each index, sum and unwrap, and of each
# access to memory.
play_all() {
    local given=$1 written=$2 player=${3:-play} play file
    play=crates/$player/out/$player
    if [ -x "$play" ] && [ -z "${tried:-}" ]; then
        for file in "$given"/*; do
            "$play" < "$file" > "$written/$(basename "$file")"
        done
        return
    fi
    (cd "crates/$player" && rt try --steps 1 --cases "$given" > "$written.all" 2> "$written.err")
    ls "$given" | awk -v to="$written/" '
        FNR == NR { names["== " $0]; next }
        $0 in names { file = to substr($0, 4); printf "" > file; next }
        file { print > file }' - "$written.all"
    grep '^cases=.* fault=0 .*no-answer=0' "$written.err" || {
        tail -n 20 "$written.err"
        return 1
    }
}
