# Sourced by the checks that refuse a program each growth of memory in turn.

# How long a run may take. One that takes longer is ended, with status 124.
most_seconds=${most_seconds:-600}
# How many runs go side by side.
at_once=${at_once:-$(nproc)}

place=$(mktemp -d)
trap 'rm -rf "$place"' EXIT
clang -O2 -shared -fPIC -o "$place/refuse_growth.so" checks/built/refuse_growth.c || exit 1

# Runs a program (its words behind a number) with the growth of memory of that number refused. Standard input is read anew
# from the file `input`. The run has a folder of its own, "$place/runs/NUMBER": `out` and `err` are what it wrote, `status`
# how it ended, and it runs in `here`, where it finds what lies in the folder `files`, if one is named. A run that met no
# refusal is noted in "$place/runs/unmet".
run_refused() {
    local number=$1 room=$place/runs/$1
    shift
    [ -z "${files:-}" ] || cp -r "$files/." "$room/here/"
    cd "$room/here" || exit
    timeout "$most_seconds" env REFUSED="$number" MET="$room/met" LD_PRELOAD="$place/refuse_growth.so" "$@" \
        > "$room/out" 2> "$room/err"
    echo $? > "$room/status"
    [ -e "$room/met" ] || echo "$number" >> "$place/runs/unmet"
}

# Runs a program (its words behind the name of a judge) again and again, the first run refused its first growth of
# memory, the next its second, and so on to a run that meets no refusal. Then the judge is called for each of them with
# the growth's number, the run's status and its folder. How many growths were refused is left in `growths`.
refuse_each_growth() {
    local judge=$1 started=0 running=0 number ended last
    shift
    rm -rf "$place/runs"
    mkdir "$place/runs"
    while [ ! -e "$place/runs/unmet" ]; do
        if [ "$running" -eq "$at_once" ]; then
            wait -n
            running=$((running - 1))
            continue
        fi
        if [ $((started % 64)) -eq 0 ]; then
            mkdir -p $(seq -f "$place/runs/%.0f/here" $((started + 1)) $((started + 64)))
        fi
        started=$((started + 1))
        run_refused "$started" "$@" < "$input" &
        running=$((running + 1))
    done
    wait
    last=$(sort -n "$place/runs/unmet" | head -n 1)
    for ((number = 1; number <= last; number++)); do
        read -r ended < "$place/runs/$number/status"
        "$judge" "$number" "$ended" "$place/runs/$number"
    done
    growths=$((last - 1))
}

same_lines() {
    if [ "$2" -ne 0 ] || ! cmp -s "$3/out" "$place/wanted"; then
        echo "growth $1 refused: status $2: $(head -n 1 "$3/err")"
        status=1
    fi
}

# A program (its name and its words behind the least number of growths), which makes each call again that is refused
# memory, must print the same whichever growth is refused, and be refused at least so many. What it prints stands in what
# is stored beside its crate. Skipped (77) where the program isn't built.
must_print_the_same() {
    local least=$1 name=$2
    local program=$PWD/crates/$name/out/$name
    shift 2
    local line="$name${*:+ $*}"
    status=0
    if [ ! -x "$program" ]; then
        echo "not built: $program"
        return 77
    fi
    "$program" "$@" > "$place/wanted" < /dev/null
    if [ ! -s "$place/wanted" ] || [[ $(cat "crates/$name/stdout") != *"$(cat "$place/wanted")"* ]]; then
        echo "$line: not what is stored"
        return 1
    fi
    input=/dev/null
    refuse_each_growth same_lines "$program" "$@"
    echo "$line: $growths growths refused in turn"
    [ "$growths" -ge "$least" ] || status=1
    return $status
}
