# Bash completion for `dispatch`, its commands and their options: source it, or copy it to
# /usr/share/bash-completion/completions/dispatch.

# The options of a command.
_dispatch_options() {
    case $1 in
        order) echo --dialect --sweep --leg --symbol --side --shares --price --number --from --to --at --raw --read --help ;;
        replay) echo --steps --frames --summary --ladder --check --help ;;
        check) echo --from --desk --json --legs --executions --exact --help ;;
        live) echo --venues --callers --sweeps --cut --turns --cut-short --stop-on-input --help ;;
        journal) echo --lines --log --help ;;
        run) echo --check --executions --json --patience --quiet --refs --serve --wait --help ;;
        exchange) echo --port --sender --target --dialect --fill --cut --lose --help ;;
    esac
}

# Whether an option takes a value of a command.
_dispatch_takes_value() {
    case $1:$2 in
        *:--help | order:--raw | order:--read | journal:--lines | live:--cut-short | live:--stop-on-input) return 1 ;;
        replay:--ladder) return 0 ;;
        replay:* | check:--executions | check:--json | check:--legs | run:--check | run:--executions | run:--json | run:--quiet | run:--serve | run:--wait) return 1 ;;
        *:--*) return 0 ;;
        *) return 1 ;;
    esac
}

_dispatch() {
    local word=${COMP_WORDS[COMP_CWORD]} before=${COMP_WORDS[COMP_CWORD - 1]} command=${COMP_WORDS[1]}
    COMPREPLY=()
    if [ "$COMP_CWORD" -eq 1 ]; then
        mapfile -t COMPREPLY < <(compgen -W 'order replay check journal live run exchange build help --help --version' -- "$word")
        return
    fi
    if _dispatch_takes_value "$command" "$before"; then
        case $before in
            --dialect) mapfile -t COMPREPLY < <(compgen -W 'plain split coded' -- "$word") ;;
            --exact) mapfile -t COMPREPLY < <(compgen -W 'plain split coded auto' -- "$word") ;;
            --refs) mapfile -t COMPREPLY < <(compgen -W 'required' -- "$word") ;;
            --side) mapfile -t COMPREPLY < <(compgen -W 'buy sell' -- "$word") ;;
            --from) [ "$command" != check ] || mapfile -t COMPREPLY < <(compgen -W 'quickfix' -- "$word") ;;
        esac
        return
    fi
    if [[ $word == -* ]]; then
        mapfile -t COMPREPLY < <(compgen -W "$(_dispatch_options "$command")" -- "$word")
        return
    fi
    case $command in
        help) mapfile -t COMPREPLY < <(compgen -W 'order replay check journal live run exchange' -- "$word") ;;
        run | replay | check)
            compopt -o filenames 2> /dev/null
            mapfile -t COMPREPLY < <(compgen -f -- "$word")
            ;;
        journal)
            compopt -o filenames 2> /dev/null
            mapfile -t COMPREPLY < <(compgen -d -- "$word")
            ;;
    esac
}

complete -F _dispatch dispatch
