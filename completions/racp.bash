# Completions of racp for bash: source this file, or put it into a folder of bash-completion as `racp`.

_racp() {
    local word=${COMP_WORDS[COMP_CWORD]} before=${COMP_WORDS[COMP_CWORD - 1]} command=${COMP_WORDS[1]}
    local commands="cpm plan prove check verify show report export curve soonest whatif order batch import explain help"
    local options=""
    if [ "$COMP_CWORD" -eq 1 ]; then
        mapfile -t COMPREPLY < <(compgen -W "$commands --help --version" -- "$word")
        return
    fi
    case $command in
        cpm) options="--json --explain --quiet" ;;
        plan) options="--workers --turns --stats --memory --time-limit --progress --best --calendar --json --explain --quiet" ;;
        prove) options="--facts --time-limit --explain --quiet" ;;
        check) options="--json --explain --quiet" ;;
        verify) options="--time-limit --json --explain --quiet" ;;
        show) options="--names --width --ascii --svg --links --calendar --start-date --workdays --unit --json --csv --explain --quiet" ;;
        report) options="--names --curve --whatif --proof --calendar --start-date --workdays --unit --explain --quiet" ;;
        export) options="--to --calendar --names --explain --quiet" ;;
        curve) options="--workers --turns --memory --time-limit --progress --best --svg --calendar --json --explain --quiet" ;;
        soonest) options="--workers --turns --memory --time-limit --json --explain --quiet" ;;
        whatif) options="--names --workers --turns --memory --time-limit --calendar --json --explain --quiet" ;;
        order) options="--names --factor --deadline --prices --owned --ceiling --calendar --json --explain --quiet" ;;
        batch) options="--factors --price --time-limit --memory --jobs --out --calendar --quiet" ;;
        import) options="--out --from --prices --factor --deadline --owned --ceiling --resources --ignore --hours-a-day --unit --calendar
            --date-format --strict --force --quiet" ;;
        explain)
            mapfile -t COMPREPLY < <(compgen -W "sm order plan names impossible fault --help" -- "$word")
            return
            ;;
        help)
            mapfile -t COMPREPLY < <(compgen -W "$commands" -- "$word")
            return
            ;;
    esac
    case $before in
        --workers | --turns | --memory | --time-limit | --width) return ;;
        --factor | --deadline | --prices | --owned | --ceiling | --from | --date-format) return ;;
        --to) mapfile -t COMPREPLY < <(compgen -W "ics csv md mspdi tjp" -- "$word"); return ;;
    esac
    if [[ $word == -* ]]; then
        mapfile -t COMPREPLY < <(compgen -W "$options --help" -- "$word")
    else
        mapfile -t COMPREPLY < <(compgen -f -- "$word")
    fi
}

complete -o filenames -F _racp racp
