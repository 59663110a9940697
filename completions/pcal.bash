# bash completion for pcal
_pcal() {
    local current=${COMP_WORDS[COMP_CWORD]} before=${COMP_WORDS[COMP_CWORD-1]}
    COMPREPLY=()
    if [ "$COMP_CWORD" -eq 1 ]; then
        COMPREPLY=($(compgen -W "translate check map rewrite run trace make" -- "$current"))
        return
    fi
    if [ "$before" = --to ]; then
        COMPREPLY=($(compgen -W "p c" -- "$current"))
        return
    fi
    case $current in
    -*)
        case ${COMP_WORDS[1]} in
        translate | run | trace) COMPREPLY=($(compgen -W "--label --no-terminating" -- "$current")) ;;
        check | map) COMPREPLY=($(compgen -W "--label" -- "$current")) ;;
        rewrite) COMPREPLY=($(compgen -W "--to" -- "$current")) ;;
        esac
        ;;
    *)
        case ${COMP_WORDS[1]} in
        run | trace)
            compopt -o filenames 2>/dev/null
            COMPREPLY=($(compgen -f -- "$current"))
            ;;
        translate | check | map | rewrite)
            compopt -o filenames 2>/dev/null
            local word
            while IFS= read -r word; do
                COMPREPLY+=("$word")
            done < <(compgen -d -- "$current"; compgen -f -X '!*.tla' -- "$current")
            ;;
        esac
        ;;
    esac
}
complete -F _pcal pcal
