# Completions of bash for onfiseq, made of what it says of itself: source this file, or put it into ~/.local/share/bash-completion/completions
_onfiseq() {
    local word=${COMP_WORDS[COMP_CWORD]} before=${COMP_WORDS[COMP_CWORD - 1]} command=${COMP_WORDS[1]} options value places=() place=0 k
    # --option=value stands in three words
    if [ "$word" = = ]; then word=; elif [ "$before" = = ]; then before=${COMP_WORDS[COMP_CWORD - 2]}; fi
    COMPREPLY=()
    if [ "$COMP_CWORD" = 1 ]; then
        COMPREPLY=($(compgen -W "asm verify lint explain once run capture check timing image ops wave draw dis page upgrade help -h --help -V --version" -- "$word"))
        return
    fi
    case $command in
        asm) options='--auto --profile -h --help' places=('FILE' 'FILE') ;;
        verify) options='--profile --counter --wave --draw --search --quiet --json -h --help' places=('FILE' 'FILE') ;;
        lint) options='--profile --fix --deny --allow --json -h --help' places=('FILE' 'FILE') ;;
        explain) options='--profile --json -h --help' places=('FILE' 'FILE') ;;
        once) options='--base -h --help' places=() ;;
        run) options='--profile --workers --max-steps --quiet --times --trace --wave --draw --stats -h --help' places=('FILE') ;;
        capture) options='--profile --map --csv --times --glitch --outputs --vendor -h --help' places=('FILE' '1 2 3 4' 'FILE' 'FILE') ;;
        check) options='--profile --all --recorded --readies-from-status --assume-ready --from-middle --bytes --notes --write --json --vendor --timing --unit --slack --data --on --erased -h --help' places=('FILE' '1 2 3 4' 'FILE') ;;
        timing) options='--profile --timing --all --unit --slack --map --csv -h --help' places=('FILE' '1 2 3 4' 'FILE') ;;
        image) options='--profile --on --reads --recorded --readies-from-status --vendor -h --help' places=('FILE' '1 2 3 4' 'FILE' '0 1 2 3' '0 1 2 3' 'FILE') ;;
        ops) options='--profile --from-middle --polls --bytes --csv --json --lun --block --kind --items --from --to --no-summary --vendor -h --help' places=('FILE' '1 2 3 4' 'FILE') ;;
        wave) options='--profile --recorded --vendor -h --help' places=('FILE' '1 2 3 4' 'FILE' 'FILE') ;;
        draw) options='--profile --recorded --vendor -h --help' places=('FILE' '1 2 3 4' 'FILE' 'FILE') ;;
        dis) options='-h --help' places=('FILE') ;;
        page) options='--show --from --map --csv --data --spare --pages --blocks --luns --planes --cache --status-enhanced --declare --profile --vendor -h --help' places=('FILE') ;;
        upgrade) options='-h --help' places=('FILE' 'FILE') ;;
        help) options='' places=('COMMAND') ;;
        *) return ;;
    esac
    _onfiseq_value "$before"
    if [ -z "$value" ]; then
        case $word in -*) COMPREPLY=($(compgen -W "$options" -- "$word")) && return ;; esac
        # which argument it is: those in front of it are neither options nor their values
        for ((k = 2; k < COMP_CWORD; k++)); do
            case ${COMP_WORDS[k]} in
                =) ((k++)) ;;
                -*) _onfiseq_value "${COMP_WORDS[k]}"; if [ -n "$value" ] && [ "${COMP_WORDS[k + 1]}" != = ]; then ((k++)); fi ;;
                *) ((place++)) ;;
            esac
        done
        value=${places[place]}
    fi
    case $value in
        FILE) compopt -o filenames 2> /dev/null; mapfile -t COMPREPLY < <(compgen -f -- "$word") ;;
        COMMAND) COMPREPLY=($(compgen -W "asm verify lint explain once run capture check timing image ops wave draw dis page upgrade help" -- "$word")) ;;
        ANY | '') ;;
        *) COMPREPLY=($(compgen -W "$value" -- "$word")) ;;
    esac
}

# What the option of this name takes, in value: nothing, a FILE, one of some words, or ANY.
_onfiseq_value() {
    value=
    case $command$1 in
        asm--auto) value='FILE' ;;
        asm--profile) value='base onfi' ;;
        verify--profile) value='base onfi' ;;
        verify--counter) value='FILE' ;;
        verify--wave) value='FILE' ;;
        verify--draw) value='FILE' ;;
        verify--search) value='FILE' ;;
        lint--profile) value='base onfi' ;;
        explain--profile) value='base onfi' ;;
        once--base) value='ANY' ;;
        run--profile) value='base onfi' ;;
        run--workers) value='1 2 3 4 5 6 7 8' ;;
        run--max-steps) value='ANY' ;;
        run--times) value='0 1 2 3 4 5' ;;
        run--trace) value='FILE' ;;
        run--wave) value='FILE' ;;
        run--draw) value='FILE' ;;
        capture--profile) value='base onfi' ;;
        capture--glitch) value='ANY' ;;
        capture--outputs) value='ANY' ;;
        capture--vendor) value='FILE' ;;
        check--profile) value='base onfi' ;;
        check--write) value='FILE' ;;
        check--vendor) value='FILE' ;;
        check--unit) value='FILE' ;;
        check--slack) value='FILE' ;;
        timing--profile) value='base onfi' ;;
        timing--unit) value='FILE' ;;
        timing--slack) value='FILE' ;;
        image--profile) value='base onfi' ;;
        image--on) value='FILE' ;;
        image--vendor) value='FILE' ;;
        ops--profile) value='base onfi' ;;
        ops--block) value='FILE' ;;
        ops--from) value='FILE' ;;
        ops--to) value='FILE' ;;
        ops--vendor) value='FILE' ;;
        wave--profile) value='base onfi' ;;
        wave--vendor) value='FILE' ;;
        draw--profile) value='base onfi' ;;
        draw--vendor) value='FILE' ;;
        page--show) value='FILE' ;;
        page--from) value='FILE' ;;
        page--data) value='ANY' ;;
        page--spare) value='ANY' ;;
        page--pages) value='ANY' ;;
        page--blocks) value='ANY' ;;
        page--luns) value='ANY' ;;
        page--planes) value='1 2 4' ;;
        page--declare) value='FILE' ;;
        page--profile) value='base onfi' ;;
        page--vendor) value='FILE' ;;
    esac
}

complete -F _onfiseq onfiseq
