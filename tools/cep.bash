# Completion of `cep` for bash: source this file, or put it into /etc/bash_completion.d.
_cep() {
    local current=${COMP_WORDS[COMP_CWORD]} previous=${COMP_WORDS[COMP_CWORD - 1]}
    local word positions=0 index
    for ((index = 1; index < COMP_CWORD; index++)); do
        word=${COMP_WORDS[index]}
        case $word in
            --lag | --rows | --seed | --count) index=$((index + 1)) ;;
            -?*) ;;
            *) positions=$((positions + 1)) ;;
        esac
    done
    COMPREPLY=()
    case $previous in
        --lag | --rows | --seed | --count) return ;;
    esac
    if [[ $current == -* ]]; then
        mapfile -t COMPREPLY < <(compgen -W "--lag --rows --header --seed --count" -- "$current")
    elif [ "$positions" -eq 0 ]; then
        mapfile -t COMPREPLY < <(compgen -W "run check explain load" -- "$current")
    elif [ "$positions" -eq 1 ]; then
        mapfile -t COMPREPLY < <(compgen -f -- "$current")
    fi
}
complete -o filenames -F _cep cep
