# Completion of robust's words for bash: source it, or copy it to /usr/share/bash-completion/completions/robust
_robust() {
    local word=${COMP_WORDS[COMP_CWORD]} before=${COMP_WORDS[COMP_CWORD - 1]} command=${COMP_WORDS[1]}
    COMPREPLY=()
    if ((COMP_CWORD == 1)); then
        mapfile -t COMPREPLY < <(compgen -W "rows solve prove check replay worst whole tree checktree sweep sweeptext cells celltext narrow text gen" -- "$word")
        return
    fi
    # (bash takes the = of --bits=V for a word of its own)
    if [[ $word == "=" ]]; then
        word=""
    elif [[ $before == "=" ]]; then
        before=${COMP_WORDS[COMP_CWORD - 2]}
    fi
    case $before in
    --bits) mapfile -t COMPREPLY < <(compgen -W "8 16 32 62" -- "$word") && return ;;
    --route) mapfile -t COMPREPLY < <(compgen -W "dual cuts" -- "$word") && return ;;
    esac
    if [[ $word == -* ]]; then
        local options="--bits"
        [[ $command == solve || $command == prove ]] && options+=" --route"
        mapfile -t COMPREPLY < <(compgen -W "$options" -- "$word")
        return
    fi
    compopt -o filenames 2>/dev/null
    mapfile -t COMPREPLY < <(compgen -f -- "$word")
}
complete -F _robust robust
