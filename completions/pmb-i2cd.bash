# shellcheck shell=bash
# Completion of the words of pmb-i2cd in bash (docs/i2cd.md): its options, and as PROFILE files and the profiles
# of parts that are installed. After `--run --` come a command's words.

_pmb_i2cd() {
    local current=${COMP_WORDS[COMP_CWORD]} before=${COMP_WORDS[COMP_CWORD - 1]} it folder
    local -a parts=()
    COMPREPLY=()
    for it in "${!COMP_WORDS[@]}"; do
        if [[ ${COMP_WORDS[it]} == -- && $it -lt $COMP_CWORD ]]; then
            # (those of the command: bash-completion has them)
            if declare -F _command_offset >/dev/null; then
                _command_offset $((it + 1))
            else
                while IFS='' read -r it; do COMPREPLY+=("$it"); done < <(compgen -c -- "$current")
            fi
            return
        fi
    done
    case $before in
        --cuse)
            while IFS='' read -r it; do COMPREPLY+=("$it"); done < <(compgen -W 'i2c-0 i2c-1 i2c-7' -- "$current")
            return
            ;;
        --run) COMPREPLY=(--) && return ;;
    esac
    if [[ $current == -* ]]; then
        while IFS='' read -r it; do COMPREPLY+=("$it"); done < <(
            compgen -W '--socket --cuse --log --shim --run --help' -- "$current"
        )
        return
    fi
    while IFS='' read -r it; do COMPREPLY+=("$it"); done < <(compgen -f -- "$current")
    compopt -o filenames 2>/dev/null
    case $before in --socket | --log | --shim) return ;; esac
    it=$(type -P pmb-i2cd)
    for folder in "${it%/bin/pmb-i2cd}/share/pmb/profiles" /usr/local/share/pmb/profiles /usr/share/pmb/profiles; do
        if [ -d "$folder" ]; then parts=("$folder"/*.toml) && break; fi
    done
    for it in "${parts[@]}"; do
        [[ ${it##*/} != "$current"* ]] || COMPREPLY+=("$it")
    done
}

complete -F _pmb_i2cd pmb-i2cd
