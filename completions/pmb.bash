# shellcheck shell=bash
# Completion of the words of pmb in bash (docs/program.md#completion): subcommands, flags, FORMATs, sources,
# addresses of devices, files, and after `-p` and `<` the profiles of parts beside files.

# The profiles of real parts that are installed, a path a line.
_pmb_parts() {
    local folder program
    program=$(type -P pmb)
    for folder in "${program%/bin/pmb}/share/pmb/profiles" /usr/local/share/pmb/profiles \
        /usr/share/pmb/profiles; do
        if [ -d "$folder" ]; then
            printf '%s\n' "$folder"/*.toml
            return
        fi
    done
}

# The addresses of the devices of the profiles in this folder, or where the words say so of the sample.
_pmb_devices() {
    case " ${words[*]} " in
        *' --sample '*)
            "${words[0]}" profile --sample 2>/dev/null | sed -n 's/^address  *\([0-9a-f][0-9a-f]\),.*/\1/p'
            ;;
        *)
            cat -- ./*.toml 2>/dev/null | tr A-F a-f | sort -u |
                sed -n 's/^[[:blank:]]*address[[:blank:]]*=[[:blank:]]*0x\([0-9a-f][0-9a-f]\).*/\1/p'
            ;;
    esac
}

# The names of the parts, each with the mark before its address.
_pmb_names() {
    pmb parts 2>/dev/null | sed 's/ .*/@/'
}

# What FORMAT can be, after what stands there so far.
_pmb_formats() {
    local it
    case $current in
        linear11:* | ulinear16:* | slinear16:*)
            for it in {-16..15}; do echo "${current%%:*}:$it"; done
            ;;
        vid:*) printf 'vid:%s\n' vr11 vr12 vr13 imvp9 amd625mv nvidia195mv ;;
        *) printf '%s\n' linear11 linear11: ulinear16: slinear16: half direct: udirect: vid: vout: ;;
    esac
}

# The names of faults, a line each.
_pmb_faults() {
    "${words[0]}" explain 2>/dev/null | sed 's/^[^:]*: //' | tr ' ' '\n' | sort -u
}

# The flags of a subcommand.
_pmb_flags() {
    local facts='--profile --part --joined --sample --late --fixed-vout-mode --keep-going --digits --device'
    case $1 in
        import) echo --joined --bus --rate --unshifted --help ;;
        show | check | build | run | profile) echo --profile --part --joined --sample --help ;;
        scan) echo --joined --help ;;
        json) echo "$facts" --help ;;
        log) echo "$facts" --color --help ;;
        stats) echo --json "$facts" --fail-on --color --help ;;
        encode | decode | parts | explain) echo --help ;;
        '') echo --help --version ;;
    esac
}

# Whether a flag has a value.
_pmb_has_value() {
    case $1 in -p | --profile | --part | --bus | --rate | --digits | --device | --fail-on | --color) ;; *) return 1 ;; esac
}

# What the value of a flag can be, after what stands there so far.
#   _pmb_values FLAG VALUE
_pmb_values() {
    local front=''
    case $1 in
        --digits) printf '%s\n' {0..12} ;;
        --device) _pmb_devices ;;
        --part) _pmb_names ;;
        --color) printf '%s\n' auto always never ;;
        --fail-on)
            case $2 in *,*) front=${2%,*}, ;; esac
            printf '%s\n' "$front"{refusals,bad-tokens,nacks,alerts,faults,none-read}
            ;;
    esac
}

# What the word can be that stands there: a line each, from its beginning.
_pmb_words() {
    local flag=''
    if [ -n "$last" ]; then
        _pmb_values "$last" "$current"
        return
    fi
    case $current in
        --*=*)
            flag=${current%%=*}
            ! _pmb_has_value "$flag" || _pmb_values "$flag" "${current#*=}" | sed "s/^/$flag=/"
            ;;
        -*) _pmb_flags "$command" | tr ' ' '\n' ;;
        *)
            case $command:$given in
                :) printf '%s\n' import log stats show check json profile scan parts build run encode decode explain help ;;
                help:) printf '%s\n' import log stats show check json profile scan parts build run encode decode help ;;
                explain:*) _pmb_faults ;;
                import:) printf '%s\n' sigrok saleae beagle kernel smbus ;;
                encode: | decode:) _pmb_formats ;;
                parts:*) _pmb_names ;;
            esac
            ;;
    esac
}

# Reads what stands before the word: the subcommand, what it was given, and a flag whose value comes next.
_pmb_front() {
    local it
    for it in "${words[@]:1}"; do
        if [ -n "$last" ]; then
            last=''
        elif _pmb_has_value "$it" || [[ $it == [\<\>] || $it == '>>' ]]; then
            last=$it
        elif [ -z "$command" ] && [[ $it != [-\<\>]* ]]; then
            command=$it
        elif [[ $it != [-\<\>]* ]]; then
            given=$it
        fi
    done
}

# Whether a file is to be named that may be a profile: after `-p` and `<`, and for `profile`.
_pmb_names_profile() {
    case $last:$command in '<:'* | -p:* | --profile:* | :profile) ;; *) return 1 ;; esac
}

# Whether a file is to be named.
_pmb_names_file() {
    case $last:$command in
        -p:* | --profile:*) ;;
        :import) [[ -n $given && $current != -* ]] ;;
        :show | :check | :json | :log | :stats | :build | :run | :profile | :scan) [[ $current != -* ]] ;;
        *) return 1 ;;
    esac
}

# Files, and where a profile may be named the parts whose names begin so.
_pmb_files() {
    local it
    while IFS='' read -r it; do COMPREPLY+=("$it"); done < <(compgen -f -- "$1")
    if _pmb_names_profile; then
        while IFS='' read -r it; do
            [[ ${it##*/} != "$1"* ]] || COMPREPLY+=("$it")
        done < <(_pmb_parts)
    fi
    compopt -o filenames 2>/dev/null
}

_pmb() {
    local line=${COMP_LINE:0:COMP_POINT} current='' command='' given='' last='' front='' mark it
    local -a words
    COMPREPLY=()
    read -ra words <<<"$line"
    if [[ $line != *[[:blank:]] ]]; then
        current=${words[${#words[@]} - 1]}
        unset "words[${#words[@]} - 1]"
    fi
    _pmb_front
    if [[ $current == [\<\>]* ]]; then
        last=${current:0:1} current=${current#[<>]}
    fi
    if [[ $last == [\<\>]* ]] || _pmb_names_file; then
        _pmb_files "$current"
        return
    fi
    # (of a word with one of these marks bash replaces what is behind the last of them)
    for mark in : = @; do
        if [[ $COMP_WORDBREAKS == *$mark* && ${current#"$front"} == *$mark* ]]; then
            front=${current%"$mark"*}$mark
        fi
    done
    while IFS='' read -r it; do
        [[ -z $it || $it != "$current"* ]] || COMPREPLY+=("${it#"$front"}")
    done < <(_pmb_words)
    # (a word that goes on has no blank after it)
    if [[ ${#COMPREPLY[@]} = 1 && ${COMPREPLY[0]} == *[:@] ]]; then
        compopt -o nospace 2>/dev/null
    fi
}

complete -F _pmb pmb
