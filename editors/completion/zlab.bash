# What bash completes behind the word zlab: commands, options, and files by their endings. ./install puts this
# file where the package bash-completion looks for it; without that package, source it.

# Files with this ending, and folders, which may have some.
_zlab_files() {
    compopt -o filenames 2> /dev/null
    mapfile -t COMPREPLY < <(compgen -f -X "!*$1" -- "$2"; compgen -d -- "$2")
}

_zlab() {
    local word=${COMP_WORDS[COMP_CWORD]} command='' files=0 only_files='' at
    for ((at = 1; at < COMP_CWORD; at++)); do
        case "${COMP_WORDS[at]}" in
            *[\<\>]*) at=$((at + 1)) ;;
            --) only_files=yes ;;
            --workers | --limit | --burst | --worlds | --bad | --part | --from)
                # Bash makes a word of `=` too.
                [ "${COMP_WORDS[at + 1]}" = "=" ] && at=$((at + 1))
                at=$((at + 1)) ;;
            -*) [ -z "$only_files" ] || files=$((files + 1)) ;;
            *) if [ -n "$command" ]; then files=$((files + 1)); else command=${COMP_WORDS[at]}; fi ;;
        esac
    done
    case "${COMP_WORDS[COMP_CWORD - 1]}" in
        *\>*) _zlab_files '' "$word"; return ;;
        *\<*) _zlab_files .zls "$word"; return ;;
        --workers | --limit | --burst | --worlds | --bad | --part | --from | =) return ;;
    esac
    if [[ $word = -* ]] && [ -z "$only_files" ]; then
        case "$command" in
            '') mapfile -t COMPREPLY < <(compgen -W '-h --help -V --version' -- "$word") ;;
            asm | check | step | replay) mapfile -t COMPREPLY < <(compgen -W '-h --help --' -- "$word") ;;
            run) mapfile -t COMPREPLY < <(compgen -W '-h --help --workers --limit --burst --' -- "$word") ;;
            explore) mapfile -t COMPREPLY < <(compgen -W '-h --help --worlds --bad --part --from --' -- "$word") ;;
        esac
        return
    fi
    case "$command $files" in
        ' 0') mapfile -t COMPREPLY < <(compgen -W 'asm check step replay run explore help' -- "$word") ;;
        'help 0') mapfile -t COMPREPLY < <(compgen -W 'asm check step replay run explore' -- "$word") ;;
        'asm 0') _zlab_files .zasm "$word" ;;
        'asm 1' | 'check 0') _zlab_files .zli "$word" ;;
        'step 0' | 'replay 0' | 'run 0' | 'explore 0') _zlab_files .zls "$word" ;;
        'step 1' | 'replay 1') _zlab_files '' "$word" ;;
    esac
}
complete -F _zlab zlab
