# What bash completes behind the tools of a package, as zlab-explore: options, as --help of each has them, and files by
# their endings. bash-completion finds it by the name of each; without that package, source it.

# _zlab_tool_files WORD ENDING ..: files with one of these endings, and folders, which may have some.
_zlab_tool_files() {
    local ending
    compopt -o filenames 2> /dev/null
    mapfile -t COMPREPLY < <(
        for ending in "${@:2}"; do
            compgen -f -X "!*$ending" -- "$1"
        done
        compgen -d -- "$1"
    )
}

_zlab_tool() {
    local tool=${1##*/} word=$2 before=$3
    case "$before" in
        --chart) mapfile -t COMPREPLY < <(compgen -W 'mermaid svg' -- "$word"); return ;;
        --zlab | --map | --schedule | --turns) compopt -o filenames 2> /dev/null
            mapfile -t COMPREPLY < <(compgen -f -- "$word"); return ;;
        -D | --program | --watch | --random | --runs | --bad | --part | --worlds) return ;;
    esac
    if [[ $word = -* ]]; then
        mapfile -t COMPREPLY < <(compgen -W "$("$1" --help 2> /dev/null |
            sed -n 's/^  \(-[^ ,]*\),* *\(--[a-z]*\)\{0,1\}.*/\1 \2/p')" -- "$word")
        return
    fi
    case "$tool" in
        zlab-explain) mapfile -t COMPREPLY < <(compgen -W "$("$1" 2> /dev/null | cut -d ' ' -f 1)" -- "$word") ;;
        zlab-try-all) compopt -o filenames 2> /dev/null; mapfile -t COMPREPLY < <(compgen -d -- "$word") ;;
        zlab-explore | zlab-walk) _zlab_tool_files "$word" .zls .zlt ;;
        zlab-follow) _zlab_tool_files "$word" .zls .zlt .trace ;;
        *) _zlab_tool_files "$word" .zls .zlt .zasm .zli ;;
    esac
}
complete -F _zlab_tool zlab-{disasm,explain,explore,follow,lint,names,states,try-all,walk}
