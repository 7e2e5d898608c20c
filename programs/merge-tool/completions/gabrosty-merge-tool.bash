# Completes gabrosty-merge-tool in bash.
_gabrosty_merge_tool() {
    local name word=${COMP_WORDS[COMP_CWORD]} words=
    compopt +o nospace 2> /dev/null
    case ${COMP_WORDS[COMP_CWORD - 1]} in
    --path | --marks | --marker-length | --base-label | --ours-label | --theirs-label) ;;
    *) case $word in -*) words="--path --base-label --ours-label --theirs-label --marks --markers --marker-length --version -h --help" ;; esac ;;
    esac
    # without words, files are completed
    COMPREPLY=()
    for name in $words; do
        case $name in "$word"*) COMPREPLY+=("$name") ;; esac
    done
}
complete -o bashdefault -o default -F _gabrosty_merge_tool gabrosty-merge-tool
