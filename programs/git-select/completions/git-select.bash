# Completes git-select, and git select, in bash: made by tools/dev/make-pages.
_git_select() {
    local name word=${COMP_WORDS[COMP_CWORD]} words=
    compopt +o nospace 2> /dev/null
    case ${COMP_WORDS[COMP_CWORD - 1]} in
    --fixup) words=$(env GIT_NO_LAZY_FETCH=1 GIT_ALLOW_PROTOCOL= git log --no-show-signature -20 --format=%h 2> /dev/null) ;;
    -m|--message) ;;
    --only) ;;
    --then) ;;
    --untracked-files) ;;
    --marks) ;;
    *) case $word in -*) words="--unstage --restore --stash --commit --amend --fixup --split --finish --undo -m --message -w --ignore-all-space --only --edit --then --untracked-files --no-untracked --read-all -v --verbose --marks --version -h --help" ;; esac ;;
    esac
    # without words, files are completed
    COMPREPLY=()
    for name in $words; do
        case $name in "$word"*) COMPREPLY+=("$name") ;; esac
    done
}
complete -o bashdefault -o default -F _git_select git-select
